"""The functions of the library by ctypes: parsers of both kinds, and processors."""
import re
from ctypes import (CFUNCTYPE, Structure, byref, c_size_t, c_uint8, c_uint16, c_uint32, c_uint64,
                    c_void_p, create_string_buffer, sizeof)
from functools import partial

from library import INCLUDE

TEXT, EXECUTE, HOOK, DATA, UNHOOK, OSC, CSI, ESC = range(8)
ALL_KINDS, NO_ROOM, ROOMS = 0xFF, 2 ** 64 - 1, (128, 2112)
# the functions of a table, with their parameters after the first
FUNCTIONS = re.findall(r"void \(\*(\w+)\)\(void \*user(?:, ([^)]*))?\);",
                       (INCLUDE / "vte_handler.h").read_text())
FUNCTION = CFUNCTYPE(None)
SIZE_OF_TABLE = len(FUNCTIONS) * sizeof(FUNCTION)


class Event(Structure):
    _fields_ = [*((name, c_uint8) for name in ("kind", "flag", "intermediate_count", "count")),
                ("intermediates", c_uint8 * 2), ("unused", c_uint16), ("code", c_uint32),
                ("start", c_uint32)]


class Parser:
    """A parser, with a limit or without. Counts have other values before each call."""

    def __init__(self, library, is_long=False):
        self.functions, self.is_long, self.pointer = library.functions, is_long, (c_uint64 * 164)()
        if is_long:
            self.pointer = c_void_p(self.functions.vte_long_parser_new())

    def __del__(self):
        if self.is_long:
            self.functions.vte_long_parser_free(self.pointer)

    def feed(self, sent, kinds=ALL_KINDS, stops=0, rooms=ROOMS):
        """Returns how many bytes are read, the events, and how many data bytes these have."""
        counts, events, data = (c_size_t * 2)(77, 77), (Event * rooms[0])(), (c_uint8 * rooms[1])()
        common = (self.pointer, sent or None, c_size_t(len(sent)), c_uint32(kinds), c_uint32(stops),
                 events or None, c_size_t(len(events)))
        if self.is_long:
            read = self.functions.vte_long_feed(*common, byref(c_void_p()), counts)
        else:
            read = self.functions.vte_feed(*common, data or None, c_size_t(len(data)), counts)
        return read, events[:counts[0]], counts[1]

    def strip(self, sent, room):
        """Returns how many bytes are read, and the text."""
        written, text = c_size_t(77), create_string_buffer(room) if room else None
        read = self.functions.vte_strip(self.pointer, sent or None, c_size_t(len(sent)), text,
                                c_size_t(room), byref(written))
        return read, text[:written.value] if room else b"?" * written.value

    def find_open(self):
        is_open = self.functions.vte_long_is_open if self.is_long else self.functions.vte_is_open
        return is_open(self.pointer) & 0xff


def make_parsers(library):
    """Makes parsers of all kinds that the library has."""
    return [Parser(library, is_long) for is_long in (False, True)[:1 + library.is_complete]]


class Processor:
    """A processor that notes the names of its calls, of a table with `size` bytes, which has
    functions after these, too."""

    def __init__(self, library, size=SIZE_OF_TABLE):
        self.functions, self.made = library.functions, []
        names = [name for name, _ in FUNCTIONS] + ["later"] * 3
        self.table = (FUNCTION * len(names))(
            *(FUNCTION(partial(self.made.append, name)) for name in names))
        self.pointer = c_void_p(self.functions.vte_processor_new(
            self.table if size else None, c_size_t(size), None))

    def advance(self, sent):
        """Returns the status, and how many bytes are read."""
        read = c_size_t(77)
        return self.functions.vte_processor_advance(self.pointer, sent or None, c_size_t(len(sent)),
                                            byref(read)), read.value

    def sync(self):
        """Returns the status, how many bytes are held, if an update is pending, and until when."""
        held = (c_uint64 * 3)(77, 77, 77)
        status = self.functions.vte_processor_sync(self.pointer, held)
        return status, held[0], held[1] & 0xff, held[2]

    def call(self, name):
        return self.functions[f"vte_processor_{name}"](self.pointer)
