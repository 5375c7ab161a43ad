"""Calls at the edges of what the headers allow: no bytes, NULL for none, too little room,
kinds that don't exist, tables of any size."""
import mmap
from ctypes import c_char

import pytest

from calling import (ALL_KINDS, CSI, DATA, ESC, EXECUTE, FUNCTIONS, HOOK, NO_ROOM, OSC,
                     ROOMS, TEXT, UNHOOK, Parser, Processor, make_parsers)

OK, BELL, TRUNCATED = 0, 1, 2
STREAM = b"a\x1b[1mb"
DATA_STRINGS = b"a\x1bPqxyz\n\x7fb\x80\x7fcde\x1b\\\x1bPq\x18\x1bPqf\x9cg"
EACH_KIND = b"a\r\x1bP1q+\x1b\\\x1b]t\x07\x1b[1mb\x1b(B\x1bPq-\x18\x1bPqxyz"


REFUSED = NO_ROOM, 0, 0
# bytes, sets of kinds, room for events and data; what is read, and what is written of both
CALLS = {
    "no bytes": (b"", ALL_KINDS, 0, (4, 2112), (0, 0, 0)),
    **{f"room for {rooms[0]} events and {rooms[1]} bytes, {name}":
       (sent, ALL_KINDS, 0, rooms, REFUSED)
       for name, sent in {"no bytes": b"", "some bytes": STREAM}.items()
       for rooms in [(0, 2112), (1, 2112), (2, 2112), (3, 2112), (4, 2111), (0, 0)]},
    "a group of one number takes three bytes": (STREAM, ALL_KINDS, 0, ROOMS, (6, 3, 3)),
    "a piece takes four bytes and its own": (b"\x1b]2;t\x07", ALL_KINDS, 0, ROOMS, (6, 1, 10)),
    **{f"a stop at kind {kind}, of which there is none":
       (STREAM, 2 ** 32 - 1, 1 << kind, ROOMS, (6, 3, 3)) for kind in range(8, 32)},
    "all kinds that aren't there": (STREAM, 2 ** 32 - 256, 2 ** 32 - 256, ROOMS, (6, 0, 0)),
    "a stop at text": (STREAM, ALL_KINDS, 1 << TEXT, ROOMS, (1, 1, 0)),
    "a stop at a control sequence": (STREAM, ALL_KINDS, 1 << CSI, ROOMS, (5, 2, 3)),
    "a stop at data": (DATA_STRINGS, ALL_KINDS, 1 << DATA, ROOMS, (8, 3, 3))}


@pytest.mark.parametrize("sent, kinds, stops, rooms, wanted", CALLS.values(), ids=CALLS)
def test_a_call_ends_at_a_stop_and_needs_room(library, sent, kinds, stops, rooms, wanted):
    # a parser without a limit has its own room for data
    for parser in make_parsers(library)[:1 if rooms[1] < 2112 else 2]:
        # data of earlier calls are gone
        for _ in range(2):
            read, events, data = parser.feed(sent, kinds, stops, rooms)
            assert (read, len(events), data) == wanted
            assert all(event.start == 0 for event in events if event.kind in (OSC, CSI))
            assert read < NO_ROOM or parser.is_long or not any(parser.pointer)
            parser.feed(b"\x18")


@pytest.mark.parametrize("sent, read, text", [(b"", 0, b""), (STREAM, 6, b"ab")])
def test_16_bytes_are_enough_for_text(library, sent, read, text):
    assert Parser(library).strip(sent, 16) == (read, text)


@pytest.mark.parametrize("sent", [b"", STREAM])
@pytest.mark.parametrize("room", range(16))
def test_fewer_bytes_are_too_few_for_text(library, sent, room):
    parser = Parser(library)
    assert parser.strip(sent, room) == (NO_ROOM, b"")
    assert not any(parser.pointer)


@pytest.mark.parametrize("kind", range(8))
def test_each_kind_can_be_chosen_and_stop(library, kind):
    """Each kind stops after its first event, if it is reported."""
    for parser in make_parsers(library):
        def feed_each(kinds, stops):
            parser.feed(b"\x18")
            read, events, _ = parser.feed(EACH_KIND, kinds, stops)
            return read == len(EACH_KIND), [event.kind for event in events]

        is_all, found = feed_each(ALL_KINDS, 1 << kind)
        assert not is_all and found.index(kind) + 2 >= len(found)
        is_all, found = feed_each(1 << kind, 0)
        assert is_all and {*found} == {kind}
        assert feed_each(ALL_KINDS & ~(1 << kind), 1 << kind)[0]


@pytest.mark.parametrize("kind, sent, wanted", [
    # a text after any other event is one
    (TEXT, b"ab\rcd\x1b]t\x07ef\x1b[1mgh\x1b(Bij\x1bP1q+\x1b\\kl\x1bPq\x18mn\xc2\x85op",
     [b"ab", b"cd", b"ef", b"gh", b"ij", b"kl", b"mn", b"op"]),
    (DATA, DATA_STRINGS, [b"xyz\n", b"b", b"cde", b"f"])])
def test_runs_are_in_the_bytes(library, kind, sent, wanted):
    """Texts and data are in the bytes of the call, one event each that these have whole."""
    for parser in make_parsers(library):
        for step, chunks in (len(sent), wanted), (1, [b"%c" % byte for byte in b"".join(wanted)]):
            found = []
            for chunk in (sent[start:start + step] for start in range(0, len(sent), step)):
                read, events, _ = parser.feed(chunk)
                runs = [event for event in events if event.kind == kind]
                assert read == len(chunk) and not any(event.flag for event in runs)
                found += [chunk[event.start:event.start + event.code] for event in runs]
            assert found == chunks
            parser.feed(b"\x18")


def test_all_of_a_long_text_has_a_position(cargo_build):
    """A parser without a limit reads 64 KiB at most, and all of these have a position."""
    sent, position = bytearray(b"a" * 200_000), 0
    sent[150_009::10_000] = b"\r" * 5
    parser = Parser(cargo_build, is_long=True)
    while position < len(sent):
        read, events, data = parser.feed(bytes(sent[position:]), rooms=(4 + position % 3, 0))
        assert 0 < read <= 65536 and data == 0
        end = 0
        for event in events:
            is_text = event.kind == TEXT
            assert ((event.start, event.flag) == (end, 0) if is_text
                    else sent[position + end] == 0x0d)
            end += event.code if is_text else 1
        assert end == read
        position += read


def test_a_call_reads_less_than_4_gib(library):
    """A call reads at most 4 GiB less one byte, so that a position has four bytes."""
    no_reserve = 0x4000
    pages = mmap.mmap(-1, 2 ** 32 + 9, mmap.MAP_PRIVATE | mmap.MAP_ANONYMOUS | no_reserve)
    pages.madvise(mmap.MADV_HUGEPAGE)
    zeros, parser = (c_char * len(pages)).from_buffer(pages), Parser(library)
    parser.feed(b"\x1b_")
    assert parser.feed(zeros)[0] == 2 ** 32 - 1


PROCESSOR_CALLS = (
    b"a\a\b\t\r\n\x1b[1;2H\x1b[31mb\x1b]2;t\a\x1b[18t\x1b[?25lc",
    "input bell backspace put_tab carriage_return linefeed go_to terminal_attribute input "
    "set_title text_area_size_chars unset_private_mode input".split())


@pytest.mark.parametrize("count", [0, 1, 3, len(FUNCTIONS), len(FUNCTIONS) + 3])
def test_a_table_may_be_of_another_version(cargo_build, count):
    """A table may be that of an earlier version or a later one. A part of a function is none."""
    processor, known = Processor(cargo_build, 8 * count), [name for name, _ in FUNCTIONS[:count]]
    assert processor.advance(PROCESSOR_CALLS[0]) == (OK, len(PROCESSOR_CALLS[0]))
    assert processor.made == [name for name in PROCESSOR_CALLS[1] if name in known]
    assert processor.call("free") == OK
    assert not any(Processor(cargo_build, 8 * count + part).pointer for part in range(1, 8))


def test_a_processor_passes_on_text_in_runs(cargo_build):
    """A call may have no bytes. A text comes in runs, also one that was held."""
    processor = Processor(cargo_build)
    assert processor.advance(b"") == (OK, 0) and processor.sync() == (OK, 0, 0, 0)
    assert processor.advance(b"a" * 40 + b"\x1b[?2026h" + b"a" * 40) == (OK, 88)
    assert 1 < len(processor.made) < 40 and {*processor.made[:-1]} == {"input"}
    status, held, is_pending, deadline = processor.sync()
    assert (status, held, is_pending, deadline > 0) == (OK, 40, 1, True)
    processor.made.clear()
    assert processor.call("stop_sync") == OK
    assert 1 < len(processor.made) < 40 and processor.sync() == (OK, 0, 0, 0)
    assert processor.call("free") == OK and cargo_build.functions.vte_processor_free(None) == OK


@pytest.mark.parametrize("chunks, ends", [(1, 3), (2, 4)])
def test_each_stop_of_an_update_adds_a_call(cargo_build, chunks, ends):
    """Where a stream is cut decides how many stops there are."""
    processor, update = Processor(cargo_build), b"\x1b[?2026ha\x1b[?2026l"
    for _ in range(chunks):
        processor.advance(update * (2 // chunks))
    assert [processor.made.count(it) for it in ("input", "unset_private_mode")] == [2, ends]
    processor.call("free")


SEVEN_COLOURS = b";".join(b"%d;#111" % index for index in range(7))


# a stream, its calls, the kinds of its events, the code of the last, and the flag of the first
@pytest.mark.parametrize("stream, calls, kinds, code, flag", [
    (b"\x1bPq#0~\x1b\\", [], {HOOK, DATA, UNHOOK, ESC}, 0x5c, 0),
    (b"\x1b]1337;File=:YQ==\a\x1b]133;A\a\x1b]7;file:///\a", [], {OSC}, 0, BELL),
    (b"\x1b]4;" + SEVEN_COLOURS + b"\a", ["set_color"] * 7, {OSC}, 0, BELL),
    (b"\x1b]4;" + SEVEN_COLOURS + b";7;#111\a", [], {OSC}, 0, BELL | TRUNCATED),
    (b"\x1b]2;t\x1b\\", ["set_title"], {OSC, ESC}, 0x5c, 0),
    (b"\x1b]2;t\x18", ["set_title"], {OSC, EXECUTE}, 0x18, 0),
    (b"\x1b]2;t\x1b[m", ["set_title", "terminal_attribute"], {OSC, CSI}, ord("m"), 0),
    (b"\x1b_Gf=100;YQ==\x1b\\", [], {ESC}, 0x5c, 0),
    (b"\x1b[1" + b";1" * 32 + b"i", [], {CSI}, ord("i"), 1)])
def test_a_second_parser_has_what_a_processor_drops(cargo_build, stream, calls, kinds, code, flag):
    """What a processor doesn't pass on is in a parser beside it, as docs/C.md says."""
    processor = Processor(cargo_build)
    processor.advance(stream)
    _, events, _ = Parser(cargo_build).feed(stream)
    assert (processor.made, {event.kind for event in events}) == (calls, kinds)
    assert (events[-1].code, events[0].flag) == (code, flag)
    processor.call("free")
