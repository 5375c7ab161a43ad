"""The events of a stream. An event equals another of the same type with the same values."""
import array
import codecs
import mmap
from collections.abc import Iterable
from typing import Any, Literal, NamedTuple, TypeVar, Union, get_args


def _equal(self: tuple[Any, ...], other: object) -> bool:
    return type(self) is type(other) and tuple.__eq__(self, other)


def _distinct(*kinds: Any) -> None:
    """Makes objects of different types differ, and each true, as named tuples don't and aren't."""
    for kind in kinds:
        kind.__eq__, kind.__ne__ = _equal, lambda self, other: not _equal(self, other)
        kind.__bool__ = lambda _: True


class Text(NamedTuple):
    """Characters to show: all up to the next other event, or to the end of what was fed."""
    text: str


class Execute(NamedTuple):
    """A control function of one byte: 00..1F or 80..9F."""
    byte: int


class Hook(NamedTuple):
    """A device control string begins. The fields are those of `Csi`."""
    groups: tuple[tuple[int, ...], ...]
    intermediates: bytes
    ignore: bool
    final: str


class Put(NamedTuple):
    """A byte of the data of a device control string."""
    byte: int


class Data(NamedTuple):
    """Data of a device control string, in the place of each `Put`, if `kinds` has `Data`.

    A call of `feed` ends it.
    """
    data: bytes


class Unhook(NamedTuple):
    """A device control string ends."""


class Osc(NamedTuple):
    """An operating system command, in the pieces that `;` separates.

    There are at most 16 pieces, whatever the limit. `bell_terminated` says whether BEL ended it,
    and `truncated` whether data were dropped: later pieces, and those past the limit of a parser.
    """
    pieces: tuple[bytes, ...]
    bell_terminated: bool
    truncated: bool = False


class Csi(NamedTuple):
    """A control sequence.

    The numbers of a group were joined by `:`. `intermediates` has at most two bytes, a private
    marker among them. `ignore` says whether there were too many of them, or of the numbers.
    """
    groups: tuple[tuple[int, ...], ...]
    intermediates: bytes
    ignore: bool
    final: str


class Esc(NamedTuple):
    """An escape sequence. `intermediates` and `ignore` are as in `Csi`."""
    intermediates: bytes
    ignore: bool
    final: str


Event = Union[Text, Execute, Hook, Put, Data, Unhook, Osc, Csi, Esc]

# what functions take
Buffer = Union[bytes, bytearray, memoryview, "array.array[int]", mmap.mmap]
# one type of event, which a type checker then knows in what they return, or any of them
EventT = TypeVar("EventT", Text, Execute, Hook, Put, Data, Unhook, Osc, Csi, Esc)
Kind = Union[type[EventT], Iterable[type[EventT]]]
Kinds = Union[type[Event], Iterable[type[Event]]]
Errors = Union[Literal["replace"], Literal["surrogateescape"]]


class Refused(MemoryError):
    """Memory was refused, after `read` bytes of the call, which add `events`.

    Feed the rest once there is memory: events that are missing come first. Only of a processor
    calls may be `lost`.
    """

    def __init__(self, read: int, events: list[Any], lost: bool = False) -> None:
        super().__init__(read, events, lost)
        self.read, self.events, self.lost = read, events, lost

    def __str__(self) -> str:
        return f"no memory, after {self.read} bytes"


def _replace(error: Any) -> tuple[bytes, int]:
    return "\ufffd".encode() * (error.end - error.start), error.end


# what `strip` makes of surrogates
codecs.register_error("vte.replace", _replace)
_distinct(*get_args(Event))
# named as they are imported
for _kind in (*get_args(Event), Refused):
    _kind.__module__ = "vte"
