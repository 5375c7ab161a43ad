"""Reads streams in chunks, and lines one by one."""
from __future__ import annotations

import builtins
import errno
import os
from collections.abc import Iterable, Iterator
from functools import partial
from typing import IO, Any, Optional, TypeVar, Union, overload

from ._events import Buffer, Errors, Event, Kind, Kinds, EventT, Refused
from ._vte import Parser, strip

Source = Union[str, "os.PathLike[str]", int, IO[bytes]]
Item = TypeVar("Item", bound=Event, covariant=True)


class Reader(Iterator[Item]):
    """An iterator over the events of a path, a file descriptor or a binary file.

    With `kinds`, a type of events or a set of them, it has these alone. The file is read in chunks
    of at most `size` bytes, each when its events are requested, with what is there by then. If a
    nonblocking file has nothing yet, `BlockingIOError` is raised, and the iterator goes on later.
    It also does so after a `MemoryError`. A pty, given by its descriptor, ends when no program has
    it open any more. As a context manager it closes the file of a path at the end.
    """

    def __init__(
        self, source: Source, size: int = 65536, kinds: Optional[Kinds] = None
    ) -> None:
        if not isinstance(size, int) or size < 1:
            raise ValueError(f"size must be at least 1, not {size!r}")
        # an iterator lasts for one call only; wrong kinds are an error now
        self._kinds: Any = list(kinds) if isinstance(kinds, Iterable) else kinds
        self._parser = Parser()
        self._made: list[Any] = self._parser.feed(b"", self._kinds)
        self._events: Iterator[Item] = iter(self._made)
        # what is to be fed, what was fed last, and what the call made of this if it was refused
        self._chunk: Optional[bytes] = None
        self._fed = b""
        self._refused: Optional[Refused] = None
        self._is_terminal = isinstance(source, int) and os.isatty(source)
        file: Any = source
        self._is_own = isinstance(source, (str, os.PathLike, int))
        if self._is_own:
            # a descriptor stays open
            file = builtins.open(file, "rb", buffering=0, closefd=not isinstance(source, int))
        read = getattr(file, "read1", None) or getattr(file, "read", None)
        if read is None or hasattr(file, "encoding"):
            kind = type(source).__name__
            raise TypeError(f"open takes a path, a file descriptor or a binary file, not {kind}")
        self._file, self._read = file, partial(read, size)

    def __next__(self) -> Item:
        while True:
            for event in self._events:
                return event
            # if memory is refused to a step, the next call takes it again
            if self._refused:
                refused, rest = self._refused, self._fed[self._refused.read:]
                self._made, self._chunk, self._refused = refused.events, rest, None
            elif self._made:
                self._events, self._made = iter(self._made), []
            elif self._chunk is None:
                self._chunk = self._next_chunk()
            else:
                self._feed(self._chunk)

    def _feed(self, chunk: bytes) -> None:
        # a signal may end the call when all of it was read
        self._fed, self._chunk = chunk, None
        try:
            self._made = self._parser.feed(chunk, self._kinds)
        except Refused as refused:
            self._refused = refused
            if not refused.events:
                raise
        except MemoryError:
            self._chunk = chunk
            raise

    def _next_chunk(self) -> bytes:
        try:
            data: Optional[bytes] = self._read()
        except OSError as error:
            # what Linux answers once the last program has closed a pty
            if error.errno != errno.EIO or not self._is_terminal:
                raise
            data = b""
        if data is None:
            raise BlockingIOError(errno.EAGAIN, "the file has no bytes yet")
        if not data:
            raise StopIteration
        return data

    def __enter__(self) -> Reader[Item]:
        return self

    def __exit__(self, *_: object) -> None:
        self.close()

    def close(self) -> None:
        """Closes the file of a path."""
        if self._is_own:
            self._file.close()


@overload
def open(source: Source, size: int = ..., *, kinds: Kind[EventT]) -> Reader[EventT]: ...


@overload
def open(source: Source, size: int = ..., kinds: Optional[Kinds] = ...) -> Reader[Event]: ...


def open(source: Source, size: int = 65536, kinds: Any = None) -> Reader[Any]:
    """Returns a `Reader`: an iterator over the events of a path, a file descriptor or a binary
    file."""
    return Reader(source, size, kinds)


@overload
def strip_lines(lines: Iterable[str], errors: Errors = ...) -> Iterator[str]: ...


@overload
def strip_lines(lines: Iterable[Buffer], errors: Errors = ...) -> Iterator[bytes]: ...


def strip_lines(lines: Iterable[Any], errors: Errors = "replace") -> Iterator[Any]:
    """Returns an iterator over the texts of lines, each stripped for itself, as by `strip`.

    Each line is taken when its text is requested, so that none of a file is late.
    """
    if isinstance(lines, (str, bytes, bytearray)):
        kind = type(lines).__name__
        wrong = f"strip_lines takes an iterable over lines, not {kind}: pass a list, or call strip"
        raise TypeError(wrong)
    function: Any = strip if errors == "replace" else partial(strip, errors=errors)
    return map(function, lines)
