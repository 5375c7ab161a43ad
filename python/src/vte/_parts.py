"""Divides a stream into parts that can be read side by side."""
from __future__ import annotations

import builtins
import os
from collections.abc import Callable, Iterator
from typing import Any, Protocol, Union

from ._events import Buffer

ESCAPE = b"\x1b"
# how many bytes are read at a time to find an ESC: four times as many as before, up to the most
MIN_READ, MAX_READ = 4096, 4 << 20


class SeekableFile(Protocol):
    """A binary file of any size that can be read from any position on."""

    def seek(self, offset: int, whence: int = ..., /) -> int: ...

    def readinto(self, buffer: bytearray, /) -> int | None: ...


Parted = Union[str, "os.PathLike[str]", int, SeekableFile, Buffer]
# returns bytes from a position on: as many as are asked for, or fewer
Read = Callable[[int, int], bytes]


def parts(source: Parted, size: int) -> Iterator[tuple[int, int]]:
    """Returns an iterator over the parts of a stream, as ranges `(start, end)` of its bytes.

    The events of the parts, one part after another, are those of the stream, and so is their text:
    a thread, process or machine can strip a part, or read it by a `Parser` of its own. Only a
    `Text` may also end where a part does. The calls of a `Processor` can't be divided so.

    A part has more than `size` bytes, and ends with the first ESC after these, with which the next
    part starts. If no ESC is near, a part is larger; without any, it is the whole stream.

    The source is a path, a file descriptor, a binary file with `seek` and `readinto`, or any object
    with a buffer, such as an `mmap`. Of a file, only the bytes are read from where a part may end
    up to that ESC, when the part is requested; this changes the position. The parts end where the
    file ended at the first of them.

    >>> import vte
    >>> stream = b"one \\x1b[1mtwo \\x1b[mthree"
    >>> list(vte.parts(stream, 6))
    [(0, 13), (12, 20)]
    >>> [vte.strip(stream[start:end]) for start, end in vte.parts(stream, 6)]
    [b'one two ', b'three']
    """
    if not isinstance(size, int) or size < 1:
        raise ValueError(f"size must be at least 1, not {size!r}")
    if isinstance(source, (str, os.PathLike, int)):
        return _parts_of_path(source, size)
    file: Any = source
    if hasattr(file, "seek") and hasattr(file, "readinto"):
        return _parts_of_file(file, size)
    try:
        view = memoryview(file).cast("B")
    except TypeError:
        kind = type(source).__name__
        raise TypeError("parts takes a path, a file descriptor, a binary file with seek and "
                        f"readinto or a bytes-like object, not {kind}") from None
    return _ranges(lambda at, count: bytes(view[at:at + count]), len(view), size)


def _parts_of_path(path: Any, size: int) -> Iterator[tuple[int, int]]:
    # a descriptor stays open
    is_own = not isinstance(path, int)
    with builtins.open(path, "rb", buffering=0, closefd=is_own) as file:
        yield from _parts_of_file(file, size)


def _parts_of_file(file: SeekableFile, size: int) -> Iterator[tuple[int, int]]:
    length = file.seek(0, os.SEEK_END)

    def read(at: int, count: int) -> bytes:
        file.seek(at)
        buffer = bytearray(count)
        count = file.readinto(buffer) or 0
        if count == 0:
            raise EOFError(f"the file had {length} bytes, and has none at {at}")
        return bytes(buffer[:count])

    return _ranges(read, length, size)


def _ranges(read: Read, length: int, size: int) -> Iterator[tuple[int, int]]:
    start = 0
    while start < length:
        cut = _find_escape(read, start + size, length)
        # the ESC ends what is open in this part, and starts the next
        yield start, min(cut + 1, length)
        start = cut


def _find_escape(read: Read, at: int, length: int) -> int:
    """Returns the position of the first ESC from a position on, or the length."""
    count = MIN_READ
    while at < length:
        data = read(at, min(count, length - at))
        found = data.find(ESCAPE)
        if found >= 0:
            return at + found
        at += len(data)
        count = min(4 * count, MAX_READ)
    return length
