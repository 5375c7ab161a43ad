"""Refuses memory: nothing is lost, and nothing comes twice.

Two ways: limits of a process' memory, each in a child; and each of Python's allocations in turn,
which are also Rust's in a build by the feature python-memory.
"""
import copy
import json
import os
import pickle
import resource
import subprocess
import sys
import zlib
from contextlib import suppress
from functools import partial
from types import SimpleNamespace

import pytest
from common import cut, join_runs

import vte
from vte import Csi, Data, Execute, Osc

PART = (b"a\x1b[1;38:5:200mt\xc3\xbcrlich\xff\r\n\x1b]52;c;QQ==\x07" + b"x" * 90 + b"\x1bP1$qdata"
        b"\x1b\\\x1b(B\x1b]8;id=i;uri\x07\x1b[5;3H\x1b]4;1;rgb:1/2/3\x07\x1b[4 q")
MOVES = b"".join(b"\x1b[%d;%dH%d" % (it, it >> 8, it) for it in range(2500))
SHORT = PART + MOVES[:400] + b"x" * 4000 + PART
LONG = MOVES + PART * 50 + b"\x1b]52;c;" + b"Q" * 200_000 + b"\x07" + b"text" * 25_000 + PART * 50
NO_LIMIT = resource.RLIM_INFINITY, resource.RLIM_INFINITY
ROOMS = [5 << shift for shift in range(13, 22)]
# a tuple in an `except` would allocate
ERRORS = MemoryError, SystemError


class LimitedMemory:
    """Calls with little memory, of which each refusal leaves more for the next try."""

    def __init__(self, room):
        self.refused = 0
        self._leave(room)

    def _leave(self, room):
        with open("/proc/self/statm") as file:
            used = int(file.read().split()[0]) * resource.getpagesize()
        self.room, self._limit = room, (used + room, resource.RLIM_INFINITY)

    def call(self, function, *words):
        """An answer, or the MemoryError."""
        resource.setrlimit(resource.RLIMIT_AS, self._limit)
        try:
            return function(*words)
        except MemoryError as error:
            refused = error
        finally:
            resource.setrlimit(resource.RLIMIT_AS, NO_LIMIT)
        self.refused += 1
        self._leave(self.room * 5 // 4)
        return refused


class RefusedAllocations:
    """Calls that are refused some of their allocations, up to the first MemoryError."""

    def __init__(self, first, end):
        self.refused, self._words = 0, (first, end)

    def call(self, function, *words):
        if self.refused == 0:
            _testcapi.set_nomemory(*self._words)
        try:
            return function(*words)
        except ERRORS as error:
            refused = error
        finally:
            _testcapi.remove_mem_hooks()
        self.refused = 1
        # Python 3.11 loses an error if it has no memory for a frame
        return refused if isinstance(refused, MemoryError) else MemoryError()


def retry(memory, function, *words):
    """Repeats a call until it isn't refused."""
    while isinstance(answer := memory.call(function, *words), MemoryError):
        pass
    return answer


def read_all(memory, read, data):
    """All that is added, and how many bytes were read, as a call may stop."""
    made, position = [], 0
    while isinstance(answer := memory.call(read, data[position:]), MemoryError):
        if isinstance(answer, vte.Refused):
            assert not answer.lost
            made, position = made + answer.events, position + answer.read
    more, count = answer if isinstance(answer, tuple) else (answer, len(data) - position)
    return made + more, position + count


def feed(memory, stream, make, *kinds):
    reader = make()
    made, _ = read_all(memory, lambda data: reader.feed(data, *kinds), stream)
    # a byte after that means what it should
    return join_runs(made + reader.feed(b"\x18\x1b[1mx"))


def feed_until(memory, stream, stops, *kinds):
    parser, position, found = vte.Parser(), 0, []
    while position < len(stream):
        made, read = read_all(memory, lambda data: parser.feed_until(data, stops, *kinds),
                              stream[position:position + 150_000])
        position += read
        found.append((join_runs(made), position))
    return found


def stop_sync(memory, stream):
    processor = vte.Processor()
    made = processor.feed(b"\x1b[?2026h" + stream[:60_000] * 12)
    if not processor.sync_bytes_count:
        raise TimeoutError
    while isinstance(answer := memory.call(processor.stop_sync), MemoryError):
        made += answer.events if isinstance(answer, vte.Refused) else []
    return join_runs(made + answer + processor.feed(b"end"))


def open_file(memory, stream, *kinds):
    # a file that loses nothing if memory is refused, as others do
    chunks, made, end = iter(cut(stream, 70_000)), [], object()
    events = vte.open(SimpleNamespace(read=lambda _: next(chunks, b"")), 70_000, *kinds)
    while (event := memory.call(next, events, end)) is not end:
        made += [] if isinstance(event, MemoryError) else [event]
    return join_runs(made)


def strip_chunks(memory, stream, errors):
    stripper, stream = vte.Stripper(errors), (stream + b"\xe2\xff\xf0\x9f") * 6
    chunks = map(bytearray, cut(stream, len(stream) // 3 + 1))
    texts = [retry(memory, stripper.strip, chunk) for chunk in chunks]
    return b"".join(texts) + stripper.strip(b"", final=True)


def say_what_is_lost(memory, _):
    processor = vte.Processor()
    many = b"a\x1b[65535b" * (100 if type(memory) is LimitedMemory else 4)
    answer = memory.call(processor.feed, many)
    if isinstance(memory, LimitedMemory) and memory.refused and memory.room > 1 << 20:
        assert answer.lost and 0 < answer.read <= len(many)
    return processor.feed(b"\x18x")[-1:]


def strip(memory, stream, of, *errors):
    return retry(memory, vte.strip, of(stream), *errors)


def timeout(memory, _):
    processor = vte.Processor()
    processor.feed(b"\x1b[?2026h")
    # Python keeps the memory of some numbers
    _kept = [processor.sync_timeout for _ in range(300)]
    return retry(memory, lambda: processor.sync_timeout) > 0


# functions, and what they get after the memory and a stream
READS = {
    "a parser": (feed, vte.Parser), "a processor": (feed, vte.Processor),
    "a limit": (lambda memory, stream: feed(memory, bytearray(stream), partial(vte.Parser, 1024)),),
    "commands": (feed, vte.Parser, Osc), "data": (feed, vte.Parser, [Data, Csi]),
    "until": (feed_until, {Osc, Execute}, {Osc, Csi}), "until a command": (feed_until, Osc, Osc),
    "held bytes": (lambda memory, stream: feed(
        memory, b"\x1b[?2026h" + stream + b"\x1b[?2026l" + stream[:900], vte.Processor),),
    "a stop": (stop_sync,), "a file": (open_file,), "commands of a file": (open_file, Osc),
    "a stripper": (strip_chunks, "replace"), "kept bytes": (strip_chunks, "surrogateescape"),
    "what is lost": (say_what_is_lost,)}
OTHERS = {
    "strip": (strip, bytes), "strip of a bytearray": (strip, bytearray),
    "strip of str": (strip, lambda stream: stream.decode(errors="replace")),
    "strip of surrogates": (strip, lambda stream: "a\ud800" + stream.decode(errors="replace")),
    "strip that keeps bytes": (strip, bytes, "surrogateescape"),
    "a pickle": (lambda memory, stream: pickle.loads(
        retry(memory, pickle.dumps, vte.Parser(1024))).feed(stream),),
    "a copy": (lambda memory, stream: retry(memory, copy.copy, vte.Stripper()).strip(stream),),
    "a timeout": (timeout,)}


@pytest.mark.parametrize("way", ["limit", "refuse"])
def test_what_is_refused_memory_goes_on(way):
    if way == "limit" and sys.platform != "linux":
        pytest.skip("Linux limits the memory of a process")
    if way == "refuse":
        pytest.importorskip("_testcapi")
    done = subprocess.run([sys.executable, __file__, way], capture_output=True, text=True)
    # the last act that it names is that which failed
    assert (done.returncode, done.stderr) == (0, ""), done.stdout


def run_in_child(act, room):
    """Runs an act in a child. Returns how often memory was refused, and what came, by numbers."""
    reading, writing = os.pipe()
    if os.fork() == 0:
        memory = LimitedMemory(room)
        # on a busy machine an update may expire before all of it is read: then a new child tries
        with suppress(TimeoutError):
            made = repr(act(memory, LONG)).encode()
            os.write(writing, json.dumps([memory.refused, zlib.crc32(made), len(made)]).encode())
        os._exit(0)
    os.wait()
    os.close(writing)
    return json.loads(os.read(reading, 99) or "null") or run_in_child(act, room)


def limit(act):
    """Memory is refused at a quarter of some limits, at least."""
    (_, *wanted), found = run_in_child(act, 1 << 40), [run_in_child(act, room) for room in ROOMS]
    assert [made for _, *made in found] == [wanted] * len(ROOMS)
    assert sum(refused > 0 for refused, *_ in found) > len(ROOMS) // 4


def refuse(act):
    """All allocations from each one on are refused, or that one alone."""
    wanted = act(RefusedAllocations(1 << 30, 0), SHORT)

    def is_refused(first, end):
        memory = RefusedAllocations(first, end)
        made = act(memory, SHORT)
        # without memory for a traceback Python raises another error than Refused
        assert made == wanted or end == 0 and name in READS, first
        return memory.refused

    count = next(first for first in range(100_000) if not is_refused(first, 0))
    assert sum(is_refused(first, first + 1) for first in range(count)) > 0


if __name__ == "__main__":
    test, acts = limit, READS
    if sys.argv[1] == "refuse":
        import _testcapi
        test, acts = refuse, {**READS, **OTHERS}
    for name, (function, *words) in acts.items():
        print(name, flush=True)
        if os.fork() == 0:
            sys.exit(test(lambda memory, stream: function(memory, stream, *words)))
        assert os.wait()[1] == 0
