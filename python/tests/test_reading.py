"""Tests of files and terminals."""
import errno
import io
import itertools
import os
import pty
import subprocess
import sys
from unittest import mock

import pytest
from common import EVENTS, EXAMPLES, STREAM, cut, join_runs, make_parsers

import vte
from vte import Csi, Esc, Execute, Hook, Osc, Put, Text


@pytest.fixture
def path(tmp_path):
    path = tmp_path / "stream"
    path.write_bytes(STREAM)
    return path


@pytest.fixture(params=["str", "path", "entry", "buffered", "unbuffered", "descriptor", "memory"])
def source(request, path):
    """A file as `open` takes it."""
    # a file without a buffer has no `read1`
    with open(path, "rb") as buffered, open(path, "rb", 0) as unbuffered:
        [entry] = os.scandir(path.parent)
        yield {"str": str(path), "path": path, "entry": entry, "buffered": buffered,
               "unbuffered": unbuffered, "descriptor": buffered.fileno(),
               "memory": io.BytesIO(STREAM)}[request.param]


@pytest.mark.parametrize("size", [1, 3, 65536])
def test_any_file_is_read_in_chunks_of_any_size(source, size):
    with vte.open(source, size) as events:
        assert join_runs(events) == EVENTS


@pytest.mark.parametrize("kinds", [
    {Osc}, {Csi, Esc}, [Put], (), {Text, Execute}, [Osc, Text, Osc], {Hook: 1},
    set(map(type, EVENTS))])
@pytest.mark.parametrize("given", [
    lambda kinds: kinds, iter, lambda kinds: [*kinds][0] if len(kinds) == 1 else kinds])
def test_any_collection_of_kinds_chooses_events(source, kinds, given):
    wanted = [event for event in EVENTS if type(event) in set(kinds)]
    for parser in make_parsers():
        assert parser.feed(STREAM, given(kinds)) + parser.feed(STREAM, given(kinds)) == wanted * 2
    with vte.open(source, 5, given(kinds)) as events:
        assert join_runs(events) == wanted


def test_who_closes_a_file(path):
    # an error isn't kept, and closes the file, too
    with pytest.raises(KeyError), vte.open(path, 1) as left:
        assert (type(left), next(left)) == (vte.Reader, Text("a"))
        raise KeyError
    closed = vte.open(path)
    closed.close()
    for events in left, closed:
        with pytest.raises(ValueError):
            next(events)
    with open(path, "rb") as file:
        for given in file, file.fileno():
            with vte.open(given):
                pass
        assert file.read() == STREAM


def test_files_that_cannot_be_read(path):
    folder = os.open("/", os.O_RDONLY)
    with open(path, "rb") as file:
        closed = file.fileno()
    for error, message, source in [
            (FileNotFoundError, "No such file", f"{path}.none"), (OSError, "Bad file", closed),
            (ValueError, "closed file", file), (IsADirectoryError, "", folder)]:
        with pytest.raises(error, match=message):
            next(vte.open(source))
    os.close(folder)


def test_files_that_have_nothing_yet():
    reading, writing = os.pipe()
    os.set_blocking(reading, False)
    with open(reading, "rb", buffering=0) as file:
        for source in file, reading:
            events = vte.open(source)
            for text in b"a", b"b":
                with pytest.raises(BlockingIOError):
                    next(events)
                os.write(writing, text)
                assert next(events) == Text(text.decode())
        os.close(writing)
        assert list(vte.open(file)) == []


def test_an_end_in_the_middle(path):
    for end, size in itertools.product(range(len(STREAM) + 1), [1, 7, 65536]):
        path.write_bytes(STREAM[:end])
        with vte.open(path, size) as events:
            assert join_runs(events) == join_runs(vte.Parser().feed(STREAM[:end]))
    assert list(vte.open(io.BytesIO(b"caf\xe9"))) == [Text("caf")]


@pytest.mark.skipif(sys.platform != "linux", reason="these errors are Linux's")
def test_errors_of_files():
    # Linux has no memory at address 0
    with open("/proc/self/mem", "rb", buffering=0) as file:
        for source in "/proc/self/mem", file, file.fileno():
            with vte.open(source) as events:
                for _ in range(2):
                    with pytest.raises(OSError, match="Input/output error"):
                        next(events)
    master, slave = pty.openpty()
    os.write(slave, b"a\x1b[1mb\x1b[1")
    os.close(slave)
    # only one error is the end of a terminal
    events = vte.open(master)
    assert join_runs(events) == [Text("a"), Csi(((1,),), b"", False, "m"), Text("b")]
    os.close(master)
    with pytest.raises(OSError, match="Bad file descriptor"):
        next(events)


class Refusing(vte.Parser):
    """Of four calls one is refused all memory, and one what follows two bytes."""
    count = 0

    def feed(self, data, kinds=None):
        self.count += 1
        if self.count % 4 == 2:
            raise MemoryError
        if self.count % 4 == 0:
            raise vte.Refused(len(data[:2]), super().feed(data[:2], kinds))
        return super().feed(data, kinds)


@pytest.mark.parametrize("size", [1, 7, 20])
def test_reading_goes_on_after_an_error(monkeypatch, size):
    monkeypatch.setattr("vte._reader.Parser", Refusing)
    # the second read is an error
    reads = [*cut(STREAM, size), b""]
    reads.insert(1, OSError(errno.EIO, "no luck"))
    file = mock.Mock(spec=["read1"], read1=mock.Mock(side_effect=reads))
    events, made, errors, end = vte.open(file, size), [], set(), object()
    while end not in made:
        try:
            made.append(next(events, end))
        except (OSError, MemoryError) as error:
            errors.add(type(error))
    assert join_runs(made[:-1]) == EVENTS and errors >= {OSError, MemoryError}


def test_standard_input():
    said = subprocess.check_output([sys.executable, EXAMPLES / "events.py"], input=b"a\n")
    assert said == b"print 0061\nexecute 0a\n"


def test_a_chunk_is_read_when_it_is_wanted():
    file = io.BytesIO(b"a" * 70_000 + b"b")
    events = vte.open(file)
    assert (file.tell(), len(next(events).text), file.tell()) == (0, 65536, 65536)
    assert len(next(events).text) == 70_001 - 65536
    assert (file.tell(), next(events, None)) == (70_001, None)
    assert list(vte.open(io.BytesIO(b"abcdefg"), 3)) == [Text("abc"), Text("def"), Text("g")]


def test_a_chunk_is_what_is_there():
    file = mock.Mock(spec=["read", "read1"], read1=lambda size: b"a")
    assert next(vte.open(file)) == Text("a")
    # which waits for more
    file.read.assert_not_called()


def test_title_watcher():
    # the program waits until the first title was seen; a watcher that is late is ended
    program = r"printf 'a\033]2;hi;you\007'; read line; printf '\033]1;x\007\033]0;b\033\\'; exit 3"
    words = ["timeout", "300", sys.executable, EXAMPLES / "title_watcher.py", "sh", "-c", program]
    pipes = dict.fromkeys(("stdin", "stdout", "stderr"), subprocess.PIPE)
    with subprocess.Popen(words, **pipes) as watcher:
        assert watcher.stderr.readline() == b"title: hi;you\n"
        said, titles = watcher.communicate(b"\n")
    assert (titles, watcher.returncode) == (b"title: b\n", 3)
    assert said == b"a\x1b]2;hi;you\x07\r\n\x1b]1;x\x07\x1b]0;b\x1b\\"
