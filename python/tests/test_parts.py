"""Tests of parts: read one by one, they give what the whole stream gives."""
import array
import codecs
import contextlib
import io
import mmap
import os
import pickle
import subprocess
import sys

import pytest
from common import EXAMPLES, STREAMS, VTLOG, join_runs, run_vtlog

import vte

SIZES = [1, 2, 7, 100, 1 << 20]
STREAM = STREAMS["long commands"]


def wanted_parts(stream, size):
    """The parts, from the positions of all ESC."""
    starts = [0]
    for position, byte in enumerate(stream):
        if byte == 0x1b and position >= starts[-1] + size:
            starts.append(position)
    return [*zip(starts, [start + 1 for start in starts[1:]] + [len(stream)])] if stream else []


@pytest.mark.parametrize("size", SIZES)
@pytest.mark.parametrize("name", STREAMS)
def test_parts_give_the_events_and_the_text_of_the_stream(name, size):
    stream = STREAMS[name]
    parts = list(vte.parts(stream, size))
    assert parts == wanted_parts(stream, size) == list(vte.parts(io.BytesIO(stream), size))
    chunks = [stream[start:end] for start, end in pickle.loads(pickle.dumps(parts))]
    for kinds in None, {vte.Text, vte.Data, vte.Osc, vte.Unhook}:
        for limit in None, 1024:
            events = [vte.Parser(limit).feed(chunk, kinds) for chunk in chunks]
            # a text may end where a part does: the sequence that follows may have no event
            found = join_runs(sum(pickle.loads(pickle.dumps(events)), []))
            assert found == join_runs(vte.Parser(limit).feed(stream, kinds))
    text = b"".join(map(vte.strip, chunks))
    assert text == vte.strip(stream)
    # CAN says that the stream ends, as `strip` takes it
    assert not VTLOG or text == run_vtlog(stream + b"\x18", "text")


def test_a_cut_before_the_escape_is_wrong():
    # as docs/EVENTS.md says: nothing tells the first part that its character is malformed
    stream = b"caf\xc3\x1b[1m!"
    assert [*vte.parts(stream, 1)] == [(0, 5), (4, 9)]
    assert vte.Parser().feed(stream[:5]) == [vte.Text("caf\ufffd")]
    assert vte.Parser().feed(stream[:4]) == [vte.Text("caf")]
    # but `strip` ends what it is given as the ESC would
    assert vte.strip(stream[:4]) == vte.strip(stream[:5]) == "caf\ufffd".encode()


def test_text_may_be_cut_where_no_character_is_open():
    stream, whole = STREAMS["without ESC"], vte.strip(STREAMS["without ESC"])
    decoder = codecs.getincrementaldecoder("utf-8")("replace")
    for position in range(1, len(stream) + 1):
        decoder.decode(stream[position - 1:position])
        if decoder.getstate()[0] == b"":
            assert vte.strip(stream[:position]) + vte.strip(stream[position:]) == whole
        else:
            assert stream[position - 1] >= 0x80


def test_any_source_has_the_same_parts(tmp_path):
    class OneByOne(io.BytesIO):
        def readinto(self, room):
            return super().readinto(memoryview(room)[:1])

    path = tmp_path / "stream"
    path.write_bytes(STREAM)
    with open(path, "rb") as file, open(path, "rb", buffering=0) as unbuffered:
        mapped = mmap.mmap(file.fileno(), 0, access=mmap.ACCESS_READ)
        sources = [str(path), path, file.fileno(), file, unbuffered, io.BytesIO(STREAM), mapped,
                   bytearray(STREAM), memoryview(b"a" + STREAM)[1:], array.array("H", STREAM),
                   OneByOne(STREAM)]
        with contextlib.suppress(ImportError):
            import fsspec
            sources.append(fsspec.filesystem("file").open(path, "rb", cache_type="none"))
        for source in sources:
            assert list(vte.parts(source, 1000)) == wanted_parts(STREAM, 1000), source
        assert not file.closed
        mapped.close()


@pytest.mark.parametrize("distance", [0, 1, 4095, 4096, 4097, 99_999, 10_000_000])
def test_only_bytes_near_the_cuts_are_read(distance):
    class Counted(io.BytesIO):
        read = largest = 0

        def readinto(self, room):
            self.read, self.largest = self.read + len(room), max(self.largest, len(room))
            return super().readinto(room)

    size = 1_000_000
    file = Counted((b"\x1b" + b"a" * (size - 1) + b"a" * distance) * 2 + b"\x1b")
    parts = vte.parts(file, size)
    # not before they are asked for
    assert file.read == 0
    assert next(parts) == (0, size + distance + 1)
    assert file.read <= 4096 + 5 * distance and file.largest <= 4 << 20
    assert len([*parts]) == 2


def test_a_bad_source_is_an_error(tmp_path):
    class Shrinking(io.BytesIO):
        def seek(self, position, whence=0):
            return super().seek(position, whence) + (1000 if whence else 0)

    reader, writer = os.pipe()
    for error, message, source in [
            (FileNotFoundError, "No such file", tmp_path / "none"), (OSError, "", reader),
            (EOFError, "the file had 2000 bytes, and has none at 1000", Shrinking(b"a" * 1000))]:
        with pytest.raises(error, match=message):
            list(vte.parts(source, 900))
    os.close(reader), os.close(writer)


def test_the_example_writes_the_text(tmp_path):
    path = tmp_path / "stream"
    for stream in STREAM, b"", b"text \x1b[1m\xc3" * 1_000_000:
        path.write_bytes(stream)
        text = subprocess.check_output([sys.executable, EXAMPLES / "strip_parts.py", path])
        assert text == vte.strip(stream)
