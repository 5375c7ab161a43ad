"""What several tests use: programs, streams, and what is made of events."""
import json
import os
import random
import subprocess
import time
from pathlib import Path

import pytest

import vte
from vte import Csi, Esc, Execute, Hook, Osc, Put, Text, Unhook

VTLOG = os.environ.get("VTLOG")
needs_vtlog = pytest.mark.skipif(not VTLOG, reason="no $VTLOG")
EXAMPLES = Path(__file__).resolve().parent.parent / "examples"
# an sdist, which has the crate there, has no test vectors
IS_SDIST = (EXAMPLES.parent / "vte").is_dir()
FOLDER = EXAMPLES.parent.parent / "vectors"
LONG = 1200  # seconds, for a busy machine
STREAM = (b"a\xc3\xbc\x1b[?1;2:3m\r\x1b(B\x1bP1$qm\x1b\\"
          b"\x1b]2;t;u\x07\xf0\x9f\x98\x80\xff")
EVENTS = [
    Text("aü"), Csi(((1,), (2, 3)), b"?", False, "m"), Execute(0x0D), Esc(b"(", False, "B"),
    Hook(((1,),), b"$", False, "q"), Put(ord("m")), Unhook(), Esc(b"", False, "\\"),
    Osc((b"2", b"t", b"u"), True), Text("\U0001f600\ufffd")]


# what makes a reader, and its method
READERS = [(vte.Parser, "feed"), (lambda: vte.Parser(limit=1024), "feed"), (vte.Processor, "feed"),
           (lambda: vte.Stripper("surrogateescape"), "strip")]


def make_parsers():
    """Makes parsers without a limit and with one."""
    return [vte.Parser(), vte.Parser(limit=1024)]


def until(is_true):
    """Waits until something is true."""
    end = time.monotonic() + LONG
    while not is_true():
        assert time.monotonic() < end
        time.sleep(0.01)


def feed(reader, chunks, *kinds):
    return [made for chunk in chunks for made in reader.feed(chunk, *kinds)]


def cut(stream, size):
    """The stream in chunks of a size."""
    return [stream[start:start + size] for start in range(0, len(stream), size)]


def join_runs(events):
    """Joins texts and data, which end where a call of `feed` does."""
    made = []
    for event in events:
        is_run = isinstance(event, (Text, vte.Data, vte.calls.Input))
        if is_run and made and type(event) is type(made[-1]):
            event = type(event)(made.pop()[0] + event[0])
        made.append(event)
    return made


def run_vtlog(stream, *words):
    return subprocess.check_output([VTLOG, *words], input=stream)


def text_of(events):
    """The text that events leave, in UTF-8."""
    kept = (event.text if isinstance(event, Text) else chr(event.byte) for event in events
            if isinstance(event, Text) or isinstance(event, Execute) and event.byte in b"\t\n\r")
    return "".join(kept).encode()


# ---- streams that are hard to divide into parts, by name

# what begins a sequence, what ends one, and text that an ESC may cut
WORDS = [b"\x1b", b"\x1b[1;31m", b"\x1b]0;a title", b"\x1bP1$q", b"\x1b_", b"\x1b\\", b"\x07",
         b"\x18", b"\x9c", b"[", b"m", b"a\r\n\t", "ü€😀".encode(), b"\xc3", b"\xe2\x82", b"\xff"]
CHANCE = random.Random(1)


def load_vectors(file, kind=None):
    """Loads the test vectors of a file, of all kinds or one."""
    listed = [] if IS_SDIST else json.loads((FOLDER / file).read_text())["vectors"]
    return [vector for vector in listed if kind in (None, vector["kind"])]


def stream_of(vector):
    """All bytes of a test vector."""
    steps = [step.get("bytes") or step.get("advance") or "" for step in vector.get("steps", ())]
    return bytes.fromhex("".join([*vector.get("chunks", ()), vector.get("before", ""), *steps]))


STREAMS = {
    "random": b"".join(CHANCE.choice(WORDS) + CHANCE.randbytes(CHANCE.randrange(3))
                       for _ in range(300)),
    "updates": b"".join(b"\x1b[?2026h%d\x1b[%dm\xc3\xbc\x1b[?2026l\r\n" % (it, it)
                        for it in range(40)),
    "long commands": b"".join(begin + b"long " * 300 + end
                              for end in (b"\x1b\\", b"\x07\x18", b"\x1b", b"\x1b[m")
                              for begin in (b"a\x1b]52;c;", b"b\x1bP1$q", b"c\x1b_", b"d\x1b[1;")),
    "characters cut by ESC": b"".join("😀€ü".encode()[:end] + b"\x1b[m" for end in range(9)) * 3,
    "controls": b"a\x1b\x1b\x18\x1b\x1a\x1b[\x18\x1b\x7f\x1b\x80[1\x1b\x1b[m\x9b\x1b1\x85\x1b",
    "without ESC": "plain \u00fc\ufffd\t".encode() * 200 + b"\xff\xe2\x82\x18\xc3", "empty": b""}
if not IS_SDIST:
    STREAMS["vectors"] = b"".join(
        map(stream_of, load_vectors("events.json") + load_vectors("calls.json")))
