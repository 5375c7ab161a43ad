"""The examples in C, C++ and Go, some on a pipe that is written slowly."""
import os
import select
import subprocess

import pytest
from lib.testing.missing import need

from library import EXAMPLES, INCLUDE, output_of

# before glibc 2.34 pseudo-terminals were in a library of their own
OF_PTY = "-lutil"
STREAM = b"a\xc3\xbc\x1b[1;31m\x1b]2;a;b\x07\xff\n"
# what each example writes: in a pty a program writes the stream, and the pty CR before LF
PRINTS = r"printf 'a\303\274\033[1;31m\033]2;a;b\007\377\n'"
EVENTS = "text aü\ncsi 6d\nosc 00\ntext \ufffd\nexecute 0d\nexecute 0a\n".encode()
TEXT = "aü\ufffd\n".encode()
# what comes slowly, and what must be written of each at once: by a title watcher on standard error,
# by a stripper on output
SLOWLY = [(title, title, output) for title, output in (
    (b"a\x1b]2;hi\x07", b"title: hi\n"),
    (b"b\x1b]1;icon\x07\x1b]21;x\x07\x1b]0;you\x1b\\", b"title: you\n"))]
LINES = [(b"\x1b[1mone\x1b[m\n", b"one\n", b""), (b"two\n", b"two\n", b"")]


def compile_example(library, example, *words):
    """Compiles an example, in the language of its file."""
    source = EXAMPLES / example
    compiler = {".c": "cc", ".cpp": "c++", ".go": "go"}[source.suffix]
    need(compiler, f"{example} was not built")
    if compiler != "go":
        return library.compile(source, OF_PTY, *words, compiler=compiler)
    made = library.folder / f"{source.parent.name}_go"
    environment = {"CGO_ENABLED": "1", "CGO_CFLAGS": f"-I{INCLUDE}",
                   "CGO_LDFLAGS": f"{library.archive} {OF_PTY}",
                   "GO111MODULE": "off", "GOFLAGS": "-mod=mod"}
    assert output_of(["go", "build", "-o", made, source], **environment) == b""
    return made


def status_of(*words, **options):
    return subprocess.run(words, **options).returncode


def assert_ends_by_errors(program):
    """Its status says that its output is full, or that its input is a folder."""
    with open("/dev/full", "w") as full:
        assert status_of(program, input=STREAM, stdout=full) == 1
    assert status_of(program, stdin=os.open("/", os.O_RDONLY), stdout=subprocess.DEVNULL) == 1


def assert_slow(words, chunks):
    """Writes chunks: what one has comes out before the next one is written."""
    pipes = dict.fromkeys(("stdin", "stdout", "stderr"), subprocess.PIPE)
    with subprocess.Popen(words, **pipes) as running:
        for chunk, *wanted in chunks:
            os.write(running.stdin.fileno(), chunk)
            for stream, want in zip((running.stdout, running.stderr), wanted):
                assert read_soon(stream, len(want)) == want
        running.stdin.close()
    assert running.returncode == 0


def read_soon(stream, count):
    """Reads `count` bytes, or fewer if none come for minutes, as a busy machine is slow."""
    read, more = b"", True
    while more and len(read) < count and select.select([stream], [], [], 300)[0]:
        more = os.read(stream.fileno(), count - len(read))
        read += more
    return read


def test_stripper_leaves_the_text(library):
    stripper = compile_example(library, "c/stripper.c")
    assert output_of([stripper], STREAM) == TEXT
    # more text than there is room for
    assert output_of([stripper], b"\xff" * 9000) == "\ufffd".encode() * 9000
    assert_ends_by_errors(stripper)
    assert_slow([stripper], LINES)


@pytest.mark.parametrize("example", ["c/title_watcher.c", "go/title_watcher/main.go"])
def test_title_watcher_writes_titles(library, example):
    watcher = compile_example(library, example)
    # more events than there is room for
    many = b"\r" * 2500 + b"\x1b]0;t\x07" * 2
    for stream, output in (STREAM, b"title: a;b\n"), (many, b"title: t\ntitle: t\n"):
        assert output_of([watcher], stream) == stream + b"\nstatus 0: " + output
    if example.startswith("c/"):
        assert status_of(watcher, stdin=os.open("/", os.O_RDONLY)) == 1
    assert_slow([watcher], SLOWLY)


@pytest.mark.parametrize(
    "example", ["c/pty_events.c", "cpp/pty_events.cpp", "go/pty_events/main.go"])
def test_pty_events_writes_events_as_they_come(library, example, tmp_path):
    printer, mark = compile_example(library, example), tmp_path / "goes_on"
    assert output_of([printer, "sh", "-c", PRINTS]) == EVENTS
    # a program goes on once there is a file: what came before has been printed by then
    slow = f"printf one; until [ -e {mark} ]; do sleep 0.02; done; printf two"
    with subprocess.Popen([printer, "sh", "-c", slow], stdout=subprocess.PIPE) as running:
        for want in b"text one\n", b"text two\n":
            assert read_soon(running.stdout, len(want)) == want
            mark.touch()
    assert running.returncode == 0


def test_clipboards_writes_each_text_to_a_file(cargo_build, tmp_path):
    texts = [b"Q" * 1_000_000, b"", b"YWJj"] + [b"YQ=="] * 20
    stream = b"a\x1b]52;c;?\x07\x1b]2;c;title\x07\x1b]52;c\x07" + b"".join(
        b"b\x1b]52;c;%b\x1b\\" % text for text in texts)
    clipboards = compile_example(cargo_build, "c/clipboards.c")
    few_files = ["sh", "-c", 'ulimit -n 12; exec "$0" "$1"']
    assert output_of([*few_files, clipboards, tmp_path], stream) == b"23\n"
    assert [(tmp_path / str(at)).read_bytes() for at in range(23)] == texts
    for words in [], [tmp_path, tmp_path], [tmp_path / "none"]:
        assert status_of(clipboards, *words, input=stream, stdout=subprocess.DEVNULL) in (1, 2)


def test_outline_writes_text_and_calls(cargo_build):
    outline = compile_example(cargo_build, "cpp/outline.cpp", "-std=c++17")
    output = output_of([outline], STREAM + b"\x1b[3;5H\x1b[?2026hend").decode()
    assert output == "aü[bold][title a;b]\ufffd[go to 2, 4]end"
    assert_slow([outline], [(b"a\x1b[1m", b"a[bold]"), (b"b", b"b")])
