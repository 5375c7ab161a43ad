"""The example forward.c, which drops commands for clipboards, and a filter of whole streams."""
import random
import re

from lib.generating import streams
from lib.judging import definition, house

from library import EXAMPLES, PROGRAMS, SANITIZERS, output_of
from test_examples import assert_ends_by_errors, assert_slow, compile_example

ST = b"\x1b\\"
# streams, and what is passed on of them, worked out by hand
BY_HAND = dict([
    (b"a\x1b]52;c;YQ==\x07b", b"a\x1b\\b"), (b"a\x1b]52;c;YQ==\x1b\\b", b"a\x1b\\b"),
    (b"a\x1b]52;c\x18b\x1b]52\x1ac", b"a\x18b\x1ac"), (b"\x1b]52;c\x1b[mb", b"\x1b[mb"),
    (b"\x1b\x7f]0\r052;c\x07", b"\x1b\x7f\\"), (b"\x1b]52\x07", ST),
    # digits of the number are dropped
    (b"\x1b]" + b"0" * 1100 + b"52;c\x07", ST),
    # controls before the bracket are executed
    (b"\x1b\n]52;c\x07\x1b\n]52;c\x18", b"\x1b\n\\\x1b\n\x18"),
    (b"\x1b_a\x1b\r]52;c\x1b\\", b"\x1b_a\x1b\r\x1b\\"),
    # what is open before a command ends as its ESC ends it: nothing after the command joins it
    (b"\xc3\x1b]52;c\x07\xa9", b"\xc3\x1b\\\xa9"), (b"\x1b_a\x1b]52;c\x07b", b"\x1b_a\x1b\\b"),
    (b"\x1b[1<2\x1b]52;c\x07m", b"\x1b[1<2\x1b\\m"), (b"\x1bPqa\x1b]52;c\x18b", b"\x1bPqa\x18b"),
    (b"\x1b]5\x1b]52;c\x072;c;YQ==\x07", b"\x1b]5\x1b\\2;c;YQ==\x07"),
    (b"\x1b\x1b]52;c\x07]52;c;YQ==\x07", b"\x1b\x1b\\]52;c;YQ==\x07"),
    # others may end a command that is open at the end
    (b"a\x1b]52;c;YQ==", b"a\x1b\\"), (b"\x1b_a\x1b]5", b"\x1b_a\x1b\\")])
PASSED = [b"", b"\x1b]520;c\x07", b"\x1b]5;2\x07\x1b]52a\x07\x1b];52\x18",
          b"\x1b]2;" + b"52;" * 500 + b"\x07", b"a\xe4\xbd", b"a\x1b", b"a\x1b\n(", b"a\x1b[1",
          b"\x1b[1<2", b"a\x1bPq", b"\x1b_52;c", b"\x1b]2;a\x1b"]
# parts of hostile streams: commands, their ends, and what may be open before them
PARTS = [b"\x1b]52;c;YQ==", b"\x1b]052;", b"\x1b]5", b"2;c;", b"\x1b\n]52;\x7f", b"\x1b]2;t",
         b"]52;c", b"\x07", b"\x18", b"\x1a", ST, b"\x1b", b"\x9c", b"\x1b_a", b"\x1bPq",
         b"\x1bP1?q", b"\x1b[1", b"\x1b[1<2", b"\x1b(", b"\xe4\xbd", b"\xa0", b"m", b"b\r\n"]
COMMAND = re.compile(rb"([^ -~\x18\x1a]*)\]([^\x07\x18\x1a]*)([\x07\x18\x1a]?)(.*)", re.DOTALL)


def is_clipboard(number):
    return number.isdigit() and int(number) == 52


def drop_clipboards(stream):
    """What is passed on of a whole stream, each body of which is looked at up to its end."""
    passed, *bodies = stream.split(b"\x1b")
    for left, body in enumerate(bodies, 1 - len(bodies)):
        if found := COMMAND.fullmatch(body):
            before, items, end, after = found.groups()
            is_open = not end and left == 0
            if is_open or is_clipboard(bytes(b for b in items if b >= 0x20).split(b";")[0]):
                end = b"\\" if is_open or end == b"\x07" else end
                passed += b"\x1b" * (before != b"" or end == b"\\") + before + end + after
                continue
        passed += b"\x1b" + body
    return passed


def list_lines_without_clipboards(stream):
    """Yields the events of a stream: of a command for a clipboard BEL leaves a lone ST."""
    for line in definition.lines_of(stream, house.House(limit=None)):
        word, *rest = line.split()
        if word != "osc" or not is_clipboard(bytes.fromhex(rest[2].replace("-", ""))):
            yield line
        elif rest[0] == "true":
            yield "esc - false 5c"


def test_streams_without_clipboards_are_passed_on(library):
    """Streams without such commands are passed on, each byte once it is known to be of none."""
    forward = compile_example(library, "c/forward.c")
    recorded = {name: b"".join(chunks) for name, chunks in streams.read_recorded()}
    for name in "vim", "tmux", "sixel", "malformed-text":
        assert output_of([forward], recorded[name]) == recorded[name]
    assert output_of([forward], b"a\x1b]52;c;" + b"YQ==" * 30000 + ST + b"b") == b"a\x1b\\b"
    assert_slow([forward], [(b"a\xc3\x1b]52;c;", b"a\xc3"), (b"YQ==\x07b\x1b", b"\x1b\\b"),
                            (b"[mc\x1b_", b"\x1b[mc\x1b_")])
    assert_ends_by_errors(forward)


def test_a_cut_changes_nothing_that_is_passed_on(library):
    """Wherever a stream is cut, as much is passed on as of the whole, and by this definition."""
    by_hand, chance = {**BY_HAND, **dict(zip(PASSED, PASSED))}, random.Random(52)
    hostile = [b"".join(chance.choices(PARTS, k=chance.randint(1, 16))) for _ in range(300)]
    wanted = {**{stream: drop_clipboards(stream) for stream in hostile}, **by_hand}
    for stream in wanted:
        lines = definition.lines_of(drop_clipboards(stream + b"\x18"), house.House(limit=None))
        assert lines == [*list_lines_without_clipboards(stream + b"\x18")], stream
    for words in [[], SANITIZERS][:1 + bool(library.sanitized)]:
        by_cuts = library.compile(PROGRAMS / "forward_cuts.c", f"-I{EXAMPLES / 'c'}", *words)
        *passed, rest = output_of([by_cuts], b"".join(it + b"\0" for it in wanted)).split(b"\0")
        assert (dict(zip(wanted, passed)), rest) == (wanted, b"")
