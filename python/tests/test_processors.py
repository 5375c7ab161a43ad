"""Tests of processors, of their calls, and of a screen that takes these."""
import subprocess
import sys
import time

from common import EXAMPLES
from screen import Screen

import vte
from vte import calls
from vte.calls import Attribute, Input, Rgb, TerminalAttribute

STREAM = (b"h\xc3\xbc\x1b[5;3H\x1b[1;38;2;1;2;3m\x1b]0;t;i\x07\xff\x1b]8;id=abc;y\x1b\\\x1b[3r"
          b"\x1b[23m\x1b]52;c;YQ==\x07\x1b]4;9;?\x07")
CALLS = [
    Input(text="hü"), calls.Goto(line=4, col=2), TerminalAttribute(Attribute.Bold, None),
    TerminalAttribute(attribute=Attribute.Foreground, color=Rgb(red=1, green=2, blue=3)),
    calls.SetTitle(title="t;i"), Input("\ufffd"), calls.SetHyperlink(id="abc", uri="y"),
    calls.SetScrollingRegion(top=3, bottom=None), TerminalAttribute(Attribute.CancelItalic, None),
    calls.ClipboardStore(clipboard="c", data=b"YQ=="),
    calls.DynamicColorSequence(prefix="4;9", index=9, terminator="\x07")]


def test_each_call_has_its_fields():
    processor = vte.Processor()
    assert (processor.feed(STREAM), processor.feed(b"")) == (CALLS, [])
    assert repr(CALLS[2]) == "TerminalAttribute(attribute=Bold, color=None)"


def test_an_update_is_held_until_it_is_stopped():
    processor, now = vte.Processor(), time.monotonic()
    assert (processor.sync_bytes_count, processor.sync_timeout) == (0, None)
    assert processor.feed(b"\x1b[?2026hab") == [calls.SetPrivateMode(2026)]
    assert processor.sync_bytes_count == 2
    # an update is pending for 150 ms
    assert now + 0.149 < processor.sync_timeout < time.monotonic() + 0.151
    assert processor.stop_sync() == [Input("ab"), calls.UnsetPrivateMode(2026)]
    assert (processor.sync_bytes_count, processor.sync_timeout) == (0, None)


def test_many_calls_of_few_bytes():
    assert vte.Processor().feed(b"\x1b]104\x07") == [calls.ResetColor(it) for it in range(256)]
    assert vte.Processor().feed(b"a\x1b[65535b" * 9) == [Input("a" * 65536 * 9)]
    long = [calls.ClipboardStore("c", b"Q" * 100_000)]
    assert vte.Processor().feed(b"\x1b]52;c;" + b"Q" * 100_000 + b"\x07") == long


# ---- the example: bytes, and a character that is then shown

SHOWN = [
    (b"ab", 0, 1, "b"), (b"\x1b[5;10Hab\x08c", 4, 10, "c"), (b"\x1b[2Ad", 2, 11, "d"),
    (b"\x1b[3Be", 5, 12, "e"), (b"\x1b[4Df", 5, 9, "f"), (b"\x1b[3Cg", 5, 13, "g"),
    (b"\x1b[7Gh", 5, 6, "h"), (b"\x1b[9di", 8, 7, "i"), (b"\rj", 8, 0, "j"), (b"\nk", 9, 1, "k"),
    (b"\x1b[99;99Hlm", 23, 0, "m"), (b"", 22, 79, "l"), (b"\x1b[99A\x1b[99Dn", 0, 0, "n"),
    (b"\x1b[99B\x1b[99Co", 23, 79, "o"), (b"\x1b[3;1Hpqr\x1b[1D\x1b[1K", 2, 1, " "),
    (b"\x1b[3;1Hpqr\x08\x1b[K", 2, 1, "q"), (b"\x1b[2J", 23, 79, " ")]


def test_a_screen_has_what_calls_put_there():
    screen, processor = Screen(), vte.Processor()
    for stream, row, column, character in SHOWN:
        for call in processor.feed(stream):
            screen.take(call)
        assert screen.lines[row][column] == character, stream


def test_the_example_shows_a_screen():
    # an update that doesn't end is shown, too
    stream = b"\x1b[2;3Ha\x1b[?2026h\r\nb"
    said = subprocess.check_output([sys.executable, EXAMPLES / "screen.py"], input=stream)
    assert said.decode().split("\n") == ["", "  a", "b", *[""] * 22]
