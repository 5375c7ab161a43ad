"""Tests of plain text."""
import copy
import itertools

import pytest
from common import STREAM, cut, text_of

import vte

Letters = type("Letters", (str,), {})


def test_controls_and_characters_of_latin_1():
    for code in range(256):
        for data in bytes([code]), f"a{chr(code)}b".encode():
            assert vte.Stripper().strip(data) == text_of(vte.Parser().feed(data))


def test_a_line_leaves_nothing_open_for_the_next():
    # nothing that a line leaves open goes on in the next
    assert list(vte.strip_lines([b"a\xc3", b"b\n\x18"])) == [b"a\xef\xbf\xbd", b"b\n"]
    texts = ["a\x1b[1mb\n", "\ud800", "plain", b"\x1b[mx", "\x1b[1", "mx", ""]
    for lines in texts, iter(texts), tuple(texts):
        assert list(vte.strip_lines(lines)) == ["ab\n", "\ufffd", "plain", b"x", "", "mx", ""]


def test_each_line_comes_as_it_is_taken():
    lines = iter([b"\x1b[ma", b"b"])
    assert (next(vte.strip_lines(lines)), next(lines)) == (b"a", b"b")


def test_bytes_give_bytes_and_str_gives_str():
    assert vte.strip(STREAM) == "aü\r\U0001f600\ufffd".encode()
    assert vte.strip("ü\x1b[1mß\ud800\udbff\udc00\udfffb") == "üß\ufffd\ufffd\ufffd\ufffdb"
    assert vte.strip("ü\x1b[m" * 400_000) == "ü" * 400_000
    for lines in [Letters("a\x1b[1mb"), Letters("plain")], [Letters("a\x1b[1mb"), "plain"]:
        ways = map(vte.strip, lines), map(vte.Stripper().strip, lines), vte.strip_lines(lines)
        for texts in ways:
            assert [(type(text), text) for text in texts] == [(str, "ab"), (str, "plain")]


def test_text_may_have_three_times_the_bytes():
    for size in *range(4200), 200_000:
        assert vte.strip(b"\xff" * size) == "\ufffd".encode() * size


KEPT = [
    (b"a\xff\x1b[1mb\xe2\x82c\xc0\xaf\n", b"a\xffb\xe2\x82c\xc0\xaf\n"),
    (b"\x1b]0;t\xe2\x07\xa2\x1bP\xff\x1b\\z", b"\xa2z"), (b"\xe2\x82\x1b[m\xacz", b"\xe2\x82\xacz"),
    (b"\xff\x85\x01\xc2\x85\xfe", b"\xff\xfe"), (b"\xef\xbf\xbd\xef\xbf", b"\xef\xbf\xbd\xef\xbf")]


def test_bytes_that_are_not_utf8_stay():
    # without sequences and controls all do
    parts = itertools.product(b"a\n\xc2\xa0\xe2\xbf\xf0\xff\xed\xef\xbd\xf4", repeat=4)
    whole = (bytes(part) for part in parts)
    stripper = vte.Stripper("surrogateescape")
    for data, wanted in [*KEPT, *((data, data) for data in whole)]:
        texts = [*map(stripper.strip, cut(data, 1)), stripper.strip(b"", final=True)]
        assert vte.strip(data, errors="surrogateescape") == b"".join(texts) == wanted
    for data, wanted in KEPT:
        text, wanted_text = (it.decode(errors="surrogateescape") for it in (data, wanted))
        found = vte.strip_lines([data, text], errors="surrogateescape")
        assert list(found) == [wanted, wanted_text]


@pytest.mark.parametrize("front, end, shown, kept", [
    (b"caf", b"\xe9", 1, b"\xe9"), (b"", b"\xf0\x9f\x98", 1, b"\xf0\x9f\x98"),
    (b"a\xe9", b"\xc3", 1, b"\xc3"), (b"\x1b[mx", b"\xe2\x82", 1, b"\xe2\x82"),
    (b"a\xff", b"", 0, b""),
    # bytes of a sequence that didn't end are no text
    (b"a", b"\x1b]0;t\xe9", 0, b""), (b"a", b"\x1b\xe9", 0, b""), (b"", b"\x1bPq\xc3", 0, b""),
    (b"a", b"\x1b[1;3", 0, b""), (b"a", b"\x1b", 0, b"")])
def test_a_stream_ends_in_an_unfinished_character(front, end, shown, kept):
    for errors, wanted in ("replace", "\ufffd".encode() * shown), ("surrogateescape", kept):
        text = vte.strip(front + b"\x18", errors)
        assert vte.strip(front + end, errors) == text + wanted
        assert [*vte.strip_lines([front + end], errors)] == [text + wanted]
        stripper = vte.Stripper(errors)
        for chunks in [front, end], [front + end], [front, *cut(end, 1)], cut(front + end, 1):
            assert b"".join(map(stripper.strip, chunks)) == text
            found = copy.copy(stripper).strip("", final=True)
            assert found.encode(errors=errors) == wanted
            assert stripper.strip(b"", final=True) == wanted
            # another stream begins
            assert stripper.strip(b"\xa9x", final=True) == vte.strip(b"\xa9x", errors)
        assert stripper.strip(front) + stripper.strip(end, final=True) == text + wanted
        if errors == "surrogateescape":
            data = (front + end).decode(errors=errors)
            for stripped in vte.strip(data, errors), stripper.strip(data, True):
                assert stripped.encode(errors=errors) == text + wanted
