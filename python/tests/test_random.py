"""Random streams in random chunks: all ways to read them agree, also with `vtlog`, by $VTLOG. With
$SAME_STREAMS they are the same each time."""
import os
import re

import pytest
from common import WORDS, feed, join_runs, make_parsers, needs_vtlog, run_vtlog, text_of
from test_vectors import format_events

import vte
from vte import Csi, Data, Esc, Execute, Hook, Osc, Put, Text, Unhook

pytest.importorskip("hypothesis")
from hypothesis import given, settings, strategies  # noqa: E402

PARTS = [
    *WORDS, b"]", b"P", b"X", b"\\", b";", b":", b"0", b"38", b"99999", b"H", b"?", b"$", b" ",
    b"(", b"\n", b"\t", b"\r", b"a", b"text", b"\xac", b"\xf0\x9f\x98", b"\x85", b"\x9b",
    b"\x1b[?2026h", b"\x1b[?2026l", b"\x1b]52;c;", b"x" * 600, b"\x7f", b"\x0b", b"\xc2\x9f",
    "\u2028\U0010ffff".encode()]
ENDS = [Execute, Hook, Put, Unhook, Osc, Csi, Esc]
chunks = strategies.lists(
    strategies.sampled_from(PARTS) | strategies.binary(max_size=4), max_size=60).map(b"".join)
streams = strategies.lists(chunks, max_size=5)
some_kinds = (strategies.none() | strategies.just({Osc})
              | strategies.sets(strategies.sampled_from([*ENDS, Text, Data])))
often = settings(deadline=None, max_examples=150, derandomize="SAME_STREAMS" in os.environ)


@often
@given(strategies.lists(strategies.tuples(chunks, some_kinds), max_size=5))
def test_unwanted_kinds_are_left_out(stream):
    for parser, other in zip(make_parsers(), make_parsers()):
        for chunk, kinds in stream:
            found, everything = parser.feed(chunk, kinds), other.feed(chunk)
            if kinds and Data in kinds:
                # the data of each string are one event
                everything = join_runs(Data(bytes(event)) if isinstance(event, Put) else event
                                       for event in everything)
            assert found == [it for it in everything if kinds is None or type(it) in kinds]


@often
@given(streams, strategies.sets(strategies.sampled_from(ENDS), min_size=1), some_kinds)
def test_chunks_and_stops_change_no_event(stream, stops, kinds):
    for parser, stopped, some, other in zip(*(make_parsers() for _ in range(4))):
        wanted, events = other.feed(b"".join(stream)), []
        assert join_runs(feed(parser, stream)) == wanted
        for chunk in stream:
            while chunk:
                more, read = stopped.feed_until(chunk, stops)
                assert not any(type(event) in stops for event in more[:-2])
                # whatever is wanted, it stops there
                found, same = some.feed_until(chunk, stops, kinds and kinds - {Data})
                assert (found, same) == ([event for event in more if kinds is None
                                          or type(event) in kinds - {Data}], read)
                events, chunk = events + more, chunk[read:]
        assert join_runs(events) == wanted
    if not any(isinstance(event, Osc) and event.truncated for event in wanted):
        assert wanted == vte.Parser().feed(b"".join(stream))


@often
@given(streams)
def test_text_of_chunks_is_that_of_their_events(stream):
    whole, parser, stripper = b"".join(stream), vte.Parser(), vte.Stripper()
    chunks = [*map(stripper.strip, stream)]
    assert chunks == [text_of(parser.feed(chunk)) for chunk in stream]
    # an ESC is what ends an unfinished character without text of its own
    chunks.append(stripper.strip(b"", final=True))
    assert chunks[-1] == text_of(parser.feed(b"\x1b"))
    plain = vte.strip(whole)
    assert b"".join(chunks) == plain
    assert stripper.strip(whole, final=True) == plain


@often
@given(streams)
def test_malformed_bytes_stay_where_a_replacement_would_stand(stream):
    whole, keeping = b"".join(stream), vte.Stripper("surrogateescape")
    kept = b"".join([*map(keeping.strip, stream), keeping.strip(b"", final=True)])
    assert kept == vte.strip(whole, errors="surrogateescape")
    # in the place of each U+FFFD it or malformed bytes may stand
    plain = vte.strip(whole).split("\ufffd".encode())
    assert re.fullmatch(rb"[\x80-\xff]{1,3}".join(map(re.escape, plain)), kept)
    lines = vte.strip_lines([whole.decode(errors="surrogateescape")], "surrogateescape")
    assert "".join(lines) == kept.decode(errors="surrogateescape")


@often
@given(streams)
def test_str_is_stripped_as_its_bytes_are(stream):
    texts = [chunk.decode(errors="replace") for chunk in stream]
    plain = vte.strip("".join(texts))
    assert "".join(map(vte.Stripper().strip, texts)) == plain
    assert plain == vte.strip("".join(texts).encode()).decode()


@often
@given(streams)
def test_each_line_is_stripped_alone(stream):
    lines = stream + [chunk.decode(errors="replace") for chunk in stream]
    assert list(vte.strip_lines(lines)) == [*map(vte.strip, lines)]


@often
@given(streams)
def test_calls_of_chunks_are_those_of_the_whole(stream):
    whole = b"".join(stream)
    # an update ends by the clock, too
    if b"2026" not in whole:
        assert join_runs(feed(vte.Processor(), stream)) == vte.Processor().feed(whole)


@needs_vtlog
@often
@given(streams)
def test_events_and_text_are_those_of_vtlog(stream):
    whole, found = b"".join(stream), format_events(feed(vte.Parser(limit=1024), stream))
    assert found == run_vtlog(whole).decode().splitlines()
    assert vte.Stripper().strip(whole) == run_vtlog(whole, "text")
