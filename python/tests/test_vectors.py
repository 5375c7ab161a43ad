"""Compares events, texts and calls with the test vectors, which an sdist doesn't have."""
import copy
import itertools

import common
import pytest
from call_words import lines_of, words_of_line
from common import FOLDER, cut, feed, load_vectors, make_parsers, stream_of
from events import line

import vte
from vte import calls

OPEN = [None, "character", "esc", "csi", "dcs", "osc", "ignored"]


def each(file, kind):
    return pytest.mark.parametrize(
        "vector", load_vectors(file, kind), ids=lambda vector: vector["id"])


def list_cuts(vector):
    """Lists ways to cut a vector's stream: its chunks, the whole, and single bytes."""
    stream = stream_of(vector)
    return [*map(bytes.fromhex, vector["chunks"])], [stream], cut(stream, 1)


def format_events(events):
    return [part for event in events for part in line(event).split("\n") if part]


def format_calls(made):
    return [part for call in made for part in lines_of(call)]


def wanted_words(lines):
    return [words_of_line(line) for line in lines if "_timeout" not in line]


def test_only_an_sdist_has_no_vectors(monkeypatch, tmp_path):
    monkeypatch.setattr(common, "FOLDER", tmp_path)
    monkeypatch.setattr(common, "IS_SDIST", True)
    assert load_vectors("events.json") == []
    monkeypatch.setattr(common, "IS_SDIST", False)
    with pytest.raises(FileNotFoundError):
        load_vectors("events.json")


@each("events.json", "events")
def test_events_are_those_of_the_vectors(vector):
    if vector["limit"] not in (None, 1024):
        pytest.skip("no parser has this limit")
    limits = {None, vector["limit"]} if len(stream_of(vector)) <= 1024 else {vector["limit"]}
    for chunks, limit in itertools.product(list_cuts(vector), limits):
        parser = vte.Parser(limit)
        assert format_events(feed(parser, chunks)) == vector["events"]
        # the next byte means what it should
        assert parser.feed(b"\x18x")[-2:] == [vte.Execute(0x18), vte.Text("x")]
        assert parser.feed(b"x") == [vte.Text("x")]


@each("events.json", "events")
def test_each_prefix_is_open_as_the_grammar_says(monkeypatch, vector):
    monkeypatch.syspath_prepend(FOLDER.parent / "tools")
    from lib.judging.open_ends import open_at_end
    stream, by_bytes = stream_of(vector)[:300], make_parsers()
    for end in range(len(stream) + 1):
        others = make_parsers()
        # what is no command is skipped
        for parser in others:
            parser.feed(stream[:end], vte.Osc)
        for parser in by_bytes:
            parser.feed(stream[max(end - 1, 0):end])
        assert {it.open for it in by_bytes + others} == {OPEN[open_at_end(stream[:end])]}


@each("events.json", "text")
def test_text_is_that_of_the_vectors(vector):
    for chunks, errors in itertools.product(list_cuts(vector), ["replace", "surrogateescape"]):
        stripper = vte.Stripper(errors)
        texts = [*map(stripper.strip, chunks)]
        # the text of a vector ends before an unfinished character
        end = copy.copy(stripper).strip(b"", final=True)
        assert b"".join([*texts, end]) == vte.strip(stream_of(vector), errors)
        assert (stripper.strip(b"\x18x")[-1:], stripper.strip(b"x")) == (b"x", b"x")
        if errors == "replace":
            assert b"".join(texts).hex() == vector["text"]
            assert end in (b"", "\ufffd".encode())


@each("calls.json", "calls")
def test_calls_are_those_of_the_vectors(vector):
    wanted, stream = wanted_words(vector["calls"]), stream_of(vector)
    if len(stream) > 1024:
        pytest.skip("a processor has no limit")
    for chunks in list_cuts(vector):
        processor = vte.Processor()
        assert format_calls(feed(processor, chunks)) == wanted
        # no vector of this kind holds calls back
        if processor.sync_timeout is not None:
            assert processor.stop_sync() == [calls.UnsetPrivateMode(2026)]
        assert processor.feed(b"\x18x")[-1:] == [calls.Input("x")]


@each("calls.json", "updates")
def test_updates_are_those_of_the_vectors(vector):
    if vector["timeout"] not in ("counting", "expiring"):
        pytest.skip("a processor has one timeout")
    processor = vte.Processor()
    for step in vector["steps"]:
        if step.get("act") == "expire":
            pytest.skip("no clock tells a processor that an update has expired")
        made = (processor.feed(bytes.fromhex(step["advance"])) if "advance" in step
                else processor.stop_sync())
        assert format_calls(made) == wanted_words(step["calls"])
        if "held" in step:
            assert processor.sync_bytes_count == step["held"]
