"""Tests of parsers and of their events."""
import array
import copy
import mmap
import pickle
import typing

import pytest
from common import EVENTS, READERS, STREAM, cut, feed, join_runs, make_parsers, text_of

import vte
from vte import Csi, Data, Esc, Execute, Hook, Osc, Put, Text, calls

TITLE = b"\x1b]0;" + b"t" * 1000 + b"\x07"
MOST, SIXTEEN = b"a" * 1024, b"a;" * 15 + b"a"
# classes made from others
Bytes = type("Bytes", (bytes,), {})
OwnParser = type("OwnParser", (vte.Parser,), {})
Slots = type("Slots", (vte.Stripper,), {"__slots__": ("more", "__dict__")})


@pytest.fixture(params=[None, 1024], ids="limit={}".format)
def make(request):
    """Makes parsers without a limit, and with one."""
    return lambda: vte.Parser(limit=request.param)


# streams of many events, and these
MANY = {
    "a long text": (b"x" * 100_000, [Text("x" * 100_000)]),
    "malformed bytes": (b"\xff" * 100_000, [Text("\ufffd" * 100_000)]),
    "the same sequence": (
        b"\x1b[m" * 20_000 + b"\xc3\xbc", [Csi(((0,),), b"", False, "m")] * 20_000 + [Text("ü")]),
    "the same command": (
        TITLE * 500 + b"a\r", [Osc((b"0", b"t" * 1000), True)] * 500 + [Text("a"), Execute(13)]),
    "malformed bytes, then controls": (
        b"\xff" * 6000 + b"\r" * 6000, [Text("\ufffd" * 6000)] + [Execute(13)] * 6000),
    "short lines": (b"\xe2\x82\xac\n" * 9000, [Text("\u20ac"), Execute(10)] * 9000),
    "texts of each length, of which two differ in the first byte": (
        b"".join(b"%d%s\r" % (it % 2, b"a" * (it // 2)) for it in range(80)),
        [made for it in range(80) for made in (Text(f"{it % 2}" + "a" * (it // 2)), Execute(13))]),
    "different sequences, more than a parser knows": (
        b"".join(b"\x1b[%d;%dH" % (it, it // 7) for it in range(5000)) * 2,
        [Csi(((it,), (it // 7,)), b"", False, "H") for it in range(5000)] * 2),
    "a text, and then sequences": (
        b"\xc3\xa9" * 600_000 + b"\x1b[1m" * 300_000 + b"end",
        [Text("é" * 600_000), *[Csi(((1,),), b"", False, "m")] * 300_000, Text("end")])}


@pytest.mark.parametrize("stream, wanted", MANY.values(), ids=MANY)
def test_no_event_of_many_is_lost(make, stream, wanted):
    # what differs in long lists takes minutes to show
    assert (make().feed(stream) == wanted) is True


@pytest.mark.parametrize("end, bell, after", [
    (b"\x07", True, []), (b"\x1b", False, []), (b"\x18", False, [Execute(0x18)])])
@pytest.mark.parametrize("kept, more, truncated", [
    pytest.param(MOST, b"", False, id="all data"),
    pytest.param(MOST, b"a", True, id="a byte more"),
    pytest.param(MOST, b";;", False, id="empty pieces more"),
    pytest.param(MOST, b";;b", True, id="a byte more in another piece"),
    pytest.param(MOST[1:] + b";b", b"", False, id="all data in two pieces"),
    pytest.param(MOST[1:] + b";b", b"c", True, id="a byte more in two pieces"),
    pytest.param(b";" + MOST, b"", False, id="all data after an empty piece"),
    # pieces after the sixteenth are dropped
    pytest.param(SIXTEEN, b"", False, id="all pieces"),
    pytest.param(SIXTEEN, b";", False, id="an empty piece more"),
    pytest.param(SIXTEEN, b";;;", False, id="three empty pieces more"),
    pytest.param(SIXTEEN, b";x", True, id="a piece more"),
    pytest.param(SIXTEEN, b";;x", True, id="an empty piece and another more")])
def test_commands_that_lost_data_say_so(kept, more, truncated, end, bell, after):
    stream = b"\x1b]" + kept + more + end
    wanted = [Osc(tuple(kept.split(b";")), bell, truncated), *after]
    for limit in (1024, None) if kept == SIXTEEN else (1024,):
        parser, x = vte.Parser(limit), Esc(b"", False, "x") if end == b"\x1b" else Text("x")
        several = stream + b"\x1b]c\x07" + stream
        assert parser.feed(several) == [*wanted, Osc((b"c",), True), *wanted]
        assert parser.feed(b"x") == [x]
        assert feed(parser, cut(b"\x18" + stream, 1))[1:] == wanted
        assert feed(parser, cut(b"x\x1b]c\x07", 1)) == [x, Osc((b"c",), True)]


@pytest.mark.parametrize("size", [7, 4096, 1 << 20])
@pytest.mark.parametrize("kinds", [None, {Osc}, {Text}, {Osc, Text}, {Csi}, {Data}, {Hook, Data}])
def test_long_strings_in_chunks(make, size, kinds):
    long = bytes(range(0x20, 0x7F)) * 900
    commands = [(b"52", b"c", b"Q" * 1000), tuple(b"%d" % it for it in range(16))]
    if make().limit is None:
        commands.append((b"x" * 100_000,))
    stream = b"".join(b"a\x1b]" + b";".join(pieces) + b"\x07\xff" for pieces in commands)
    stream += b"\x1bP1q" + long + b"\n\x1b\\\x1bPqx\x18"
    wanted = [event for pieces in commands
              for event in (Text("a"), Osc(pieces, True), Text("\ufffd"))]
    wanted += [Hook(((1,),), b"", False, "q"), Data(long + b"\n"), Hook(((0,),), b"", False, "q"),
               Data(b"x")]
    found = feed(make(), cut(stream, size), kinds or {Text, Osc, Csi, Hook, Data})
    assert len(found) < 2 * len(stream) // size + 20
    assert join_runs(found) == join_runs(it for it in wanted if kinds is None or type(it) in kinds)


def test_each_string_has_its_own_data(make):
    parser, strings = make(), b"\x1bPqab\x1b\\\x1bPqc\x18\x1bPqd\x80e\x7f\xfffg"
    assert parser.feed(strings, {Data}) == [Data(b"ab"), Data(b"c"), Data(b"defg")]
    assert parser.feed(b"\x18" + strings, {Put}) == [Put(byte) for byte in b"abcdefg"]


def test_a_call_ends_after_an_event_that_stops(make):
    parser, end = make(), STREAM.index(b"\x07") + 1
    assert parser.feed_until(STREAM, {Osc}) == (EVENTS[:-1], end)
    assert parser.feed_until(STREAM[end:], {Osc}) == (EVENTS[-1:], 5)
    assert parser.feed_until(STREAM, {Esc, Csi}, {Csi}) == (EVENTS[1:2], STREAM.index(b"m") + 1)
    stream = b"text\x1b]0;a\x07more\x1b[1m\x1b]0;b\x07end"
    assert make().feed_until(stream, {Osc}, {Osc}) == ([Osc((b"0", b"a"), True)], 10)


@pytest.mark.parametrize("kinds", [{Osc}, Osc, (), {Data, Osc}])
def test_what_stops_need_not_be_wanted(make, kinds):
    parser = make()
    assert parser.feed_until(b"one\ntwo\nthree", Execute, kinds) == ([], 4)
    assert parser.feed_until(b"two\x1b[1mthree\n", {Csi, Esc}, kinds) == ([], 7)
    assert parser.feed(b"x") == [Text("x")]


@pytest.mark.parametrize("kind", [*typing.get_args(vte.Event), *calls.KINDS])
def test_an_event_equals_its_copies_and_none_of_another_kind(kind):
    one, other = kind(*range(len(kind._fields))), (Put if kind is Execute else Execute)(0)
    assert (one == tuple(one), one != tuple(one), bool(one)) == (False, True, True)
    assert one != other and not one == other
    for again in kind(*one), copy.deepcopy(one), pickle.loads(pickle.dumps(one)):
        assert type(again) is kind and again == one and not again != one
        assert hash(again) == hash(one)


def mapped(data):
    made = mmap.mmap(-1, len(data))
    made[:] = data
    return made


BUFFERS = {
    "bytes": (STREAM, EVENTS),
    "a kind of bytes": (Bytes(STREAM), EVENTS),
    "bytearray": (bytearray(STREAM), EVENTS),
    "memoryview": (memoryview(STREAM), EVENTS),
    "mmap": (mapped(STREAM), EVENTS),
    "an array": (array.array("B", STREAM), EVENTS),
    "a part of a memoryview": (memoryview(STREAM * 2)[:len(STREAM)], EVENTS),
    "each second byte of a memoryview": (memoryview(b"a-b-c")[::2], [Text("abc")]),
    "an array of numbers of two bytes": (array.array("H", b"abcd"), [Text("abcd")]),
    "no bytes": (b"", []),
    "an empty bytearray": (bytearray(), [])}


@pytest.mark.parametrize("data, wanted", BUFFERS.values(), ids=BUFFERS)
def test_any_object_with_a_buffer_is_read(data, wanted):
    for parser in make_parsers():
        made = parser.feed(data)
        assert made == wanted and {*made} == {*wanted}
    texts = [vte.strip(data), vte.Stripper().strip(data), *vte.strip_lines([data])]
    assert [(type(text), text) for text in texts] == [(bytes, text_of(wanted))] * 3
    assert vte.Processor().feed(data) == vte.Processor().feed(bytes(data))


WRONG = [("feed", 1), ("feed", "a"), ("feed", b"x", Osc, Osc), ("feed_until", b"x", {Text}),
         ("strip", 1), ("strip", b"x", True, 1), ("strip", "\ud800"),
         *((*call, wrong) for wrong in ({int}, [Text, None], int, 5, "Osc", [[]], [Text("a")], [1])
           for call in [("feed", b"x"), ("feed_until", b"x"), ("feed_until", b"x", {Csi})])]


@pytest.mark.parametrize("make_any, read", READERS)
@pytest.mark.parametrize("position", range(0, len(STREAM), 3))
def test_errors_leave_the_stream(make_any, read, position):
    reader = make_any()
    method, other = getattr(reader, read), getattr(make_any(), read)
    made, wanted = method(STREAM[:position]), other(STREAM[:position]) + other(STREAM[position:])
    for name, *words in WRONG:
        if function := getattr(reader, name, None):
            with pytest.raises((TypeError, ValueError)):
                function(*words)
    # nor is there a state to be set by what wasn't pickled
    assert not hasattr(reader, "__setstate__")
    assert made + method(STREAM[position:]) == wanted


@pytest.mark.parametrize("copied", [
    copy.copy, copy.deepcopy, lambda reader: pickle.loads(pickle.dumps(reader))])
def test_a_copy_goes_on_as_its_original(copied):
    for position in range(len(STREAM) + 1):
        parser, stripper = OwnParser(limit=1024), Slots("surrogateescape")
        parser.name, stripper.name, stripper.more = ["a"], "b", 5
        events, text = parser.feed(STREAM[:position]), stripper.strip(STREAM[:position])
        parser, stripper = copied(parser), copied(stripper)
        assert (type(parser), parser.limit, vars(parser)) == (OwnParser, 1024, {"name": ["a"]})
        assert (type(stripper), stripper.more, vars(stripper)) == (Slots, 5, {"name": "b"})
        assert join_runs(events + parser.feed(STREAM[position:])) == EVENTS
        assert text + stripper.strip(STREAM[position:]) == "aü\r\U0001f600".encode() + b"\xff"
    with pytest.raises(TypeError, match="only parsers with a limit can be copied"):
        copied(vte.Parser())
    with pytest.raises(TypeError, match="cannot pickle '.*Processor' object"):
        copied(vte.Processor())


@pytest.mark.parametrize("make, word, read", [
    (vte.Parser, 1024, "feed"), (vte.Stripper, "replace", "strip")])
def test_states_of_other_versions_are_refused(make, word, read):
    _, (version, content), *_ = make(word).__getnewargs__()
    for state in (0, b""), ("0.0.0", content), (version, content[1:]), (version, content, 1):
        with pytest.raises(ValueError, match="pickled with another version of the package"):
            make.__new__(make, word, state)
    # any content of this length is some parser
    for byte in range(256):
        made = make.__new__(make, word, (version, bytes([byte]) * len(content)))
        getattr(made, read)(STREAM)


def test_refused_is_pickled():
    for lost in [], [True]:
        refused = pickle.loads(pickle.dumps(vte.Refused(3, [Text("a")], *lost)))
        assert isinstance(refused, MemoryError) and type(refused) is vte.Refused
        assert str(refused) == "no memory, after 3 bytes"
        assert (refused.read, refused.events, refused.lost) == (3, [Text("a")], bool(lost))
