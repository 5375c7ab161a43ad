"""Tests of the package as a whole: names, wrong arguments, threads, signals, leaks."""
import doctest
import gc
import importlib.metadata
import io
import operator
import pickle
import signal
import sys
import threading
from concurrent.futures import ThreadPoolExecutor
from pathlib import Path
from resource import RUSAGE_SELF, getrusage

import pytest
from common import LONG, READERS, make_parsers, until

import vte
from vte import Csi, Osc, Text, calls
from vte.calls import Attribute, TerminalAttribute

NAMES = {f"vte.{name}": getattr(vte, name) for name in vte.__all__ if name != "Event"}
NAMES |= {f"vte.calls.{kind.__name__}": kind for kind in (*calls.KINDS, calls.Rgb)}
NAMES |= {f"{name}.{of}": part for name, value in NAMES.items()
          if isinstance(value, type) and not issubclass(value, tuple)
          for of, part in vars(value).items() if of[0] != "_"}


def test_public_names_are_listed_and_documented():
    modules = {name for name, value in vars(vte).items() if isinstance(value, type(vte))}
    assert set(vte.__all__) == {name for name in vars(vte) if name[0] != "_"} - modules | {"calls"}
    of = {getattr(vte, name).__module__ for name in set(vte.__all__) - {"calls", "Event"}}
    assert of <= {"vte", "vte._parts", "vte._reader", "vte._vte"}
    assert doctest.testmod(vte).failed == 0
    assert importlib.metadata.version("naqshuve-vte") == vte.__version__
    assert [made.limit for made in (*make_parsers(), vte.Parser(1024))] == [None, 1024, 1024]
    for name, value in NAMES.items():
        # a named tuple without a text of its own has its fields there
        has_fields = isinstance(value, type) and value.__doc__.startswith(f"{value.__name__}(")
        assert value.__doc__ and not has_fields, name


parser = vte.Parser()


FEEDS = [getattr(make(), read) for make, read in READERS if read == "feed"]
STRIPS = [getattr(make(), read) for make, read in READERS if read == "strip"] + [vte.strip]


@pytest.mark.parametrize("wrong", [1, None, ["a"], [97]])
@pytest.mark.parametrize("function", FEEDS + STRIPS)
def test_what_is_read_has_bytes(function, wrong):
    with pytest.raises(TypeError, match=f"bytes-like object is .*not '{type(wrong).__name__}'"):
        function(wrong)


@pytest.mark.parametrize("function", FEEDS)
def test_events_are_of_no_text(function):
    with pytest.raises(TypeError, match="bytes-like object is .*not 'str'"):
        function("a")


@pytest.mark.parametrize("limit", [0, 1, 5, 1023, 1025, -1024, False, "1024"])
def test_a_limit_is_none_or_1024(limit):
    with pytest.raises(ValueError, match=f"limit must be None or 1024, not {limit!r}"):
        vte.Parser(limit)


@pytest.mark.parametrize("wrong", [None, b"path", io.StringIO("a"), sys.__stdout__])
def test_what_is_opened_is_a_binary_file(wrong):
    message = f"open takes a path, a file descriptor or a binary file, not {type(wrong).__name__}"
    with pytest.raises(TypeError, match=message):
        vte.open(wrong)


@pytest.mark.parametrize("wrong", [
    None, ["a"], object(), io.StringIO("a"), sys.__stdout__, memoryview(b"abcd")[::2]])
def test_what_has_parts_is_a_path_or_bytes(wrong):
    message = f"parts takes .* or a bytes-like object, not {type(wrong).__name__}"
    with pytest.raises(TypeError, match=message):
        vte.parts(wrong, 9)


@pytest.mark.parametrize("kinds", [{int}, [Text, None], int, 5, "Osc", [[]], [Text("a")]], ids=str)
@pytest.mark.parametrize("function, words", [
    pytest.param(parser.feed, [b""], id="feed"),
    pytest.param(parser.feed_until, [b""], id="stops of feed_until"),
    pytest.param(parser.feed_until, [b"", Osc], id="kinds of feed_until"),
    pytest.param(vte.open, [io.BytesIO(), 9], id="open")])
def test_kinds_are_types_of_events(function, words, kinds):
    with pytest.raises(TypeError, match="kinds must be types of events|is not iterable"):
        function(*words, kinds)


@pytest.mark.parametrize("size", [0, -1, 1.5, None, "9"])
@pytest.mark.parametrize("function, source", [(vte.open, io.BytesIO()), (vte.parts, b"")])
def test_a_size_is_at_least_1(function, source, size):
    with pytest.raises(ValueError, match=f"size must be at least 1, not {size!r}"):
        function(source, size)


@pytest.mark.parametrize("wrong", [b"a", "a", bytearray(b"a")])
def test_lines_are_an_iterable(wrong):
    with pytest.raises(TypeError, match=f"iterable over lines, not {type(wrong).__name__}"):
        vte.strip_lines(wrong)


@pytest.mark.parametrize("name", ["limits", "limit", "sync_timeouts"])
@pytest.mark.parametrize("make", [make for make, _ in READERS])
def test_no_attribute_can_be_set(make, name):
    with pytest.raises(AttributeError, match=name):
        setattr(make(), name, 1)


@pytest.mark.parametrize("error, message, function, words", [
    (ValueError, "stops can't have vte.Text or vte.Data", parser.feed_until, [b"", [Text]]),
    (UnicodeEncodeError, "surrogates not allowed", vte.strip, ["\ud800", "surrogateescape"]),
    (ValueError, "errors must be 'replace' or 'surrogateescape', not", vte.strip, [b"", "ignore"])])
def test_a_wrong_argument_is_an_error(error, message, function, words):
    with pytest.raises(error, match=message):
        function(*words)


@pytest.mark.parametrize("make, read", READERS)
def test_a_shared_object_raises(make, read):
    data, shared = b"a\x1b[1m" * 40_000, make()
    wanted = getattr(make(), read)(data)

    def use(_):
        try:
            return getattr(shared, read)(data)
        except RuntimeError as error:
            return str(error)

    with ThreadPoolExecutor(8) as pool:
        answers = list(pool.map(use, range(32)))
    assert all(answer in (wanted, "another thread uses this object") for answer in answers)
    assert wanted in answers


@pytest.fixture
def patient_threads():
    """No thread has to make way for another, which waits until it does by itself."""
    before = sys.getswitchinterval()
    sys.setswitchinterval(LONG)
    yield
    sys.setswitchinterval(before)


@pytest.mark.parametrize("read", [vte.strip, lambda data: vte.Parser().feed(data, {Osc})])
def test_other_threads_run_meanwhile(patient_threads, read):
    data, passes, ends = b"plain text \x1b[1m" * 2_000_000, [], threading.Event()

    def count():
        while not ends.wait(0.001):
            passes.append(None)

    def is_counted():
        before = len(passes)
        read(data)
        return len(passes) > before

    counter = threading.Thread(target=count, daemon=True)
    counter.start()
    until(is_counted)
    ends.set()
    counter.join()


# each makes another object, and none is made by code in Python, where a signal would come
COLOURS = b"".join(b"\x1b[38;2;%d;%d;9m" % (it & 255, it >> 8) for it in range(30_000))


@pytest.mark.parametrize("make, end", [
    (vte.Parser, [Csi(((1,), (4,)), b"", False, "m")]),
    (vte.Processor, [TerminalAttribute(Attribute.Bold, None),
                     TerminalAttribute(Attribute.Underline, None)])])
@pytest.mark.parametrize("data", [b"a\x1b[m" * 100_000, COLOURS])
def test_a_signal_comes_out_and_the_next_call_goes_on(make, end, data):
    shared, before = make(), signal.signal(signal.SIGALRM, signal.default_int_handler)
    # what is raised in a callback of the collector, such as that of hypothesis, is lost
    gc.disable()
    try:
        with pytest.raises(KeyboardInterrupt):
            signal.setitimer(signal.ITIMER_REAL, 0.005)
            for _ in range(1000):
                shared.feed(data + b"\x1b[1")
                shared.feed(b"m")
        # the stream is after the one call or the other
        shared.feed(b"\x18")
        assert shared.feed(b"\x1b[1;4m") == end
    finally:
        gc.enable()
        signal.signal(signal.SIGALRM, before)


LEAKED = b"".join(b"\x1b[%dm\x1b]0;%d\x07text \xff\n\x1bP%dqdata\x1b\\" % (it, it, it)
                  for it in range(5))


def use_everything():
    for parser in make_parsers():
        parser.feed(LEAKED), parser.feed(LEAKED, {vte.Data}), parser.feed_until(LEAKED, {Osc})
    pickle.loads(pickle.dumps(parser))
    vte.Processor().feed(LEAKED + b"\x1b[?2026h")
    for data in LEAKED, LEAKED.decode(errors="replace"), bytearray(LEAKED):
        vte.strip(data), vte.Stripper().strip(data), vte.strip(data, errors="surrogateescape")
    for wrong in (lambda: parser.feed("a"), lambda: parser.feed(b"", [1]),
                  lambda: vte.Parser(limit=5), lambda: vte.Processor().__reduce_ex__(4)):
        with pytest.raises((TypeError, ValueError)):
            wrong()


def test_nothing_leaks():
    used = []
    for times in 600, 300:
        for _ in range(times):
            use_everything()
        gc.collect()
        # what a processor has for updates isn't resident
        pages = int(Path("/proc/self/statm").read_text().split()[0])
        used.append((sys.getallocatedblocks(), getrusage(RUSAGE_SELF).ru_maxrss, pages))
    blocks, memory, pages = map(operator.sub, *reversed(used))
    # one object for each call would be 300
    assert blocks < 250 and memory < 8000 and pages < 8000
