"""Tests that the judge ends, with long streams and with programs that are slow or hang: by counts,
and by clocks that the tests hold."""
from types import SimpleNamespace

import pytest
import toy
from lib.judging import budget, candidate, cases, classes, definition, formats, house, report
from support import Side, answer_rightly, judge_of


# ---- long streams

# of 100,000 bytes in one chunk 20,000 will do
LONG_CASES = [case._replace(chunks=[case.chunks[0][:10_000] + case.chunks[0][-10_000:]])
              for case in cases.make_cases(["vectors"], "1", 0) if len(case.chunks[0]) > 50_000]


def limit_readings(monkeypatch, most):
    """Lets readings by the definition take `most` steps."""
    left, read_next = iter(range(most)), definition.StepReader.read_next

    def read_counted(reader):
        assert next(left, None) is not None, "too many readings"
        return read_next(reader)
    monkeypatch.setattr(definition.StepReader, "read_next", read_counted)


# what is left of a long stream may be about its rules again, byte after byte
@pytest.mark.parametrize("stream, rules", [
    (b"\xe4" * 4000, "unfinished"), (b"\xe4\xbd" * 2000 + b"\x1b7", "unfinished"),
    (b"\x1b" * 2000 + b"7" * 2000, "escape-sequence"), (b"\xff" * 4000, "malformed"),
    (b"\xe4" * 1000 + b"a" + b"\xbd\xa0" * 1000, "text"), (b"a\x7f" * 2000, "delete"),
    (b"\x1bPq" + b"a\x1b7" * 1333, "device-cut-short"), (b"\x1b]" + b"\n" * 4000, "command"),
    (b"\xed\xa0q\xa0" * 1000, "text surrogate"), (b"\xf0\x80\x80\x7f\xbd", "delete overlong")])
def test_a_long_stream_is_freed_in_one_pass(monkeypatch, stream, rules):
    rules = {*rules.split()}
    limit_readings(monkeypatch, 10 * len(stream))
    left = b"".join(classes.free_case([stream], rules, house.DEFAULT))
    assert not rules & {name for step in definition.steps_of(left) for name in step.rules}


# a parser that says more about an open character at the end, one that forgets a cut one, and a
# right one that is freed of what is open
@pytest.mark.parametrize("fault, left_out, found", [
    ("hasty", (), {"unfinished/replacement"}), ("", ("unfinished",), set()),
    ("forgetful", (), {"cut:malformed/replacement", "cut:unfinished/replacement"})])
def test_long_streams_are_judged_to_the_end(monkeypatch, fault, left_out, found):
    some = [*LONG_CASES, *(cases.Case("", [b"\xe4"] * 4000 + [end]) for end in (b"", b"\x1b"))]
    limit_readings(monkeypatch, 2 * 10**6)
    result = judge_of(lambda chunks, _: toy.answer(chunks, [fault]), left_out=left_out).run(some)
    assert (result.streams, result.ended_early) == (len(some), "")
    assert {*result.findings} == found


# ---- slow programs, by a clock that the test holds

class SlowSide(Side):
    """A side whose clock goes on by `seconds` for a byte. It is the clock, too."""

    def __init__(self, monkeypatch, answer, seconds, deadline=None, timeout=10):
        super().__init__(answer)
        self.now, self.seconds, self.deadline, self.timeout = 0, seconds, deadline, timeout
        self.asked = []
        monkeypatch.setattr(budget, "time", SimpleNamespace(monotonic=lambda: self.now))

    def answer_all(self, streams):
        self.asked.append(len(streams))
        return [self.answer_slowly(chunks) for chunks in streams]

    def answer_slowly(self, chunks):
        wanted = self.seconds * len(b"".join(chunks))
        self.now += min(wanted, self.timeout)
        if self.deadline is not None and self.now >= self.deadline:
            raise candidate.OutOfTime
        return [candidate.HANG] if wanted >= self.timeout else self.answer(chunks, [])


# how long a byte takes, the sizes of batches, the end, and how many streams are left then
@pytest.mark.parametrize("seconds, sizes, deadline, left", [
    (0, [2, 4, 8, 16, 32, 50, 50, 50, 50, 50, 50, 38], None, 0), (3, [2] + [1] * 9, None, 0),
    (0.4, [2, 4, 8, 4, 8, 4, 8, 4, 8, 4], None, 0), (3, [2, 1], 13, 0), (3, [2, 1], 13, 9)])
def test_long_batches_are_followed_by_smaller_ones(monkeypatch, seconds, sizes, deadline, left):
    side = SlowSide(monkeypatch, answer_rightly, seconds, deadline)
    result = judge_of(side).run([cases.Case("", [b"a"])] * (sum(sizes) + left))
    assert side.asked == [1, *sizes, *[1] * bool(left)]
    assert (result.streams, result.find_status()) == (sum(sizes), 3 if left else 0)
    assert bool(result.ended_early) == bool(left)


# a stream, of which a program that takes some seconds for a byte forgets all lines but 27, how
# often it comes, and the class that is reported for it when the time is over
@pytest.mark.parametrize("stream, seconds, count, name", [
    (b"a" * 40, 0.3, 40, "text/hang"), (b"\x1b[" + b"1;" * 20 + b"m", 0.3, 40, "numbers/hang"),
    (b"a" * 30, 0.3, 40, "text/missing"), (b"b" * 30, 0.05, 1, "text/missing")])
def test_a_slow_program_has_an_example(monkeypatch, stream, seconds, count, name):
    end = 60 if count > 1 else 30
    side = SlowSide(monkeypatch, lambda *it: answer_rightly(*it)[:27], seconds, deadline=end)
    result = judge_of(side).run([cases.Case("", [stream])] * count)
    assert [*result.findings] == [name] and bool(result.ended_early) == (count > 1)
    assert end <= side.now <= end + budget.GRACE + side.timeout
    assert "not shrunk to the end" in report.show_finding(result.findings[name], str)
    junit = formats.format_junit(result, "1", str)
    reported = f'name="all streams are judged"><failure message="{result.streams} were"'
    assert (reported in junit) == (count > 1)


# ---- programs

class Clock:
    """A clock that the wait for a program's output moves on, and that ends it without output."""

    def __init__(self, monkeypatch):
        self.now = 0
        monkeypatch.setattr(candidate, "time", SimpleNamespace(monotonic=lambda: self.now))
        monkeypatch.setattr(candidate, "select", SimpleNamespace(select=self.select))

    def select(self, reading, writing, failing, seconds):
        self.now += seconds
        return [], [], []


@pytest.mark.parametrize("takes_chunks, streams, end", [(False, 1, 8), (True, 3, 24)])
def test_a_hang_ends_at_its_time(monkeypatch, takes_chunks, streams, end):
    side, clock = candidate.Program(["sleep", "3600"], takes_chunks, 8), Clock(monkeypatch)
    assert side.answer_all([[b"a"]] * streams) == [[candidate.HANG]] * streams
    assert end <= clock.now < end + streams * 0.2
    side.deadline = end + 5
    with pytest.raises(candidate.OutOfTime):
        side.answer_all([[b"a"]])
    assert end + 5 <= clock.now < end + 5.4
    side.close()


def test_a_program_that_closes_its_output_has_the_rest_of_its_time(monkeypatch):
    def wait(seconds):
        waited.append(seconds)
        raise candidate.subprocess.TimeoutExpired("", seconds)
    side, waited, clock = candidate.Program(["cat"], False, 8), [], Clock(monkeypatch)
    for clock.now in 3, 9:
        with pytest.raises(candidate.Broken, match="hang"):
            side.check_status(SimpleNamespace(wait=wait), 8)
    assert waited == [5, 0]
    side.close()
