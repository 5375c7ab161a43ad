"""Tests of the judge on functions of this process: which classes it finds."""
import re

import pytest
from lib.judging import (candidate, cases, classes, definition, house, judgement, kinds,
                         report, shrinking)
from lib.judging.classes import Difference
from lib.judging.rules import CUT, LEVELS, RULES
from lib.judging.sides import is_alike
from support import FILES, answer_rightly, judge_of


# there are enough to find several differences in a row, which are no class of their own; in the
# last two a difference has another kind than elsewhere, as a limit hides the rest
CASES = [case for case in cases.make_cases(("vectors", "random"), "1", 240)
         if sum(map(len, case.chunks)) < 3000] + [
    cases.Case("", [b"\x1b]" + front + b"\x9c\xa0\x1b"]) for front in (b";" * 16, b"a" * 1024)]


def judge_function(answer, tried=CASES, **options):
    """Returns what the judge says of a function. Each finding must show itself again, alone."""
    result = judge_of(answer, **options).run(iter(tried))
    for finding in result.findings.values():
        if finding.name != "not-deterministic":
            again = judge_of(answer, **options)
            again.judge_case(report.read_case(report.show_case(finding.difference)))
            assert [*again.result.findings] == [finding.name], (finding, again.result)
    return result


def names_of(result):
    return {name.partition("/")[0] for name in result.findings}


def break_rules(*rules):
    """Returns a parser that breaks rules of its house."""
    own = house.house_of(rules)
    return lambda chunks, _: definition.lines_of(b"".join(chunks), own)


# of a parser that breaks a house rule, the rules that are named
@pytest.mark.parametrize("breach, rules", [
    ("malformed=bytes", "malformed unfinished"), ("malformed=drop", "malformed unfinished"),
    ("c1-bytes=replace", "c1-byte"), ("c1-bytes=drop", "c1-byte"),
    ("c1-characters=print", "c1-character"), ("bell=drop", "command-bell"),
    ("command-9c=ends", "byte-9c"), ("device-9c=drop", "byte-9c"),
    ("terminator=silent", "terminator"), ("escaped-commands=drop", "command-cut-short"),
    ("cancelled-commands=drop", "command-cut-short"), ("empty-commands=drop", "empty-command"),
    ("delete=drop", "delete"), ("colon=separates", "colon"), ("colon=refuses", "colon"),
    ("limit=100", "limit"), ("pieces=4", "pieces"), ("pieces=17", "pieces"),
    ("numbers=16", "numbers"), ("numbers=33", "numbers"), ("largest=9999", "largest"),
    ("largest=none", "largest")])
def test_a_breach_of_a_house_rule_has_its_rule(breach, rules):
    result = judge_function(break_rules(breach))
    assert names_of(result) == set(rules.split())
    assert len(result.findings) == len(rules.split()), "a rule has one class"
    assert (result.unexplained_count, result.find_status()) == (0, 1)


# what is replaced in the lines, for streams in a row, and the streams that each class counts
COUNTED = {
    "what isn't shrunk any more counts for the first class of its rule": (
        {"execute 0f": "execute 1f", "execute 0e\nexecute 10": "print 0010", "execute 0e\n": "",
         "esc - false 41": "unhook"},
        [b"\x1bA", b"\x0f", b"\x0e", *[b"\x0e\x10"] * 4],
        {"escape-sequence/other": 1, "control/character": 2, "control/missing": 4}),
    "a kind that shows only with another rule is looked for until it shows alone": (
        {"execute 0e\n": "", "esc - false 41": "execute 41", "execute 0f": "execute 1f"},
        [b"\x0e", b"\x1bA", *[b"\x0e\x1bA"] * 9, b"\x0f"],
        {"control/missing": 10, "escape-sequence/other": 1, "control/character": 1}),
    "another event where two differences meet is no class": (
        {"execute 0[ef]\n": "", "(?=execute 1[01])": "unhook\n"},
        [b"\x0e", b"\x10", b"\x0f\x11"], {"control/missing": 2, "control/extra": 1}),
    "a failure is a class of its own, also if the case of another of its rule is in its case": (
        {"execute 0e\nexecute 10\n": "(crash: status 1)", "execute 0e\n": ""},
        [b"\x0e", b"\x0e\x10"], {"control/missing": 1, "control/crash": 1}),
    "what is found again and again is counted, but soon not shrunk any more": (
        {r"\Z": "unhook\n"}, [b"a"] * 100, {"text/extra": 100}),
    "a protocol that isn't kept again and again": (
        {"execute 0e": "(protocol: x)"}, [b"\x0e"] * 25, {"protocol": 25})}


@pytest.mark.parametrize("faults, streams, found", COUNTED.values(), ids=COUNTED)
def test_each_stream_counts_for_one_class(faults, streams, found):
    asked = []

    def answer_wrongly(chunks, _):
        asked.append(chunks)
        text = "".join(f"{line}\n" for line in answer_rightly(chunks))
        for pattern, other in faults.items():
            text = re.sub(pattern, other, text)
        return text.splitlines()
    result = judge_function(answer_wrongly, [cases.Case("", [stream]) for stream in streams])
    assert {name: it.streams for name, it in result.findings.items()} == found
    assert result.unexplained_count == len(streams) - sum(found.values())
    assert len(asked) < 200 + 8 * len(streams)


@pytest.mark.parametrize("most, is_smallest", [(2000, True), (2, False)])
def test_what_is_not_shrunk_to_the_end_says_so(monkeypatch, most, is_smallest):
    monkeypatch.setattr(judgement, "MAX_CASES", most)
    result = judge_of(lambda *_: []).run([cases.Case("", [b"abc\x1b[m"])])
    assert [finding.is_smallest for finding in result.findings.values()] == [is_smallest]


@pytest.mark.parametrize("level, names", [
    ("must", "text/missing malformed/character unfinished/leaked overlong/missing surrogate/data "
     "delete/output limit/memory cut:unfinished/replacement cut:between/other parameters/numbers "
     "largest/crash numbers/hang not-deterministic kept-state protocol"),
    ("should", "malformed/replacement unfinished/replacement overlong/replacement colon/leaked "
     "surrogate/replacement ignored-string/leaked device-end/missing"),
    ("differs", "empty-number/numbers largest/numbers")])
def test_rules_and_kinds_decide_the_level(level, names):
    assert {classes.level_of(name) for name in names.split()} == {level}


@pytest.mark.parametrize("names, is_class", [
    ("largest largest/numbers protocol cut:between cut:text/data", True),
    ("x largest/x cut:x between cut /missing", False)])
def test_a_class_is_a_rule_with_or_without_a_kind(names, is_class):
    assert [name for name in names.split() if classes.is_class(name) != is_class] == []


def test_a_class_has_its_rules():
    assert classes.rule_of("cut:text/data") == [CUT, RULES["text"]]
    assert classes.rule_of("cut:between") == [CUT]


def test_what_binds_has_a_sentence():
    for name in [*RULES, *(f"{rule}/{kind}" for rule in RULES for kind in kinds.KINDS)]:
        rule = RULES[name.partition("/")[0]]
        if classes.level_of(name) == "must" and name.partition("/")[2] not in kinds.FAILURES:
            assert re.search(r'".*\b(shall|must)\b.*"', rule.source), name
        assert rule.level in LEVELS


# a stream, what is replaced in its lines, and the class: one that is about the rule of a limit, of
# what is empty or of an end, only if the difference goes without it
@pytest.mark.parametrize("stream, pattern, other, name", [
    (b"\x1b]a\x07", " 61", " 62", "command/data"),
    (b"\x1b]a\x18", " 61", " 62", "command/data"),
    (b"\x1b]a\x1b[m", " 61", " 62", "command/data"),
    pytest.param(b"\x1b]a" + b";" * 20 + b"\x07", " 61", " 62", "command/data", id="many pieces"),
    pytest.param(b"\x1b]a" + b"a" * 2000 + b"\x07", " 61", " 62", "command/data", id="much data"),
    (b"\x1b]ab\x07", "1 6162", "2 61 62", "command/pieces"),
    (b"\x1b]a\x07", "true", "false", "command-bell/bell"),
    (b"\x1b]a\x18", "osc.*", "unhook", "command-cut-short/other"),
    (b"\x1b]\x07", "true", "false", "command-bell/bell"),
    (b"\x1b]\x07", "osc.*", "unhook", "command-bell/other"),
    (b"\x1b]\x07", "1 -", "1 61", "empty-command/data"),
    (b"\x1b[m", "6d", "6e", "control-sequence/final"),
    (b"\x1b[m", "0", "1", "empty-number/numbers"),
    (b"\xe4\xa0", "^$", "print fffd", "unfinished/replacement"),
    (b"\x1b[1;m", "6d", "6e", "parameters/final"),
    (b"\x1bPq", "71", "72", "device-control/final"),
    pytest.param(b"\x1b]" + b";" * 20 + b"\x07", "16 ", "15 ", "pieces/pieces", id="pieces"),
    pytest.param(b"\x1b]" + b"a" * 2000 + b"\x07", "(61){999}", "61", "limit/data", id="limit"),
    # what follows matters if an event isn't there; the first of several differences counts
    (b"a\x7f", "print 0061\nprint 007f", "print 007f", "delete/missing"),
    (b"\x0ea\x0f", "0e\nprint 0061\nexecute 0f", "0d\nprint 0061", "control/character"),
    (b"a\x1b]b\x1b\\", "0061", "0062", "text/character"),
    (b"a\x1b]b\x1b\\", "5c", "5d", "terminator/final")])
def test_which_rule_is_named(stream, pattern, other, name):
    def answer(chunks, _=None):
        return re.sub(pattern, other, "\n".join(answer_rightly(chunks))).splitlines()
    judge = judge_of(answer)
    assert judge.find_class(judge.sides.find_difference([stream])) == name


@pytest.mark.parametrize("case", CASES[::3], ids=lambda case: case.name)
def test_a_freed_case_has_none_of_its_rules(case):
    """What is freed of a rule, or of all of its stream, lacks it and nothing else that stays."""
    stream = b"".join(case.chunks)
    rules = {name for step in definition.steps_of(stream) for name in step.rules}
    for some in [{name} for name in rules] + [rules]:
        left = b"".join(classes.free_case(case.chunks, some, house.DEFAULT))
        assert not some & {name for step in definition.steps_of(left) for name in step.rules}
        rest = iter(stream)
        assert all(byte in rest for byte in left)
    assert classes.free_case(case.chunks, {*RULES} - rules, house.DEFAULT) == case.chunks
    cuts = {f"{classes.CUT_PREFIX}{name}" for name in RULES} | {classes.BETWEEN}
    assert classes.free_case(case.chunks, cuts, house.DEFAULT) == [stream]


# chunks, what they are freed of, by a rule of a house that keeps more than others, and what is left
DELETES, CHARACTER = [b"a\x7f", b"b", b"\x7f", b"c"], [b"\xc3", b"\xa9a"]
FREED = {
    "of a byte": (DELETES, "delete", [b"a", b"b", b"", b"c"]),
    "of text": (DELETES, "text", [b"\x7f", b"", b"\x7f", b""]),
    "of cuts between": (DELETES, "cut:between", [b"a\x7fb\x7fc"]),
    "of no cut in text": (DELETES, "cut:text", DELETES),
    "of a cut in text": (CHARACTER, "cut:text", [b"\xc3\xa9a"]),
    "of no cut in what is unfinished": (CHARACTER, "cut:unfinished", CHARACTER),
    "of too many pieces": ([b"\x1b]" + b";" * 16 + b"\x07"], "pieces=17", [b""]),
    "of too many numbers": ([b"\x1b[" + b";" * 32 + b"m"], "numbers=33", [b""]),
    "of too much data": ([b"\x1b]" + b"a" * 1025 + b"\x07"], "limit=1025", [b""])}


@pytest.mark.parametrize("chunks, rule, left", FREED.values(), ids=FREED)
def test_only_what_a_rule_is_about_is_freed(chunks, rule, left):
    own = house.house_of([rule] * ("=" in rule))
    assert classes.free_case(chunks, {rule.partition("=")[0]}, own) == left


@pytest.mark.parametrize("stream, cuts, found", [
    (b"ab", [1], [None]), (b"\xc3\xa9", [1], [0]), (b"\xc3\xa9a", [1, 2], [0, None]),
    # what is malformed is found to be so after its end
    (b"a\xc3b", [1, 2], [None, 1]), (b"\x1b[\n1m", [1, 2, 3, 4], [1, 1, 1, 1]),
    (b"\xc3\x1b7", [1], [0]), (b"\x1b]a\x07\xff\x1b", [3, 4, 5], [0, None, 1])])
def test_a_cut_divides_one_step_or_none(stream, cuts, found):
    assert [*classes.find_steps_at_cuts(definition.steps_of(stream), cuts).values()] == found


@pytest.mark.parametrize("one, other, wanted", [
    (candidate.HANG, "(memory: x)", True), ("(memory: x)", "(output: x)", True),
    ("(output: x)", candidate.HANG, True), ("(crash: 1)", "(crash: 2)", True),
    ("(crash: 1)", candidate.HANG, False), (candidate.HANG, "unhook", False),
    ("unhook", candidate.HANG, False), ("unhook", "unhook", True), ("unhook", "put 00", False)])
def test_which_answers_are_alike(one, other, wanted):
    one, other = (Difference([b"a"], [], ["put 01", line]) for line in (one, other))
    assert bool(is_alike(one, other)) == wanted


def test_what_depends_on_a_cut():
    result = judge_function(lambda chunks, _: [
        line for chunk in chunks for line in definition.lines_of(chunk)], CASES[:120])
    assert names_of(result) and all(name.startswith("cut:") for name in names_of(result))

    def answer_cuts(chunks, _):
        steps = definition.steps_of(b"".join(chunks))
        cuts = classes.find_steps_at_cuts(steps, shrinking.cuts_of(chunks))
        return [line for step in steps for line in step.lines] + ["unhook"] * (
            None in cuts.values())
    result = judge_function(answer_cuts)
    assert {name: it.streams for name, it in result.findings.items()} == {
        "cut:between/extra": result.different}


# alone, and in streams that have another fault
@pytest.mark.parametrize("some, lost, names", [
    (CASES, "", ["kept-state"]),
    ([cases.Case("", [chunk]) for chunk in (b"\x0e", *[b"a\x0f"] * 9)],
     "execute 0f", ["control/missing", "kept-state"])])
def test_what_depends_on_other_streams(some, lost, names):
    def answer_shifted(chunks, history):
        lines = answer_rightly(chunks)
        was_shifted = any(b"\x0e" in b"".join(before) for before in history)
        return [line for line in lines if line != lost and not (
            was_shifted and line.startswith("print"))]
    found = judge_function(answer_shifted, some).findings
    assert sorted(found) == names
    assert report.show_case(found["kept-state"].difference) == "0e / 61"


# answers to a stream one after another, the last of them again and again
@pytest.mark.parametrize("answers", [[["unhook"], []], [["unhook"], ["print 0062"], ["unhook"]],
                                     [[candidate.HANG], ["unhook"], ["unhook"], []]])
def test_two_answers_are_not_deterministic(answers):
    turns = iter(answers)
    judge = judge_of(lambda chunks, _: ["print 0061"] if chunks == [b"a"]
                     else next(turns, answers[-1]))
    judge.judge_case([[b"a"], [b"b"]])
    [finding] = judge.result.findings.values()
    assert finding.name == "not-deterministic" and "  then  " in report.show_finding(finding, str)


def test_a_hang_that_was_only_slow_is_none():
    answers = iter([["print 0061"], [candidate.HANG]])
    result = judge_of(lambda chunks, _: next(answers, ["execute 0e"])).run(
        iter([cases.Case("", [b"\x0e"])] * 9))
    assert (result.streams, result.different, result.find_status()) == (9, 0, 0)


def test_what_is_left_out_is_no_difference():
    dropped = break_rules("delete=drop")
    assert judge_function(dropped, left_out=["delete"]).different == 0
    assert judge_function(dropped).findings["delete/missing"].streams == sum(
        dropped(case.chunks, []) != answer_rightly(case.chunks) for case in CASES)
    # what is left out doesn't come back in what is shrunk
    result = judge_function(break_rules("c1-characters=print", "malformed=drop"),
                            left_out=["malformed", "unfinished"])
    assert names_of(result) == {"c1-character"}


@pytest.mark.parametrize("known, status", [
    ("delete", 0), ("delete/missing", 0), ("delete/extra", 1), ("del", 1), ("", 1)])
def test_what_is_known_is_no_failure(known, status):
    result = judge_function(break_rules("delete=drop"), [cases.Case("", [b"\x7f"])], known=[known])
    assert result.find_status() == status


@pytest.mark.parametrize("one, other, kind", [
    ("csi [9] - false 6d", "csi [10] 3f true 6e", "numbers"),
    ("hook [1:2] - - 71", "hook [1;2] - - 70", "numbers"),
    ("csi [1] - false 6d", "csi [1] 3f true 6d", "intermediates"),
    ("csi [] - - 6d", "csi [] - true 6e", "ignore"),
    ("hook [1] - - 71", "hook [1] - - 70", "final"),
    ("esc - false 41", "esc - false 42", "final"),
    ("esc - false 41", "esc - true 41", "ignore"),
    ("esc 28 - 41", "esc - - 41", "intermediates"),
    ("osc true 1 61", "osc false 1 61", "bell"),
    ("osc true 1 61", "osc osc - 2 - 62", "bell"),
    ("osc - 1 61", "osc - 2 61 -", "pieces"),
    ("osc - 2 61 -", "osc - 2 - 61", "pieces"),
    ("osc - 1 61", "osc - 1 6162", "data"),
    ("osc - 2 61 62", "osc - 2 61 63", "data"),
    ("put 61", "put 62", "character"),
    ("print fffd", "print 00e9", "character"),
    ("print fffd", "print fffd\nprint fffd", "replacement"),
    ("print fffd", "", "replacement"),
    ("print fffd\nprint 0061", "", "missing"),
    ("unhook", "", "missing"),
    ("", "unhook", "extra"),
    ("", "print 0061", "leaked"),
    ("execute 07", "print 0007", "leaked"),
    ("print 0061", "unhook", "other"),
    ("unhook\nunhook", "unhook\n(crash: status 1)", "crash"),
    # in long answers the first lines count
    pytest.param("put 61\nunhook\n" * 999, "put 62\nprint 0061\n" * 999, "character", id="long")])
def test_two_answers_differ_first_in_this_kind(one, other, kind):
    one, other = one.splitlines(), other.splitlines()
    same = kinds.find_first_difference(one, other)
    assert kinds.differences_of(one, other) == [(same, kind)] and kind in kinds.KINDS


def test_each_difference_has_its_place():
    one = ["put 61", "unhook", "put 62", "execute 07", "print 0061", "unhook"]
    other = ["put 60", "unhook", "execute 07", "print 0061", "print 0062", "unhook"]
    assert kinds.differences_of(one, other) == [(0, "character"), (2, "missing"), (5, "leaked")]
    assert kinds.differences_of(other, one) == [(0, "character"), (2, "extra"), (4, "missing")]


# a kind of streams, how their names begin, and whether those in turn depend on the seed
@pytest.mark.parametrize("kind, name, varies", [
    ("vectors", "vector ", [False, False]), ("random", "stream ", [True, True]),
    ("recorded", "recorded stream ", [False, True])])
def test_which_streams_are_judged(kind, name, varies):
    some, others, more = ([*cases.make_cases([kind], seed, count)]
                          for seed, count in (("1", 40), ("2", 40), ("1", 400)))
    assert some and some == more[:len(some)] and all(case.name.startswith(name) for case in some)
    assert [any(one.chunks != other.chunks for one, other in zip(some[at::2], others[at::2]))
            for at in (0, 1)] == varies
    streams = [b"".join(case.chunks) for case in some]
    if kind == "random":  # in turn of all, and mostly of text
        escapes = [sum(b"\x1b" in stream for stream in streams[at::2]) for at in (0, 1)]
        assert escapes[0] > escapes[1]
    if kind == "recorded":  # as they came, and in other chunks
        assert streams[::2] == streams[1::2]


def test_all_vectors_are_judged():
    found = {case.name: b"".join(case.chunks) for case in cases.make_cases(["vectors"], "1", 0)}
    wanted = [f"vector {vector['id']}" for file in FILES
              for vector in file["vectors"] + file["long"]
              if vector["kind"] not in ("colour", "number")]
    assert [*found] == wanted
    assert found["vector ff-100-000-times"] == b"\xff" * 100000
    steps = [{"advance": "62"}, {"act": "stop"}, {"bytes": ["63", {"repeat": "64", "times": 2}]}]
    assert cases.chunks_of({"before": "61", "steps": steps}) == [b"a", b"b", b"cdd"]
    assert cases.chunks_of({"chunks": ["61", "", "62"]}) == [b"a", b"b"]
    assert cases.chunks_of({"text": "red"}) == [b""]
