"""Tests of the parts of the judge: the definition, shrinking, what is shown, and formats."""
import json
import mmap
import os
import re
from contextlib import nullcontext
from types import SimpleNamespace

import pytest
from lib.documents import Page
from lib.judging import candidate, definition, formats, house, reference, report, shrinking, views
from lib.judging.cases import Case
from lib.judging.classes import Difference
from lib.judging.judgement import Finding, Judgement
from lib.judging.rules import ALONE, CUT, RULES
from lib.testing.missing import miss
from lib.testing.support import write, write_program
from support import FILES, TOOLS


# streams, house rules, and the events under them
HOUSES = [
    (b"\xc3\xa9\x80", "encoding=bytes", ["print 00c3", "print 00a9", "print 0080"]),
    *((b"\x80\x9f\xa0", f"c1-bytes={value}", [*lines, "print fffd"]) for value, lines in (
        ("replace", ["print fffd"] * 2), ("drop", []))),
    *((b"\xc2\x80\xc2\x9f\xc2\xa0", f"c1-characters={value}", [*lines, "print 00a0"])
      for value, lines in (("print", ["print 0080", "print 009f"]), ("drop", []))),
    (b"\x7e\x7f", "delete=drop", ["print 007e"]),
    (b"\x1b]a\x07b\x1b\\c", "bell=drop", ["osc false 1 6162", "esc - false 5c", "print 0063"]),
    (b"\x1b[1:2;3m", "colon=separates", ["csi [1;2;3] - false 6d"]),
    (b"\x1b[1:2m\x1b[1m", "colon=refuses", ["csi [1] - false 6d"]),
    *((b"\x1b]a;bc;d\x07", rule, [f"osc true {pieces}"]) for rule, pieces in (
        ("limit=2", "2 61 62"), ("limit=0", "1 -"), ("pieces=2", "2 61 6263"))),
    (b"\x1b]" + b"a" * 2000 + b"\x07", "limit=none", ["osc true 1 " + "61" * 2000]),
    (b"\x1b]" + b"a;" * 17 + b"\x07", "pieces=none", ["osc true 18 " + "61 " * 17 + "-"]),
    *((b"\x1b[1;22:333m", rule, [f"csi [{numbers}] - {ignore} 6d"]) for rule, numbers, ignore in (
        ("numbers=2", "1;22", "true"), ("largest=99", "1;22:99", "false"))),
    (b"\x1b[" + b";" * 32 + b"m", "numbers=33", ["csi [" + "0;" * 32 + "0] - false 6d"]),
    (b"\x1b[" + b";" * 99 + b"m", "numbers=none", ["csi [" + "0;" * 99 + "0] - false 6d"]),
    (b"\xf0\x9fa", "malformed=bytes", ["print fffd", "print fffd", "print 0061"]),
    (b"\xf0\x9fa", "malformed=drop", ["print 0061"]),
    (b"\x1b]a\x9cb", "command-9c=ends", ["osc false 1 61", "print 0062"]),
    (b"\x1b]a\x9c\x1b\\", "command-9c=ends terminator=silent",
     ["osc false 1 61", "esc - false 5c"]),
    (b"\x1bPqa\x9cb\x18", "device-9c=drop",
     ["hook [0] - false 71", "put 61", "put 62", "unhook", "execute 18"]),
    (b"\x1b_a\x9cb", "ignored-9c=ends", ["print 0062"]),
    (b"\x1b]a\x1b\\\x1b\\", "terminator=silent", ["osc false 1 61", "esc - false 5c"]),
    *((b"\x1b]a%c\x1b\\\x1b]b\x1b\\" % end, "terminator=silent",
       ["osc false 1 61", f"execute {end:02x}", "esc - false 5c", "osc false 1 62"])
      for end in (0x18, 0x1a)),
    (b"\x1b]a\x07\x1b\\\x1b_\x1b\\", "terminator=silent", ["osc true 1 61", "esc - false 5c"]),
    (b"\x1b]a\x1bc\x1b]b\x1b\\", "escaped-commands=drop",
     ["esc - false 63", "osc false 1 62", "esc - false 5c"]),
    (b"\x1b]a\x18\x1b]b\x07", "cancelled-commands=drop", ["execute 18", "osc true 1 62"]),
    (b"\x1b]\x07", "empty-commands=drop", []),
    (b"\x1b[" + b"0" * 9 + b"9" * 5000 + b"m", "largest=none", [f"csi [{'9' * 5000}] - false 6d"])]


@pytest.mark.parametrize("stream, rules, lines", HOUSES)
def test_a_house_rule_changes_the_lines(stream, rules, lines):
    own = house.house_of(rules.split())
    assert definition.lines_of(stream, own) == lines != definition.lines_of(stream)
    assert sorted(house.words_of(own)) == sorted(rules.split())


def test_each_house_rule_is_tested_and_on_the_page():
    tried = {word for _, rules, _ in HOUSES for word in rules.split()}
    page = (TOOLS.parent / "docs/JUDGE.md").read_text()
    page = page.partition("## House rules")[2].partition("\n## ")[0]
    for name, choices in house.CHOICES.items():
        others = choices[1:] if isinstance(choices, tuple) else ["none"]
        assert {f"{name}={value}" for value in others} <= tried
        row = next(row for row in page.split("\n- ") if f"**{name}**" in row)
        shown = [str(choices)] if isinstance(choices, int) else choices
        assert all(re.search(rf"[ (]{value}\b", row) for value in shown), name
    assert re.findall(r"\*\*([a-z0-9-]+)\*\*", page) == [*house.CHOICES]


def test_headings_of_rules_are_there():
    links = [rule.page for rule in [*RULES.values(), *ALONE.values(), CUT]]
    links += [rule["page"] for file in FILES for rule in file["rules"].values()]
    for page, _, heading in (link.partition("#") for link in links):
        assert heading in Page(TOOLS.parent / page).list_headings(), heading


# chunks, whether a case is still a finding, and the smallest that is
SHRUNK = {
    "two bytes and a cut": (
        [b"xx\x1b[1mx" * 50, b"b" * 300], lambda case: case[0].count(b"x") > 1 and len(case) > 1,
        [b"xx", b""]),
    "a byte": ([b"abc", b"def"], lambda case: b"e" in b"".join(case), [b"e"]),
    "a cut that doesn't matter": (
        [b"x1", b";y", b"z"], lambda case: b"1;" in b"".join(case), [b"1;"]),
    "a cut that matters": (
        [b"x1", b";y", b"z"], lambda case: len(case) > 1 and b"1;" in b"".join(case),
        [b"1;", b""])}


@pytest.mark.parametrize("chunks, differs, smallest", SHRUNK.values(), ids=SHRUNK)
def test_smallest_cases_are_found(chunks, differs, smallest):
    assert shrinking.shrink([chunks], lambda streams: differs(*streams) and streams) == [smallest]


@pytest.mark.parametrize("last, first, plain", [
    (0x1A, 0, "a\n\x07\x18"), (0x1B, 0x1B, ""), (0x1F, 0x1C, "a\n"), (0x7E, 0x20, "a1;mX"),
    (0x7F, 0x7F, "a"), (0x9F, 0x80, "a\x80"), (0xBF, 0xA0, "a\xa0"), (0xC1, 0xC0, "a"),
    (0xDF, 0xC2, "a\xc3"), (0xEF, 0xE0, "a\xe4"), (0xF4, 0xF0, "a\xf0"), (0xFF, 0xF5, "a\xff"),
    (0x101, 0x100, "")])
def test_a_byte_is_replaced_by_plainer_ones(last, first, plain):
    for byte in map(chr, range(first, last + 1)):
        wanted = plain[:plain.index(byte)] if byte in plain else plain
        assert shrinking.find_plainer(f"b{byte}b{byte}", 1) == [
            f"b{plainer}b{byte}" for plainer in wanted]
        text = f"b{byte}" * 21
        assert shrinking.find_plainer(text, 1) == [
            text.replace(byte, plainer) if byte != "b" else "b" + plainer * 41
            for plainer in wanted]


@pytest.mark.parametrize("chunks, shown", [
    ([b"\x1b]'\x80", b"", b"\""], '\\x1b]\'\\x80 |  | "'), ([b"a" * 200], "a" * 200),
    ([b"a" * 201], "a" * 150 + " ..")])
def test_streams_are_shown_as_text(chunks, shown):
    assert report.show_text(chunks) == shown


def test_the_page_shows_a_finding_as_it_is_printed():
    answers = ["csi [65535] - false 61"], ["csi [91111] - false 61"]
    difference = Difference([b"\x1b[91111a"], *answers)
    case = Case("vector number-far-past-the-limit", [b"a" * 20, b"bc"])
    shown = report.show_finding(Finding("largest/numbers", difference, case),
                                "tools/judge --case '{}' python3 /tmp/tmp.uY3bqOcOLa".format)
    page = (TOOLS.parent / "docs/JUDGE.md").read_text()
    assert "".join(f"    {line}\n" for line in shown.splitlines()) in page
    rest = Finding("cut:c1-byte/crash", difference._replace(before=[[b"x"]]), case, False, 1, False)
    lines = report.show_finding(rest, str).splitlines()
    assert lines[0] == ("KNOWN cut:c1-byte/crash: 8 bytes, not shrunk to the end, from 22 of "
                        "vector number-far-past-the-limit")
    assert lines[1].startswith("  input      1 others, then ")
    assert [line[:10].split() for line in lines[5:10]] == [["rule"], ["source"]] * 2 + [["level"]]


# ---- the reference

def test_the_reference_and_the_definition_must_agree(tmp_path):
    program = write_program(tmp_path / "program", "echo print 0062")
    assert reference.Reference(program).answer_all([b"a"]) == [["print 0062"]]
    with pytest.raises(reference.NoReference, match="differ"):
        reference.Reference(program, house.house_of(["delete=drop"])).answer_all([b"a"])


# what --vtlog and $VTLOG name, and why it is none
@pytest.mark.parametrize("option, named, reported", [
    ("./right", "failing", None), ("./failing", "right", "failed with status 3: why"),
    (None, "right", None), (None, "failing", "failed with status 3: why"),
    (None, "no", "not a program: ./"), (None, "folder", "not a program: ./"),
    (None, "text", "not a program: ./"),
    (None, "other", "other isn't vtlog: it prints other lines"),
    (None, "empty", "empty can't be run: Exec format error")])
def test_which_program_is_the_reference(tmp_path, monkeypatch, option, named, reported):
    monkeypatch.chdir(tmp_path)
    monkeypatch.setenv("VTLOG", f"./{named}")
    for name, line in {"right": "echo print 0061; echo 'csi [0] - false 6d'; echo print fffd",
                       "other": "cat", "failing": "echo why >&2; exit 3"}.items():
        write_program(name, line)
    write("empty", "\n", 0o755), write("folder/file", "")
    write("text", "", 0o644)
    with pytest.raises(reference.NoReference, match=reported) if reported else nullcontext():
        reference.Reference(reference.find_vtlog(option)).check()


def test_a_vtlog_of_this_repository_comes_before_others(tmp_path, monkeypatch):
    monkeypatch.delenv("VTLOG", raising=False)
    proved = tmp_path / "crates/vtlog/out/vtlog"
    monkeypatch.setattr(reference, "TOP", tmp_path)

    def find(built, is_installed):
        monkeypatch.setattr(reference, "build_by_cargo", lambda: built)
        installed = {"vtlog": "/bin/installed"} if is_installed else {}
        monkeypatch.setattr(reference.shutil, "which", installed.get)
        return reference.find_vtlog()
    assert [find("built", True), find(None, True)] == ["built", "/bin/installed"]
    with pytest.raises(reference.NoReference, match="there is no vtlog"):
        find(None, False)
    sources = write(tmp_path / "crates.txt", "")
    os.utime(write(proved, ""), (0, 2))
    for changed, used in (1, str(proved)), (2, "/bin/installed"):
        os.utime(sources, (0, changed))
        assert [find("built", True), find(None, True)] == ["built", used]


def test_the_vtlog_of_this_repository_is_built(tmp_path, monkeypatch, capsys):
    made = '{"reason":"compiler-artifact","filenames":["/made/vtlog"]}'
    write_program(tmp_path / "cargo",
                  f'echo "$@" >>"$0.said"; echo why >&2; echo \'{made}\'; exit $FAILS')
    monkeypatch.setenv("PATH", str(tmp_path), prepend=os.pathsep)
    for fails, built in ("0", "/made/vtlog"), ("1", None):
        monkeypatch.setenv("FAILS", fails)
        assert reference.build_by_cargo() == built
    assert capsys.readouterr().err == "why\n"
    said = (tmp_path / "cargo.said").read_text().split()
    assert {"build", "--release", "--locked", str(reference.CARGO_CRATE / "Cargo.toml")} <= {*said}


# ---- answers

LINES = ["print 0061", "execute 07", "csi [1:2;3] 3f true 6d", "osc true 2 - 61", "osc false 1 61",
         "hook [0:1] - false 71", "put 61", "unhook", "esc 28 true 41"]


# words, and the lines that aren't there then, or are others
@pytest.mark.parametrize("unreported, changed", [
    ("", {}), ("print", {0: ""}), ("execute", {1: ""}), ("csi", {2: ""}), ("osc", {3: "", 4: ""}),
    ("dcs", {5: "", 6: "", 7: ""}), ("esc", {8: ""}), ("pieces", {3: "osc true 1 3b61"}),
    ("bell", {3: "osc - 2 - 61", 4: "osc - 1 61"}),
    ("ignore", {2: "csi [1:2;3] 3f - 6d", 5: "hook [0:1] - - 71", 8: "esc 28 - 41"}),
    ("groups", {2: "csi [1;2;3] 3f true 6d", 5: "hook [0;1] - false 71"}),
    ("ignore groups bell pieces dcs", {2: "csi [1;2;3] 3f - 6d", 3: "osc - 1 3b61", 4: "osc - 1 61",
                                       5: "", 6: "", 7: "", 8: "esc 28 - 41"})])
def test_unreported_fields_are_left_out(unreported, changed):
    lines = [changed.get(at, line) for at, line in enumerate(LINES)]
    assert views.View(unreported.split()).filter(LINES) == [line for line in lines if line]


DIGITS = "".join(f"{number:04}" for number in range(75))


@pytest.mark.parametrize("one, other, shown", [
    ([], ["unhook"], ["(no event)", "unhook"]),
    (["a", "b" * 120], ["a"], ["a / " + "b" * 120, "a"]),
    (["b" * 121], [], ["b" * 120 + " ..", "(no event)"]),
    (list("abcdef"), ["a", "c"], ["a / b / c / d / e / f", "a / c"]),
    # from the first difference on, if there are more than six lines, or a line is long
    (list("abcdefg"), ["a", "c"], ["b / c / d / e / f / g", "c"]),
    (list("abcdefghi"), ["a", "(hang: x)"],
     ["b / c / d / e / f / g / .. (8 lines)", "(hang: x)"]), (["a"], [*"abcdefgh", "(hang: x)"],
     ["(no event)", "b / c / d / e / f / g / .. (8 lines) / (hang: x)"]),
    (["a", DIGITS[:200] + "x"], ["a", DIGITS[:200] + "y", "z" * 121],
     [f".. {DIGITS[81:200]}x", f".. {DIGITS[81:200]}y / " + "z" * 120 + " .."]),
    ([DIGITS], [DIGITS[:99] + "x" + DIGITS[100:]],
     [f".. {DIGITS[39:159]} ..", f".. {DIGITS[39:99]}x{DIGITS[100:159]} .."]),
    ([DIGITS], ["x"], [f"{DIGITS[:120]} ..", "x"]),
    # a line that goes on where the other ends, whose parts look the same
    (["6" * 400], ["6" * 300], ["400 characters: .. " + "6" * 120 + " ..",
                                "300 characters: .. " + "6" * 120])])
def test_long_answers_are_shown_where_they_differ(one, other, shown):
    assert [*report.show_answers(one, other)] == shown
    assert [*report.show_answers(other, one)] == shown[::-1]


def test_answers_come_in_parts(monkeypatch):
    side = candidate.Program(["cat"], False, 20)
    for size in range(1, 12):
        rest, output = bytearray(b"print 0061\nend\nend\nunhook\nend\n"), bytearray(b"\n")

        def read_some(process, output, until, rest=rest, size=size):
            read, rest[:size] = rest[:size], b""
            output += read
            return bool(read)
        monkeypatch.setattr(side, "read_some", read_some)
        answers = [side.read_answer(None, output, 0) for _ in range(3)]
        assert (answers, output) == ([["print 0061"], [], ["unhook"]], b"\n")
    side.close()


def test_what_is_reserved_is_not_used():
    process = SimpleNamespace(pid=os.getpid())
    before = candidate.measure_memory(process)
    with mmap.mmap(-1, 1 << 29, mmap.MAP_PRIVATE | mmap.MAP_ANONYMOUS):
        assert candidate.measure_memory(process) - before < 1 << 28


@pytest.mark.parametrize("output", [
    b"", b"print 0061", b"csi [1:2;3] 3f - 6d\nesc - true 41\nunhook\nosc - 2 - 61\nput 00\n"
    b"hook [] - false 71\nexecute 1a\nprint 10ffff\nosc true 12 6162"])
def test_lines_of_events_are_an_answer(output):
    assert candidate.answer_of(output) == output.decode().splitlines()
    assert candidate.answer_of(output + b"\n" * bool(output)) == output.decode().splitlines()


@pytest.mark.parametrize("wrong", [
    b"", b"print 61", b"print 0061 ", b"print 0061\r", b"end", b"execute 0A", b"\xff",
    b"csi [1] - maybe 6d", b"esc - false 4", b"print \0", b"(hang: x)", b"a\x1c", b"esc 2 - 41",
    b"csi [1] - false", b"csi [a] - - 6d", b"print 1234567", b"put 1", b"unhook -"])
def test_a_line_of_no_event_breaks_the_protocol(wrong):
    answer = candidate.answer_of(b"print 0061\n" + wrong + b"\nunhook\n")
    assert [answer[0], candidate.failure_of(answer)] == ["print 0061", "protocol"]
    assert len(answer) == 2 and re.fullmatch("[ -~]*", "".join(answer))


# ---- results

def make_result(is_new=True, **fields):
    found = Finding("text/missing", Difference([b"a"], [], []), Case("", [b""]), is_new, 3)
    return Judgement(**{"streams": 9, "different": 3, "findings": {found.name: found}, **fields})


@pytest.mark.parametrize("status, judgement", [
    (0, Judgement(streams=1)), (1, Judgement()), (1, make_result()), (0, make_result(False)),
    (1, Judgement(9, 1)), (1, make_result(False, different=4)), (1, Judgement(ended_early="x")),
    (3, make_result(False, ended_early="x")), (1, make_result(ended_early="x"))])
def test_what_a_run_found_decides_its_status(status, judgement):
    assert judgement.find_status() == status


def test_the_sum_lists_classes_and_counts_streams():
    found = {name: Finding(name, Difference([b"ab", b"c"], [], []), Case("", []), is_new, streams)
             for name, is_new, streams in (("text/extra", False, 2), ("delete/missing", True, 15))}
    assert report.show_sum(Judgement(99, 20, found, "the time was over"), "x").splitlines() == [
        "class           level    streams  smallest  known",
        "delete/missing  differs       15         3  no",
        "text/extra      must           2         3  yes",
        "3 of the streams that differ weren't assigned to a class",
        "ended early: the time was over", "99 streams, 20 differ; 2 classes, 1 of them new; seed x"]
    assert report.show_sum(Judgement(9), "1").startswith("9 streams, 0 differ; 0 classes, 0 of ")


def format_findings(kind, **fields):
    """Returns what a format makes of two rules, with texts that it has to escape: one is known, of
    the other a kind is new."""
    lines = ["print 0061", "(protocol: this is no event line: '<&#\">')"]
    difference, case = Difference([b"a#"], ["unhook"], lines), Case("x # y", [b"ab"])
    found = {name: Finding(name, difference, case, name == "colon/leaked")
             for name in ("text/missing", "colon/numbers", "colon/leaked")}
    judgement = Judgement(**{"streams": 9, "different": 3, "findings": found, **fields})
    return formats.FORMATS[kind](judgement, "# \x1b]]>&", lambda case: f"judge '{case}' # <&>")


@pytest.mark.parametrize("fields, others", [
    pytest.param({}, [], id="findings alone"),
    pytest.param({"different": 4}, ["each difference has a class"], id="without a class"),
    pytest.param({"streams": 0}, ["all streams are judged"], id="no streams"),
    pytest.param({"ended_early": "a < b"}, ["all streams are judged"], id="ended early")])
def test_junit_is_read_by_its_library(fields, others):
    try:
        import junitparser
    except ImportError:
        miss("there is no python3-junitparser")
    suite = junitparser.JUnitXml.fromstring(format_findings("junit", **fields).encode())
    results = {case.name: case.result for case in suite}
    assert len(results) == len(formats.TESTS) + 2
    failed, skipped = ([name for name, found in results.items()
                        if found and isinstance(found[0], kind)]
                       for kind in (junitparser.Failure, junitparser.Skipped))
    assert (failed, skipped) == (["colon", *others], ["text"])
    assert "'<&#\">'" in results["colon"][0].text
    assert (suite.tests, suite.failures, suite.skipped) == (len(results), 1 + len(others), 1)


def test_json_has_each_finding():
    reported = json.loads(format_findings("json", different=4, ended_early="x"))
    findings, rule = reported.pop("findings"), RULES["text"]
    assert reported == {"version": 3, "seed": "# \x1b]]>&", "streams": 9, "different": 4,
                    "unassigned": 1, "ended_early": "x", "new": 1}
    assert [finding["new"] for finding in findings] == [False, False, True]
    assert findings[0] == {
        "class": "text/missing", "rule": "text", "kind": "protocol", "level": "must",
        "source": rule.source, "says": rule.says, "page": "docs/EVENTS.md#text", "before": [],
        "chunks": ["6123"], "case": "61 23", "again": "judge '61 23' # <&>",
        "reference": ["unhook"], "found_in": "x # y", "smallest": True, "streams": 1, "new": False,
        "yours": ["print 0061", "(protocol: this is no event line: '<&#\">')"]}
