"""Tests of tools/mutate."""
import os
import subprocess
from pathlib import Path
from types import SimpleNamespace

import pytest
from lib.documents import Repository
from lib.testing.support import Tool, write, write_program

PATH, MUST_FAIL = "tools/mutants/c/m.edit", "crates/c/must-fail/other.edit"
MUTANT = "# A rule.\nfile: src/lib.rt\nold: one\nnew: two\n# refused at abc1234 by goal\n"

SOURCE = """\
const C: u8 = 0;

#[inline]
pub(crate) fn g() {}

impl<T: Fn() -> u8> B<T> {
    fn d() {
    }
}

impl<'a> io::Read
    for &'a B<Vec<u8>>
{
    /// Reads.
    fn h() {}
}
"""


@pytest.fixture
def copy(tmp_path_factory, monkeypatch):
    """A folder for a copy, beside that of a crate with a mutant."""
    write_program("bin/rt", "")
    monkeypatch.setenv("PATH", f"{Path.cwd()}/bin:{os.environ['PATH']}")
    for file in "crates.txt", "HANDLES", MUST_FAIL, PATH:
        write(file, MUTANT)
    write("crates/c/src/a.rt", "pub struct B<T>(T);\n\nfn e() {}\n")
    write("crates/c/src/a/b.rt", SOURCE)
    write("crates/c/src/lib.rt", "fn d() { f(one); f(two); }")
    return tmp_path_factory.mktemp("copy")


def find_faults(path, old, new):
    """Returns what --check says of an edit in which something else stands in the place of `old`."""
    write(path, MUTANT.replace(old, new))
    history = SimpleNamespace(is_in_history=lambda commit: commit == "abc1234",
                              has_history=lambda: False)
    status, output = Tool("mutate", REPOSITORY=history).run("--check")
    *faults, last = output.splitlines()
    assert (status, last) == (bool(faults), f"1 mutants, {len(faults)} faults")
    return faults


# what stands in an edit in the place of something, and what is wrong with it
EDITS = {
    "as it is": ("", "", None),
    "its text is there twice": (
        "old: one", "old: f(", "crates/c/src/lib.rt hasn't exactly one 'f('"),
    "its file is gone": ("lib.rt", "gone.rt", "crates/c/src/gone.rt hasn't exactly one 'one'"),
    "it edits what it wrote": ("new: two", "new: 3\nold: 3\nnew: 4", None),
    "it edits what it replaced": (
        "new: two", "new: 3\nold: one\nnew: 4", "crates/c/src/lib.rt hasn't exactly one 'one'"),
    "without a rule": ("# A rule.\n", "", "it names no rule")}


@pytest.mark.parametrize("path", [PATH, MUST_FAIL], ids=["mutant", "must-fail"])
@pytest.mark.parametrize("old, new, fault", EDITS.values(), ids=EDITS)
def test_an_edit_applies_and_names_a_rule(copy, path, old, new, fault):
    assert find_faults(path, old, new) == ([f"{path}: {fault}"] if fault else [])


@pytest.mark.parametrize("verdict, fault", [
    ("", "it wasn't refused: run tools/mutate"),
    ("# not refused at abc1234\n", "it wasn't refused: run tools/mutate"),
    ("# refused at abc1234 by a goal\n", "its verdict names no goal"),
    ("# refused at abc1234: `goal`: why\n", "its verdict names no goal"),
    ("# refused at abc1235 by goal\n",
     "its verdict names commit abc1235, which isn't in the history")])
def test_a_verdict_is_a_refusal_in_the_history(copy, verdict, fault):
    assert find_faults(PATH, "# refused at abc1234 by goal\n", verdict) == [f"{PATH}: {fault}"]


@pytest.mark.parametrize("goal", [
    "returns-then-x of a::B+C::d", "x of a::b::B::d", "x of a::BRead::h", "x of a::e", "x of d",
    "a goal of src/a/b.rt"])
def test_a_verdict_names_what_is_there(copy, goal):
    assert find_faults(PATH, "by goal", f"by {goal}") == []


@pytest.mark.parametrize("gone", ["a::gone", "a::g", "a::B::h", "src/a/gone.rt", "src/a/b.rt:1"])
def test_a_verdict_names_what_is_gone(copy, gone):
    assert find_faults(PATH, "by goal", f"by x of {gone}") == [
        f"{PATH}: its verdict names {gone}, which isn't there"]


def run_git(*words):
    config = "user.name=a", "user.email=a@b.c", "commit.gpgsign=false", "init.defaultBranch=main"
    options = [word for entry in config for word in ("-c", entry)]
    done = subprocess.run(["git", *options, *words], check=True, capture_output=True, text=True)
    return done.stdout.strip()


def commit():
    run_git("add", ".")
    run_git("commit", "-qm", "a", "--allow-empty")
    return run_git("rev-parse", "--short", "HEAD")


def test_verdicts_that_are_older_than_their_file_are_counted(copy, monkeypatch):
    def run(word):
        return Tool("mutate", REPOSITORY=Repository(Path.cwd())).run(word)

    run_git("init", "-q")
    verdict = MUTANT.replace("abc1234", commit())
    for name in "m", "n":
        write(f"tools/mutants/c/{name}.edit", verdict)
    write("crates/c/src/a.rt", "pub struct B<T>(T);")
    commit()
    assert run("--check") == (0, "2 mutants, 0 faults, 0 verdicts older than their file\n")
    assert run("--old") == (0, "\n")
    write("crates/c/src/lib.rt", "fn d() { f(one); }")
    write(PATH, MUTANT.replace("abc1234", commit()))
    commit()
    assert run("--check") == (0, "2 mutants, 0 faults, 1 verdicts older than their file\n")
    write("tools/mutants/c/o.edit", MUTANT.partition("# refused")[0])
    assert run("--old") == (0, "c/n\nc/o\n")
    run_git("clone", "-q", "--depth", "1", f"file://{Path.cwd()}", "shallow")
    monkeypatch.chdir("shallow")
    assert run("--check") == (0, "2 mutants, 0 faults\n")
    assert run("--old") == (2, "")


def test_an_edit_of_must_fail_has_no_verdict_and_is_no_mutant(copy):
    assert find_faults(MUST_FAIL, "# refused at abc1234 by goal\n", "") == []
    assert find_faults("crates/c/must-fail/m.edit", "", "") == [
        f"{PATH}: it is also in must-fail/"]


def mutate(output, *words, see=lambda _: None, **replaced):
    """Returns the status of a run in which rt says `output`. `see` gets rt's environment."""
    def run(*_, env, **__):
        see(env)
        return SimpleNamespace(stdout=output)

    ran = SimpleNamespace(run=run, DEVNULL=None, PIPE=None,
                          check_output=lambda *_, **__: "abc1234\n")
    return Tool("mutate", subprocess=ran, **replaced).run(*map(str, words))[0]


def try_one_of_two(copy, said):
    """Returns the status of a trial of one mutant, by its name, and the last line of it then."""
    text = MUTANT.replace("abc1234 by goal", "abc1200 by old")
    mutant, other = write(PATH, text), write("tools/mutants/c/n.edit", text)
    status = mutate(f"rt: must-fail c/m.edit: {said}\n", copy, "c/m", "c/m")
    assert [file.name for file in copy.rglob("*.edit")] == ["m.edit"]
    assert other.read_text() == text
    return status, mutant.read_text().splitlines()[-1]


# what the prover says of a refusal, and the goal of the verdict
REFUSALS = {
    "a goal alone": ("`x-y`: why (`x`)", "x-y"),
    "outside functions": (
        "note: src/a/b.rt:2:1: what `q` requires isn't proved (`x`); `y`", "x of src/a/b.rt"),
    "in a function": (
        "note: src/a/b.rt:3:1: what `q` requires isn't proved (`x`)", "x of a::b::g"),
    "in a method": ("note: src/a/b.rt:8:1: what `q` requires isn't proved (`x`)", "x of a::B::d"),
    "in a method of a trait": (
        "note: src/a/b.rt:14:1: what `q` requires isn't proved (`x`)", "x of a::BRead::h"),
    "in answers": ("./proofs/a/b/Answers.antt:1:2: error: `x`: `y`", "x of a::b"),
    "by a search": (
        "answers in ./proofs/a/Answers.antt; `search` did not prove `x`, `y`", "x of a"),
    "without a goal": ("answers in ./proofs/a/Answers.antt", "a goal of a")}


@pytest.mark.parametrize("why, goal", REFUSALS.values(), ids=REFUSALS)
def test_a_refusal_becomes_the_verdict(copy, why, goal):
    assert try_one_of_two(copy, f"refused, as it must be: {why}") == (
        0, f"# refused at abc1234 by {goal}")


@pytest.mark.parametrize("said, line", [
    ("NOT TRIED", "# refused at abc1200 by old"), ("NOT REFUSED", "# not refused at abc1234"),
    ("refused, as it must be: why", "# not refused at abc1234")])
def test_a_mutant_without_a_goal_is_not_refused(copy, said, line):
    assert try_one_of_two(copy, said) == (1, line)


def test_all_mutants_are_tried(copy):
    """The verdict of one of which rt says nothing stays."""
    other = write("tools/mutants/c/n.edit", MUTANT)
    assert mutate("rt: must-fail c/n.edit: refused, as it must be: `x-y`: why\n", copy) == 1
    assert sorted(file.name for file in copy.rglob("*.edit")) == ["m.edit", "n.edit"]
    assert other.read_text() == MUTANT.replace("goal", "x-y") and Path(PATH).read_text() == MUTANT


@pytest.mark.parametrize("given, jobs", [(None, "3"), ("1", "1")])
def test_one_is_tried_per_core_unless_told_otherwise(copy, monkeypatch, given, jobs):
    monkeypatch.delenv("RT_JOBS", raising=False)
    if given:
        monkeypatch.setenv("RT_JOBS", given)
    seen = []
    mutate("", copy, count_cores=lambda: 3, see=seen.append)
    assert [environment["RT_JOBS"] for environment in seen] == [jobs]


@pytest.mark.parametrize("verdict, tried", [("abc1200", ["m.edit"]), ("abc1234", [])])
def test_only_mutants_with_an_old_verdict_are_tried(copy, verdict, tried):
    """If there is none, rt is not run."""
    write(PATH, MUTANT.replace("abc1234", verdict))
    write("tools/mutants/c/n.edit", MUTANT)
    history = SimpleNamespace(has_history=lambda: True, list_history=lambda: (
        ["abc1234", "abc1200"], {"crates/c/src/lib.rt": 0}))
    said = "rt: must-fail c/m.edit: refused, as it must be: `x-y`: why\n" if tried else None
    assert mutate(said, "--old", copy, REPOSITORY=history) == 0
    assert [file.name for file in copy.rglob("*.edit")] == tried


@pytest.mark.parametrize("words, output", [
    (["folder", "c/gone"], "there is no mutant c/gone"),
    (["--check", "c/m"], "--check takes no folder or names, and no --old"),
    (["--check", "--old"], "--check takes no folder or names, and no --old"),
    ([], "a folder outside the repository is needed, for a copy"),
    (["in"], "a folder outside the repository is needed, for a copy"),
    (["../used"], "a folder outside the repository is needed, for a copy"),
    (["../new"], "trying mutants takes rt of a Rattle kit")])
def test_words_that_mutate_refuses(copy, capsys, monkeypatch, words, output):
    Path("../used/crates").mkdir(parents=True, exist_ok=True)
    monkeypatch.setenv("PATH", "")
    assert mutate("", *words) == 2
    assert capsys.readouterr().err.endswith(f"error: {output}\n")
