"""Tests that tools/check_docs refuses what it says."""
import shutil
import subprocess
from pathlib import Path
from types import SimpleNamespace

import pytest
from lib.documents import Page, Repository, subjects
from lib.testing.support import Tool, write


def make_repository(**known):
    """Returns what is known of a repository other than what this folder has."""
    repository = Repository(Path.cwd())
    vars(repository).update(known)
    return repository


def make_tool(**known):
    return Tool("check_docs", REPOSITORY=make_repository(**known))


def find_failures(text, run=True, name="page.md"):
    files = "a/src/known.rt", *(f"crates/{folder}/specs/Two.antt"
                                for folder in ("a", "examples", "a/b"))
    tool = make_tool(paths=list(map(Path, files)), words={"one", "two", "three", "rt"},
                     words_by_file=[{"one", "two", "rt"}, {"three"}], lemmas={"one-two"},
                     source_lines={"f();", "g(1);"}, sources={Path("a.rt"): "f();\n h"},
                     is_in_history=lambda commit: commit == "abc1234")
    if not name.endswith(".md"):
        return [it for _, it in tool.parts["check_comments"](text, name.endswith(".antt"))]
    page = Page(write(name, text))
    return [it for _, it in tool.parts["check_page"](page, run)]


# pages with nothing wrong
RIGHT = {
    "links to a page, a heading and elsewhere":
        "[a](page.md) [b](#some-heading) [c](https://example.org/x)\n## Some *heading*",
    "headings of signs, blanks and code":
        "[a](#an-osc-and-more) [b](#c1)\n# An OSC, and more\n### `C1`",
    "paths, and what is built": "`src/known.rt`, `./a/src/known`, `src/*.rt`, `out/gone.rt`",
    "paths that aren't of the repository": "`a/target/gone`, `src/NAME.rt`, `/gone/file`",
    "files": "`known.rt`, `*.rt`, `one.two`",
    "names, bytes and another project's": "`one`, `one::two()`, `three!`, `ansi2txt`, `1b5d`",
    "a diff": "```diff\n+++ a.rt\n-f();\n+g();\n  h\n```",
    "a quote": "```rust\nf();\n    g(1); // why\n// known.rt\n// ..\n```",
    "blocks that are no quotes": "```rust sketch\nh();\n```\n```sh\nh\n```",
    "a commit": "Since abc1234.",
    "commands, and some that aren't run": "```sh run\ntrue\n```\n```sh\nfalse\n```",
    "commands run in the top": "```sh run\ntest -e page.md\n```"}
# pages, and what is wrong with them
WRONG = {
    "a link to no page": ("[a](gone.md)", "broken link: gone.md"),
    "a name of no page": ("See docs/GONE.md.", "no such page: docs/GONE.md"),
    "no heading of a page": ("[a](page.md#no-heading)", "no such heading: page.md#no-heading"),
    "no heading here": ("[a](#no-heading)", "no such heading: #no-heading"),
    "a heading in capitals": ("[a](#An-OSC)\n## An OSC", "no such heading: #An-OSC"),
    "no path": ("`src/gone.rt`", "no such file or folder: src/gone.rt"),
    "no file": ("`one.rt`", "no such file or folder: one.rt"),
    "no name": ("`four`", "no source file contains four"),
    "a part that is no name": ("`one::four`", "no source file contains four of one::four"),
    "parts of two files": ("`one.three`", "no source file contains all parts of one.three"),
    **{f"no quote of {name}": (f"```{name}\nh();\n```", "no source file contains this line: h();")
       for name in ("rust", "c", "python", "antt")},
    "a diff without a file": ("```diff\n-f();\n```", "this diff names no source file"),
    "a diff of no file": ("```diff\n+++ b.rt\n```", "this diff names no source file"),
    "a diff that takes no line": (
        "```diff\n+++ a.rt\n-g();\n```", "a.rt doesn't contain this line: g();"),
    "a diff beside no line": ("```diff\n+++ a.rt\n h\n```", "a.rt doesn't contain this line: h"),
    "no commit": ("Since abc1235.", "the history has no commit abc1235"),
    "the first command fails": (
        "```sh run kit\nfalse\ntrue\n```", "these commands failed with status 1"),
    "the status of a command": (
        "```sh run\nexit 7\n```", "these commands failed with status 7"),
    "a variable that isn't set": (
        "```sh run\nexec 2>&-\necho $NO_SUCH_NAME\ntrue\n```",
        "these commands failed with status")}


@pytest.fixture
def kit(monkeypatch):
    """All programs are there, so commands that need the kit are run."""
    monkeypatch.setattr(shutil, "which", lambda _: "/bin/rt")


@pytest.mark.parametrize("page", RIGHT.values(), ids=RIGHT)
def test_a_page_with_nothing_wrong_has_no_failure(kit, page):
    assert find_failures(page) == []


@pytest.mark.parametrize("page, failure", WRONG.values(), ids=WRONG)
def test_what_is_wrong_with_a_page_is_reported(kit, page, failure):
    [found] = find_failures(page)
    assert found.startswith(failure)
    # only with --run
    is_command = "commands failed" in failure
    assert find_failures(page, run=False) == [found] * (not is_command)


def test_comments_of_sources_are_checked():
    source = "-- `four`\nf();  // `four`\n/// `one` `four`\n# `four`\nf(`four`) --four\n"
    assert find_failures(source, name="a.rt") == ["no source file contains four"] * 4


@pytest.mark.parametrize("path, is_checked", [
    ("crates/a/specs/B.antt", True), ("crates/a/specs/private/b/C.antt", True),
    ("crates/a/proofs/lemmas/b/C.antt", True), ("crates/a/proofs/b/Answers.antt", False),
    ("crates/a/specs/BExamples.antt", False), ("b/crates/a/specs/B.antt", False)])
def test_a_comment_stands_above_each_definition(path, is_checked):
    subprocess.run(["git", "init", "-q"], check=True)
    write(path, "-- A.\nabbrev a : A\nabbrev pub b : B\n\nrecord C : Type 0 where\n  -- D.\n"
                "  pub data D : Type 0 where\n\n  abbrev pub record E : Type 0 where\n-- F.\n\n"
                "pub data F : Type 0 where\n\npub g : G\ng =\n  record { h = i }\nj =\n"
                "  record k { h = i }\ndata-l : L\n-- ---- m\nabbrev n : N\n")
    lines = [3, 5, 9, 12, 21] if is_checked else []
    assert make_tool().run() == (bool(lines), "".join(
        f"{path}:{line}: this definition has no comment above it\n" for line in lines)
        + f"0 pages, {len(lines)} failures\n")


# the name of a file, its text, and the lemmas that it names and no proof declares
@pytest.mark.parametrize("name, text, wanted", [
    ("a.antt", "-- `one-two`, `one-X`, two-one, `two-one`\n`two-two`", "two-one"),
    ("a.rt", "// `two-one`", ""), ("page.md", "`two-one`\n```\ntwo-two\n```", ""),
    ("PROOFS.md", "`one-two`, `push-2`, `else-IN_RUNS`, two-one\n```sh\ntwo-two\n```", ""),
    ("PROOFS.md", "`two-one`\n```\none: one-two, (by two-two)\n```", "two-one two-two")])
def test_lemmas_are_declared(name, text, wanted):
    failures = [f"no proof declares {lemma}" for lemma in wanted.split()]
    assert find_failures(text, name=name) == failures


def test_proofs_declare_lemmas():
    texts = {"crates/a/proofs/B/C.antt": "pub a-b : ℕ\na-c :\n  pub d : ℕ\na-b = 0\n-- e: f",
             "crates/a/specs/B.antt": "g : ℕ", "proofs/B.antt": "h : ℕ"}
    repository = Repository(Path.cwd())
    repository.sources = {Path(path): text for path, text in texts.items()}
    assert repository.lemmas == {"a-b", "a-c", "d"}


def test_each_module_is_named():
    wanted = ["this module has no name here: crates/a/specs/Two.antt"]
    assert find_failures("`one`", name="REVIEWING.md") == wanted
    assert find_failures("# `Two`", name="REVIEWING.md") == ["no source file contains Two"]


# a section about the crates a and b, and the names that are no parts of them
PARTS = {
    "modules": ("- `one`, `one/two`: `gone`\n\nBy `gone` (`four`), `gone`.", ""),
    "a module of an entry": ("- `one`, `gone`: ..", "gone"),
    "a path": ("- `two/one`: ..", "two/one"),
    "the end of a path": ("- `one/two`, `three`: .. (`two`)", ""),
    "of another crate": ("- `five`: ..", "five"),
    "in parentheses": ("The performer `Events` (`gone`) writes, and `Four` (`four`).", "gone"),
    "functions in parentheses": ("*Hold* (`hold` of `one`, as `keep` says) (`Capital`)", "keep"),
    "a function is no module": ("- `hold`: ..", "hold"),
    "an entry of a crate": ("- `a`: `one` (with\n  `one/two`), `gone`\n- other: `gone`", "gone")}


@pytest.mark.parametrize("text, wanted", PARTS.values(), ids=PARTS)
def test_parts_of_crates_are_there(text, wanted):
    files = {"crates/a/src/one.rt": "fn hold() {}", "crates/a/src/one/two.rt": "",
             "crates/a/src/one/three.rt": "", "crates/b/src/four.rt": "",
             "crates/c/src/five.rt": "", "crates/a/specs/gone.antt": "",
             "rust/a/src/gone.rs": "fn keep() {}"}
    repository = make_repository(sources={Path(path): text for path, text in files.items()})
    page = f"# Parts\n(`gone`)\n## Crates\n- `a`: `gone`\n## `a` and `b`\n{text}\n## Rust\n(`gone`)"
    wanted = [f"no such part of a, b: {name}" for name in wanted.split()]
    assert list(subjects.check_parts(page, repository)) == wanted


def test_each_call_is_named_and_has_an_example():
    write(subjects.EXAMPLES, "Bell")
    write(subjects.TRAIT, "".join(f"    fn {call}(&mut self)\n" for call in (
        "bell", "newline", "put_tab")) + "pub trait HandlerText")
    found = subjects.check_calls("`bell`, put_tab, `put_tabs`", make_repository())
    assert list(found) == [
        "this call has no name here: put_tab",
        "crates/vte/specs/CallExamples.antt doesn't have PutTab"]


# a text, and the names that nothing declares or whose definition the section doesn't name
CLAUSES = {
    "of a function": ("`C::f` (`one`, clause\n`two`) and `gone`", ""),
    "of a module, a record and a path": ("(`B`, `c`, `s` of `d`) (`x/y.z`)", ""),
    "not declared": ("(`one`, `gone`) `f`", "gone"),
    "in a comment, and in a clause": ("`f` (`three`, as\n`four`)", "three four"),
    "one part of a path": ("(`five::B`)", "five"),
    "of a test": ("(`six`)", "six"),
    "of a proof": ("(`seven`)", "seven"),
    "of another definition": ("(`one`) `B`", "one"),
    "of another section": ("`B`\n## `f`\n(`c`)", "c"),
    "of a module of the section": ("`B`\n## `A`\n(`c`)\n# C\n`specs/A`, (`c`)", ""),
    "of what follows an abbreviation": ("(`e`) `d`", "e"),
    "of what holds it": ("(`e`) `B`, `C` and `specs`", "e")}


@pytest.mark.parametrize("text, wanted", CLAUSES.values(), ids=CLAUSES)
def test_clauses_are_declared(text, wanted):
    files = {"crates/C/src/s.rt": "pub const fn f()\n    requires one {\n    ensures* two { four }",
             "crates/C/specs/A.antt": "pub record B : Type 0 where\n  -- pub three\n  pub c : ℕ\n"
                                      "abbrev pub d : ℕ\nrecord E : Type 0 where\n  pub e : ℕ\n",
             "rust/C/src/r.rs": "/// A type five.\nfn g() {}", "rust/C/tests/t.rs": "fn six() {}",
             "crates/C/proofs/P.antt": "pub seven : ℕ"}
    texts = {Path(path): text for path, text in files.items()}
    found = list(subjects.check_clauses(text, make_repository(sources=texts, paths=list(texts))))
    assert found == [f"no module, definition, or clause of what the section names: {word}"
                     for word in wanted.split()]


# a page, and what is wrong with it. `Two` of b imports both `One`
LISTS = {
    "in order": (
        "- `One` of `crates/a/specs`: ..\n- `One`,\n  `Two` of `crates/b/specs`, not `no`", ""),
    "in order, below crates": (
        "Those of `crates/a/specs`:\n\n- `One`: ..\n\n`crates/b/specs`\n\n- `One`\n- `Two`", ""),
    "first": ("- `Two` of `crates/b/specs`\n- `One`\n- `One` of `crates/a/specs`",
              "Two imports One of a, Two imports One of b"),
    "first in an entry": ("- `Two`, `One` of `crates/b/specs`: ..",
                          "Two imports One of a, Two imports One of b"),
    "of another crate": ("- `One`, `Two` of `crates/a/specs`", "no such module of a: Two"),
    "of no crate": ("- `One`: ..", "no such module of : One"),
    "not an entry": ("`Three` is none, as\n- `Three.x` and `one`", "")}


@pytest.mark.parametrize("page, wanted", LISTS.values(), ids=LISTS)
def test_modules_are_listed_after_those_that_they_import(page, wanted):
    files = {"crates/a/specs/One.antt": "use Rattle.std.specs.List.{map}",
             "crates/b/specs/One.antt": "use Rattle.b.specs.private.One",
             "crates/b/specs/Two.antt": "use Rattle.b.specs.One.{f}\nuse Rattle.a.specs.One as a\n"
                                        "use Rattle.b.specs.Two.{g}",
             "crates/b/specs/private/One.antt": "", "crates/b/specs/private.antt": ""}
    for path, text in files.items():
        write(path, text)
    repository = make_repository(paths=list(map(Path, files)))
    found = subjects.check_modules(page + "\n`One`, `Two`", repository)
    lines = [line.partition(", which")[0] for line in found]
    assert lines == list(filter(None, wanted.split(", ")))


@pytest.mark.parametrize("needs, crates, lacking", [
    ("kit", "", "kit"), ("crates", "no", "crates"), ("here crates", "yes", ""),
    ("here kit gone", "", "kit, gone"), ("python3-json here", "", ""),
    ("python3-json python3-no_module", "", "python3-no_module"), ("here /tmp /gone", "", "/gone")])
def test_commands_that_lack_something_are_missing(needs, crates, lacking, monkeypatch, capsys):
    monkeypatch.setattr(shutil, "which", {"here": "/bin/here"}.get)
    monkeypatch.setenv("HAS_CRATES", crates)
    found = find_failures(f"```sh run {needs}\nfalse\n```")
    assert found == ([] if lacking else ["these commands failed with status 1"])
    reported = f"missing: commands of page.md:2 need {lacking}\n" * bool(lacking)
    assert capsys.readouterr().out == reported


@pytest.mark.parametrize("status, output, wanted", [
    (0, "false\n", True), (1, "false\n", False), (1, "true\n", True), (128, "", True)])
def test_a_commit_is_looked_up_in_a_full_clone(status, output, wanted):
    """Without git's folder, git has no output and its status is 128."""
    repository = Repository(Path.cwd())
    repository.run_git = lambda *_: SimpleNamespace(returncode=status, stdout=output)
    assert repository.is_in_history("abc1234") == wanted


# words, the pages that have a fault, and what is reported: whether commands are run
@pytest.mark.parametrize("words, faulty, status, reported", [
    ("", "", 0, ["3 pages, 0 failures"]), ("docs/B.md", "", 2, []), ("/etc/passwd", "", 2, []),
    ("", "A.md", 1, ["docs/A.md:5: False", "3 pages, 1 failures"]),
    ("docs/A.md", "A.md README.md", 1, ["docs/A.md:5: False", "1 pages, 1 failures"]),
    ("--run", "A.md README.md", 1, ["README.md:5: True", "docs/A.md:5: True",
                                    "tools/README.md:5: True", "3 pages, 3 failures"])])
def test_which_pages_are_checked(words, faulty, status, reported):
    subprocess.run(["git", "init", "-q"], check=True)
    write(".gitignore", "out/\n")
    for path in "README.md", "docs/A.md", "tools/README.md", "out/README.md", "a.py":
        write(path, "")
    tool = make_tool()
    tool.parts["check_page"] = lambda page, run: [(5, run)] * (page.path.name in faulty)
    assert tool.run(*words.split()) == (status, "".join(f"{line}\n" for line in reported))


def test_documents_are_no_sources():
    write("b.py", "one")
    repository = Repository(Path.cwd())
    repository.paths = map(Path, ("docs/a.py", "b.py", "c.md"))
    assert repository.sources == {Path("b.py"): "one"}
