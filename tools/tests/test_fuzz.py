"""Tests of tools/fuzz."""
import re
from fnmatch import fnmatchcase
from pathlib import Path

import pytest
from lib.files import TOP
from lib.fuzzing import coverage, targets
from lib.testing.support import TOOLS, Tool, write, write_program

# what a target does at a difference, or always
@pytest.mark.parametrize("does, is_found", [
    ('[ -z "$DIFFERENCE" ] || ! echo shown', True), ('[ -z "$DIFFERENCE" ] || ! echo more', False),
    ("! echo shown", False), ("echo shown", False)])
def test_a_difference_is_found(does, is_found):
    program = write_program("program", f"{{ {does}; }} >&2")
    fuzz = Tool("fuzz", FOLDER=Path.cwd(), DIFFERENCES={"target": [("it", "shown", b"")]})
    assert fuzz.parts["finds_differences"]("target", program) == is_found


def test_a_file_that_is_gone_is_not_built(folder, monkeypatch):
    for path in "vte/fuzz/a", "vte/tests/a", "in/a", "to/gone":
        write(path, "")
    for name, value in {"FUZZ": folder / "vte/fuzz", "STAND_IN": folder / "in",
                        "DIFFERENT": folder / "to", "run_cargo": lambda *_: None}.items():
        monkeypatch.setattr(targets, name, value)
    targets.build_different("readings")
    assert {path.name for path in Path("to").iterdir()} == {"a", "fuzz", "tests"}


@pytest.mark.parametrize("target", targets.TARGETS)
def test_an_input_is_some_bytes_and_a_stream(target, folder, monkeypatch):
    streams = [b"stream", b"", b"another"]
    monkeypatch.setattr(targets, "FOLDER", folder)
    monkeypatch.setattr(targets, "list_streams", lambda: streams)
    inputs = [path.read_bytes() for path in targets.write_corpus(target).iterdir()]
    front = {"readings": 2, "beside_vte": 2, "c_library": 3}[target]
    assert sorted(data[front:] for data in inputs) == sorted(streams)


def test_lines_that_are_not_run_are_found(folder, monkeypatch):
    monkeypatch.setattr(coverage, "FUZZ", folder / "vte/fuzz")
    write("vte/src/proved/a.rs", "fn f() {\n    g();\n    h();\n}\nfn i() {\n    j();\n}\n")
    found = coverage.list_lines_not_run({"a.rs": {1, 2, 3, 4, 6}}, {"a.rs": {2}})
    assert [*found] == [("a.rs:3: h();", "a f: h();"), ("a.rs:6: j();", "a i: j();")]


# words, the targets and the seconds for each, which functions fail, and the status
@pytest.mark.parametrize("words, targets, seconds, failing, status", [
    ("", "readings beside_vte c_library", 5, "coverage", 0),
    ("--seconds 7", "readings beside_vte c_library", 7, "coverage", 0),
    ("c_library", "c_library", 5, "coverage", 0), ("gone", "", 0, "", 2),
    ("readings beside_vte", "readings beside_vte", 5, "coverage", 0),
    ("readings", "readings", 5, "finds", 1), ("readings", "readings", 5, "fuzz", 1),
    ("--coverage", "", 0, "fuzz finds", 0), ("--coverage", "", 0, "coverage", 1)])
def test_what_is_fuzzed(words, targets, seconds, failing, status):
    def make_fake(name):
        def print_words(*words):
            print(*words)
            return name not in failing
        return print_words

    fuzz = Tool("fuzz", find_missing=lambda: (), build=lambda *words: words,
                build_different=str, fuzz=make_fake("fuzz"), finds_differences=make_fake("finds"),
                check_coverage=lambda: "coverage" not in failing)
    wanted = [line for target in targets.split()
              for line in (f"{target} {(target, seconds)} {seconds}", f"{target} {target}")]
    found, output = fuzz.run(*words.split())
    assert (found, sorted(output.splitlines())) == (status, sorted(wanted))


def test_lines_that_are_not_run_are_there():
    listed = (TOOLS / "lib/fuzzing/unreached.txt").read_text()
    assert re.fullmatch(r"(#.*\n)+(\n\S.*:\n( {4}\S.*\n)+)+", listed)
    for path in coverage.UNREACHED:
        file, function, line = re.fullmatch(r"(\S+) (\w+): (.*)", path).groups()
        text = (TOP / "rust/vte" / coverage.PROVED / f"{file}.rs").read_text()
        bodies = "".join(re.findall(rf"\bfn {function}\b.*?(?=\bfn \w|\Z)", text, re.S))
        assert any(fnmatchcase(found.strip(), line) for found in bodies.splitlines()), path
