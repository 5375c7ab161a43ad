"""Tests that tools/check_lines refuses what it says."""
import subprocess
from pathlib import Path

import pytest
from lib.testing.support import Tool, write

# a file, how a line begins there that goes on with short words, and its longest form, or 0 for any
LINES = {
    "program": ("b/run", "#!/bin/sh", 100), "Python": ("x.py", "# a", 100),
    "Rattle": ("crates/x/src/lib.rt", "fn f", 100),
    "statement": ("crates/x/specs/A.antt", "a", 100), "proof": ("crates/x/proofs/A.antt", "a", 120),
    "import of Rust": ("rust/x/src/lib.rs", "use a", 100),
    "import": ("crates/x/src/lib.rt", "ghost use a", 0),
    "import of a proof": ("crates/x/proofs/A.antt", "unfoldable pub use a", 0),
    "tactic": ("crates/x/src/lib.rt", "    #[tactic(auto, u(a", 0),
    "long word": ("crates/x/specs/A.antt", "a " + "x" * 120, 0), "edit": ("e.edit", "", 0),
    "input": ("c/stdin", "", 0), "document": ("d.md", "", 0),
    "erased text": ("rust/x/src/proved/f.rs", "", 0)}


def find_faults(path, text):
    subprocess.run(["git", "init", "-q"], check=True)
    write(path, text)
    tool = Tool("check_lines")
    for name in "LONG_FILES", "LONG_FUNCTIONS", "SEVERAL_LOOPS":
        tool.parts[name] = {it for it in tool.parts[name] if it.startswith(path)}
    status, printed = tool.run()
    *found, _ = printed.splitlines()
    assert status == bool(found)
    return found


@pytest.mark.parametrize("path, begin, most", LINES.values(), ids=LINES)
def test_how_long_a_line_may_be(path, begin, most):
    line = (begin + " x" * 60)[:most or None]
    wanted = [f"{path}:2: a line of {most + 1} characters"] * bool(most)
    assert find_faults(path, f"{line}\n{line}y\n") == wanted


FUNCTION, BODY, ANY = "f: a function of 41 lines", "f: a function of 47 lines", ""
C = ("int g(void);\nstruct s {\n    int a;\n};\n"
     "int *f(int a,\n       int b) {\n    if (a) {\n    }\n", "    a;\n", "}\n", 35, FUNCTION)
LONG = "crates/vte_handler/src/by_call.rt"
# a file, its beginning, a line, its end, how many such lines it may have, and the fault of more
LENGTHS = {
    "file": ("x.antt", "", "a\n", "", 400, "a file of 401 lines"),
    "long file": (LONG, "", "a\n", "", 500, ANY),
    "erased file": ("rust/x/src/proved/f.rs", "", "a\n", "", 500, ANY),
    "data": ("vectors/x.json", "", "a\n", "", 500, ANY),
    "Python": ("x.py", "class A:\n    def f(self):\n", "        a\n", "a\n", 39, FUNCTION),
    "Rust": ("x.rs", "    fn g();\n    fn f(a: [u8; 2])\n    {\n", "        a;\n", "    }\n", 37,
             FUNCTION),
    "C": ("x.c", *C),
    "header of C": ("x.h", *C),
    "C++": ("x.cpp", *C),
    "method of C++": ("x.hpp", "class c : public d {\n    int g();\n    int f(int a) const {\n",
                      "        a;\n", "    }\n};\n", 38, FUNCTION),
    "Rattle, with a contract": (
        "x.rt", "fn g();\nfn f(\n)\n    ensures {\n        b\n    }\n{\n", "    a;\n", "}\n", 44,
        BODY),
    "Rattle": ("x.rt", "fn f(\n    b: B,\n) -> [u8; 2] {\n", "    a;\n", "}\n", 44, BODY)}


@pytest.mark.parametrize("path, begin, line, end, most, wanted", LENGTHS.values(), ids=LENGTHS)
def test_how_long_files_and_functions_may_be(path, begin, line, end, most, wanted):
    assert find_faults(path, begin + most * line + end) == []
    longer = begin + (most + 1) * line + end
    assert find_faults(path, longer) == [f"{path}: {wanted}"] * bool(wanted)


def test_a_file_that_may_be_long_is_long():
    assert find_faults(LONG, "a\n" * 400) == [
        f"{LONG}: it needn't be in a list of tools/check_lines"]


LOOP = "    let a = for b in c {\n        d;\n    };\n"
TWO = LOOP + "    // for e\n    match e {\n        f => while g\n        {\n        }\n    }\n"


@pytest.mark.parametrize("path, name, body, is_refused", [
    ("crates/vte/src/a.rt", "f", LOOP, False), ("crates/vte/src/a.rt", "f", TWO, True),
    ("crates/vte_tests/src/a.rt", "f", TWO, False),
    ("crates/vte_core/src/parser/text.rt", "read_until_stop", TWO, False)])
def test_how_many_loops_a_function_may_have(path, name, body, is_refused):
    wanted = [f"{path}: {name}: a function of 2 loops"] * is_refused
    assert find_faults(path, f"fn {name}() {{\n{body}}}\n\nfn g() {{\n{LOOP}}}\n") == wanted


# two imports, and whether they are sorted
@pytest.mark.parametrize("above, below, is_sorted", [
    ("use Rattle.std.b.{x}", "use Rattle.a.b.{x}", True),
    ("use Rattle.a.b.{x}", "use Rattle.std.b.{x}", False),
    ("use Rattle.a.b.{x}", "use Rattle.a.C.{x}", True),
    ("use Rattle.a.C.{x}", "use Rattle.a.b.{x}", False),
    ("use Rattle.a.b.{x}", "use Rattle.a_b.{x}", True),
    ("use Rattle.a.{x}", "use Rattle.a as b", True),
    ("use Rattle.a.{x}", "use Rattle.a.{y}", False), ("use Rattle.a", "use Rattle.a", False),
    ("pub use Rattle.a.{y}", "unfoldable pub use Rattle.a.{x}", True),
    ("unfoldable pub use Rattle.a.{x}", "pub use Rattle.a.{y}", False),
    ("use Rattle.b.{x}", "\nuse Rattle.a.{x}", True)])
def test_which_imports_are_sorted(above, below, is_sorted):
    fault = [":2: an import that belongs above the one before, or into it"] * (not is_sorted)
    ghosts = [line.replace("use", "ghost use") + ";" for line in (above, below)]
    for path, lines in ("a.antt", [above, below]), ("b.rt", ghosts):
        assert find_faults(path, "\n".join(lines)) == [path + line for line in fault]
        Path(path).unlink()


@pytest.mark.parametrize("names, is_sorted", [
    ("Bool, false, List, ℕ, [], ◌≡◌", True), ("a_b, aB, B", True), ("B, a", False),
    ("[], ℕ", False), ("ℕ, a", False), ("◌≡◌, []", False)])
def test_which_names_are_sorted(names, is_sorted):
    wanted = ["a.antt:1: an import whose names aren't sorted"] * (not is_sorted)
    assert find_faults("a.antt", f"use Rattle.a.{{{names}}}\n") == wanted
