"""Tests of tools/streams, and of the words that tools in the shell take: next_release, release,
run_pytest, test_judge and test_python."""
import re
import shlex
import subprocess
from pathlib import Path

import pytest
from lib.generating.streams import generate
from lib.testing.support import TOOLS, run_here, write


def test_a_stream_is_written_as_generated():
    for name, size in ("cjk", 100), ("ascii", 7):
        written = subprocess.check_output([TOOLS / "streams", name, str(size)])
        assert written == generate(name, size) and len(written) == size


# what these find in the place of programs
PROGRAMS = {
    "cargo": "echo cargo 1.90.0", "git": "echo $1 >>$ASKED; [ $1 = log ] && echo 1",
    # there is no source of packages
    "apt-get": "for it; do [ $it != update ] || echo update >>$ASKED; done; exit 1",
    "python3": '[ "$1" != -c ] || case $2 in *xdist) exit $NO_XDIST;; '
               '*hypothesis) exit $NO_RANDOM;; *) exit 0;; esac; echo "$@"',
    "mypy": "echo ../tests/wrong_types.py:1: error: it"}
PYTHON = r"-m pip wheel .* test_python: tests \S+/package python3 -W error -m pytest .*collect "
# what test_python has and uses, besides those
OF_PYTHON = {"tools/next_release": "#!/bin/sh\necho export PYTHONPATH=\n",
             "tools/lib/building/cargo_product": "#!/bin/sh\n", "docs/PYTHON.md": "",
             "python/src/vte/__init__.py": "", "python/tests/wrong_types.py": "# wrong\n"}
HOMES, ALLOWED = r"export CARGO_HOME=\S+", {"NAQSHUVE_ALLOW_MISSING": "1"}


# a tool, its words and variables, its status, and what it asked for and said
RUNS = {
    "pytest side by side": ("run_pytest", "-n 4 a.py -k b", {"NO_XDIST": "0"}, 0,
                            ".*testing.missing -n 4 a.py -k b$"),
    "pytest one by one": ("run_pytest", "-n 4 a.py -k b", {"NO_XDIST": "1"}, 0,
                          ".*testing.missing a.py -k b$"),
    "words of the judge's tests": ("test_judge", "-k b", {}, 0,
                                   r"pytest -n \d+ \S+/tools/lib/judging/tests -k b$"),
    "Python": ("test_python", "--short", {"NO_RANDOM": "0"}, 0,
               f"(?!.*missing){PYTHON}.*test_python: types "),
    "Python without hypothesis": ("test_python", "--short", {"NO_RANDOM": "1"}, 1,
                                  f"{PYTHON}missing: hypothesis .*test_python: types "),
    "Python without hypothesis, allowed": (
        "test_python", "--short", {"NO_RANDOM": "1", **ALLOWED}, 0, ".* missing: hypothesis"),
    "no folder": ("next_release", "", {}, 2, "Puts crates "),
    # what was asked for before isn't fetched again
    "all is there": ("next_release", "'a folder'", {}, 0,
                     rf"{HOMES}/a\\ folder/cargo PYTHONPATH=\S+\\ folder/usr"),
    "a package is there": ("next_release", "'a folder' a", {}, 0, HOMES),
    "a package is fetched": ("next_release", "'a folder' a b", {}, 1, "update$"),
    "cargo has crates": ("next_release", "folder a b", {"HAS_CRATES": "yes"}, 0,
                         "export PYTHONPATH="),
    "an empty folder": ("next_release", "other", {}, 1, "update$"),
    "words of a fresh machine": ("lib/releasing/fresh_machine", "--with a b", {}, 2,
                                 "Runs a command on a fresh "),
    "no folder for a release": ("release", "", {}, 2, "Makes a release "),
    "no such word": ("release", "--chek", {}, 2, "Makes a release "),
    "two folders": ("release", "a b", {}, 2, "Makes a release "),
    # it asks for the files if the folder isn't there
    "a folder that is there": ("release", "there", {}, 1, "log$"),
    "a new folder": ("release", "new", {}, 2, "log archive$")}


@pytest.mark.parametrize("tool, words, variables, status, output", RUNS.values(), ids=RUNS)
def test_a_tool_obeys_its_words(folder, monkeypatch, tool, words, variables, status, output):
    needed = re.findall(r"(python3|librust)-\{(.*?)\}(-dev)?", (TOOLS / "next_release").read_text())
    had = [f"{begin}-{name}{end}" for begin, names, end in needed for name in names.split(",")]
    for path, text in {"tools/install_packages": "#!/bin/sh\n", "asked": "",
                        "tools/run_pytest": "#!/bin/sh\necho pytest $*\n", **OF_PYTHON,
                        "a folder/had": "\n".join(["a", *had]), "there/file": "",
                        "rust/vte/Cargo.toml": "", "c/include/vte.h": ""}.items():
        write(path, text, 0o755)
    none = dict.fromkeys(("NAQSHUVE_ALLOW_MISSING", "HAS_CRATES"), "")
    for name, value in {**none, "ASKED": f"{folder}/asked", **variables}.items():
        monkeypatch.setenv(name, value)
    found, lines = run_here(tool, *shlex.split(words), **PROGRAMS)
    found_words = " ".join([*Path("asked").read_text().split(), *lines])
    assert re.match(output, found_words)
    assert found == status
