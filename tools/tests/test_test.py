"""Tests of tools/test. Run as a program, this file is tools/test with the parts below."""
import os
import re
import subprocess
import sys

import pytest
from lib.testing import program
from lib.testing.program import Part
from lib.testing.support import TOOLS, Tool, write, write_program

FIRST = [Part("first", "bash", ["try first", "try again"]),
         Part("lacking", "bash no-such-command", ["try lacking"]),
         Part("far", "rust=1.0 no-such-program", ["try far"])]
# the counts of tests of the second part aren't added
LATER = [Part("second", "bash crates rust-1.2",
              ["try second 'missing: a thing: not tried'", "echo 7 passed, 7 failed"],
              optional="no-such-tool"),
         Part("proofs", "rt", ["rt ci"], is_shown=True, is_awaited=True, counts_tests=True)]
# a command of a part, which fails if its word is $FAILS, or if cargo finds no crates
TRY = """
echo "$1" >>asked
echo "said by $1"
echo "$2"
[ "$1" != "$FAILS" ] && cargo"""
PROGRAMS = {
    "bin/try": TRY,
    "bin/rt": "try proofs && echo 5 passed, 0 failed || ! echo 4 passed, 1 failed",
    # it finds crates only in packages of Debian's next release
    "bin/cargo": '[ "$CARGO_HOME" = next ]',
    "tools/next_release": '[ "$FAILS" != crates ] && echo export CARGO_HOME=next',
    "bin/rustc": "echo rustc 1.63.0"}
LACKING, FAR = "lacking: it needs no-such-command", "far: it needs rustc 1.0, no-such-program"
LEFT_OUT = "a thing: not tried"
ALL, UNTESTED = "first second proofs", [LEFT_OUT, FAR, LACKING]
WAITING = [f"{part}: it needs all parts before it to pass" for part in ("proofs", "second")]
# words for tools/test, the part that fails, those that run, what isn't tested, and the status
CASES = {
    "all": ("", "", ALL, UNTESTED, 0),
    "all, strictly": ("--strict", "", ALL, UNTESTED, 1),
    "first fails": ("", "first", "first", [FAR, LACKING, *WAITING], 1),
    "second fails": ("", "second", ALL, UNTESTED, 1),
    "proofs fail": ("", "proofs", ALL, UNTESTED, 1),
    "first": ("first", "", "first", [], 0),
    "first and proofs, strictly": ("--strict first proofs", "", "first proofs", [], 0),
    "second": ("second", "", "second", [LEFT_OUT], 0),
    "second, strictly": ("--strict second", "", "second", [LEFT_OUT], 1),
    "second without crates": (
        "second", "crates", "", ["second: it needs what cargo gets from a network"], 1),
    "first and lacking": ("first lacking", "", "first", [LACKING], 1),
    "far": ("far", "", "", [FAR], 1)}
PACKAGES = {LACKING: "no-such-command", LEFT_OUT: "no-such-tool"}


def run(folder, words, fails=""):
    """Returns the status and the lines of tools/test, what was tried, and its errors."""
    for path, text in PROGRAMS.items():
        write_program(path, text)
    write("tools/lib/shell.sh", (TOOLS / "lib/shell.sh").read_text())
    (folder / "temporary").mkdir()
    asked = write("asked", "")
    variables = {**os.environ, "PATH": f"{folder}/bin:{os.environ['PATH']}",
                 "TMPDIR": f"{folder}/temporary", "FAILS": fails}
    done = subprocess.run([sys.executable, "-m", "tests.test_test", *words.split()], env=variables,
                          capture_output=True, text=True)
    assert not any((folder / "temporary").iterdir())
    lines = [re.sub(r"^ *\d+ s ", "", line) for line in done.stdout.splitlines()]
    return done.returncode, lines, asked.read_text().split(), done.stderr


def list_sums(ran, fails, untested):
    """Returns the last lines: what isn't tested, and the counts."""
    lines = [f"    {line}" for line in untested]
    if untested:
        lines.insert(0, "not tested:")
    failed = 1 if fails in ran else 0
    passed = len(ran) - failed
    lines.append(f"{passed} passed, {failed} failed, {len(untested)} not tested")
    if packages := sorted(PACKAGES[line] for line in untested if line in PACKAGES):
        lines.append(f"apt install {' '.join(packages)}  # on Debian 12, to test more")
    # the tests that rt counts are added
    if fails == "proofs":
        lines.append(f"{passed + 4} passed, {failed + 1} failed")
    elif "proofs" in ran:
        lines.append(f"{passed + 5} passed, {failed} failed")
    return lines


@pytest.mark.parametrize("words, fails, ran, untested, status", CASES.values(), ids=CASES)
def test_what_is_run_and_listed(folder, words, fails, ran, untested, status):
    found, lines, tried, _ = run(folder, words, fails)
    ran = ran.split()
    # after a command that failed, the others of a part are run
    commands = [*ran, "again"] if "first" in ran else ran
    assert found == status and sorted(tried) == sorted(commands)
    sums = list_sums(ran, fails, untested)
    ended = [f" {'FAILED' if name == fails else 'passed'}  {name}" for name in ran]
    at = lines.index("tested:")
    assert sorted(lines[at + 1:-len(sums)]) == sorted(ended) and lines[-len(sums):] == sums
    for name in ran:
        assert f"test: {name} begins" in lines
        assert (f"said by {name}" in lines) == (name in (fails, "proofs"))


@pytest.mark.parametrize("words", ["unknown", "first unknown", "fir.t", "bash", "--unknown"])
def test_a_wrong_word_is_reported(folder, words):
    found, lines, tried, errors = run(folder, words)
    assert (found, lines, tried) == (2, [], [])
    assert re.search(rf"\ntest: error: .* {words.split()[-1]}\n$", errors)


def test_a_fault_in_looking_for_pip_is_shown(monkeypatch):
    for name in "signal.signal", "set_environment", "Machine.find_crates":
        monkeypatch.setattr(f"lib.testing.program.{name}", print)
    monkeypatch.setattr(program.Machine, "find_pip", lambda *_: 1 / 0)
    with pytest.raises(ZeroDivisionError):
        program.run_groups(([], [], []))


if __name__ == "__main__":
    sys.exit(Tool("test", FIRST=FIRST, LATER=LATER, LAST=[]).main())
