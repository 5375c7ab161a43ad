"""Tests of tools/check_builds."""
import re

import pytest
from lib.testing.support import run_here, write, write_program

MISSING = "missing: gcc-multilib.*32 bits were not tested"
# words, a package that is missing, whether that is allowed, the status, and what is said
RUNS = {
    "memory": ("memory", "none", "", 0,
               "test --manifest-path .*--tests .* valgrind .*--error-exit"),
    "memory without valgrind": ("memory", "valgrind", "", 1, "missing: valgrind"),
    "widths without gcc-multilib": ("widths", "gcc-multilib", "", 1, MISSING),
    "widths without it, allowed": ("widths", "gcc-multilib", "1", 0, MISSING),
    "help": ("--help", "none", "", 0, "Checks builds "),
    "no mode": ("", "none", "", 2, "Checks builds ")}


@pytest.mark.parametrize("words, lacking, allowed, status, output", RUNS.values(), ids=RUNS)
def test_a_mode_runs_or_says_what_is_missing(
        monkeypatch, words, lacking, allowed, status, output):
    monkeypatch.setenv("NAQSHUVE_ALLOW_MISSING", allowed)
    write_program("tools/install_packages", f"[ $1 != {lacking} ]")
    found, lines = run_here("check_builds", *words.split(),
                            cargo='echo "$@" $CARGO_TARGET_X86_64_UNKNOWN_LINUX_GNU_RUNNER')
    assert re.match(output, " ".join(lines))
    assert found == status


# functions that may panic, one for each line that says why
PANICKING = ["<vte::Machine>::drive_loop", "vte::Store<8>::dispatch", "vte::change_modes",
             "vte::dispatch_control_sequence", "vte::Engine<P>::stop"]


def check_panics(*functions):
    """The status, and what is said of programs in which these functions call a panic."""
    write("shown", "0001 <vte::quiet>:\n 2:\tcall 3 <core::slice::len>\n" + "".join(
        f"0000 <{name}::h0123456789abcdef>:\n 1:\tcall 2 <core::panicking::panic>\n"
        for name in functions))
    return run_here("check_builds", "panics", cargo="", objdump="cat shown")


# a function that calls a panic, and whether it is known
@pytest.mark.parametrize("function, is_known", [
    ("vte::scan::find_escape", True), ("vte::any::drive_on", False),
    ("vte::Store::dispatch_all", False), ("<vte::ParamsIter as Iterator>::next", True),
    ("vte::Params::next", False), ("vte::Engine<P>::stops", False), ("other::f", True)])
def test_only_known_functions_may_panic(function, is_known):
    status, lines = check_panics(*PANICKING, function)
    assert (status, lines.count(function)) == ((0, 0) if is_known else (1, 3))


@pytest.mark.parametrize("left", [PANICKING[:at] + PANICKING[at + 1:] for at in range(5)] + [[]])
def test_each_known_function_calls_a_panic(left):
    status, lines = check_panics(*left)
    assert status == 1 and len(lines) == (4 if left else 11)


def test_libraries_are_unpacked_whole_or_not_at_all(folder, monkeypatch):
    """They are kept for a version of rustc, unless one can't be unpacked."""
    monkeypatch.setenv("XDG_CACHE_HOME", str(folder))
    monkeypatch.setenv("NAQSHUVE_ALLOW_MISSING", "")
    write_program("tools/install_packages", "")
    for rust, fails, wanted in (1, "*b.deb", 1), (1, "c", 0), (1, "*", 0), (2, "*", 1):
        status, _ = run_here(
            "check_builds", "widths", rustc=f"echo rustc {rust}",
            cargo="case $RUSTFLAGS in *_width*) ! echo needs addresses of at least 32 bits;; esac",
            dpkg=f"mkdir -p $3/usr; case $2 in {fails}) exit 1; esac",
            edit=lambda text: text.replace("/usr/bin:", "").replace("/usr/bin/rustc", "rustc"),
            **{"apt-get": "touch a.deb b.deb"})
        assert status == wanted
