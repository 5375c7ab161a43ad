"""Tests of the gate, and of tools/install_packages, which it begins with."""
import re
from pathlib import Path

import pytest
from lib.testing.support import run_here, write, write_program

# what runs for apt-get, which has no package c, and for dpkg-query: $THERE are installed
APT_GET = ("for it; do case $it in update | install | [ab]) echo $it >>$ASKED;; "
           "c) echo none; exit 1;; esac; done")
DPKG_QUERY = 'case " $THERE " in *" $4 "*) echo install ok installed;; esac'
# wanted packages, those that are there, whether this is the gate, the status, and what was asked
# for and said
PACKAGES = {
    "all are there": ("a b", "a b", "1", 0, "$"), "outside the gate": ("a b", "a", "", 1, "$"),
    "in the gate": ("a b", "a", "1", 0, "update install b installing b$"),
    "one that isn't anywhere": ("c", "", "1", 1, "update install installing c none$")}


@pytest.mark.parametrize("names, there, is_gate, status, output", PACKAGES.values(), ids=PACKAGES)
def test_missing_packages_are_installed_in_the_gate(
        folder, monkeypatch, names, there, is_gate, status, output):
    asked = write("asked", "")
    for name, value in {"ASKED": str(asked), "THERE": there, "GATE": is_gate}.items():
        monkeypatch.setenv(name, value)
    found, lines = run_here("install_packages", *names.split(),
                            **{"apt-get": APT_GET, "dpkg-query": DPKG_QUERY})
    assert re.match(output, " ".join([*asked.read_text().split(), *lines]))
    assert found == status


@pytest.mark.parametrize("venv, status, asked", [(0, 7, "gate/main --strict\n"), (1, 1, "")])
def test_the_gate_tests_a_copy(folder, monkeypatch, venv, status, asked):
    write_program("tools/test", "echo ${PWD#*naqshuve/} $* >>$XDG_CACHE_HOME/asked; exit 7")
    write("asked", "")
    monkeypatch.setenv("XDG_CACHE_HOME", str(folder))
    found, _ = run_here("../.ci/run", git="echo git", python3=f"exit {venv}",
                        rsync='for it; do :; done; mkdir "$it" && cp -r tools "$it"',
                        edit=lambda text: text.replace("/usr/bin/python3", "python3"))
    assert (found, Path("asked").read_text()) == (status, asked)
