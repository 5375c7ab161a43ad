"""Tests of what tools/release checks, and of the contents that it writes."""
import fcntl
import json
import os
from pathlib import Path

import pytest
from lib.testing.support import TOOLS, Tool, run_here, write, write_program

CHECK = "tools/lib/releasing/check"
MANIFESTS, CHANGELOGS = (Tool("lib/releasing/check").parts[name]
                         for name in ("MANIFESTS", "CHANGELOGS"))
# a version in other files: that of the release, or of the C interface
NAMES_VERSION = {"crates/vtlog/src/main.rt": "1.2.3", "docs/vtlog.1": "1.2.3", "docs/C.md": "7",
                 "vectors/events.json": "1.2.3", "vectors/calls.json": "1.2.3"}
# what else of a release of version 1.2.3 names it, or the version of the C interface
RELEASE = {
    "rust/vte/Cargo.toml": 'version = "0.15.0+naqshuve.1.2.3"',
    "c/include/vte.h": "#define VTE_VERSION 7", "docs/C.md": "libvte_c = 7",
    "crates/vtlog/src/main.rt": r'"vtlog 1.2.3\n"', "docs/vtlog.1": '"Naqshuve 1.2.3"',
    "vectors/events.json": "of Naqshuve 1.2.3 for", "vectors/calls.json": "of Naqshuve 1.2.3 for",
    **{path: 'version = "1.2.3"' for path in MANIFESTS},
    "rust/vte/CHANGELOG.md": "## 1.2.3, unreleased\n## 1.2.2, 2026-01-01",
    "CHANGELOG.md": "## Versions\n| 1.2.3 | the crate\n| 0.15.0+naqshuve.1.2.3 | the same\n"
                    "`VTE_VERSION`, 7 |\n## 1.2.3, unreleased\n## 1.2.2, 2026-01-01"}


# a file, what stands in it instead of something, and what is reported
WRONG = {
    "none": ("CHANGELOG.md", "unreleased", "2026-01-02", None),
    **{file: (file, "1.2.3", "1.2.4", f"{file} has 1.2.4") for file in MANIFESTS},
    **{f"in the title of {file}":
       (file, "## 1.2.3", "## 1.2.4", f"{file} begins with 1.2.4, unreleased")
       for file in CHANGELOGS},
    **{f"the date in {file}": (file, "unreleased", "soon", f"{file} begins with 1.2.3, soon")
       for file in CHANGELOGS},
    **{f"named in {file}": (file, old, "1.2.4", f'{file} has no "{RELEASE[file]}"')
       for file, old in NAMES_VERSION.items()},
    "of the crate": (
        "CHANGELOG.md", "| 1.2.3", "| 1.2.4", 'CHANGELOG.md has no "| 1.2.3 | the crate"'),
    "of the crate for cargo": (
        "CHANGELOG.md", "+naqshuve", "",
        'CHANGELOG.md has no "| 0.15.0+naqshuve.1.2.3 | the same"'),
    "of the C interface": (
        "CHANGELOG.md", ", 7", ", 6", 'CHANGELOG.md has no "`VTE_VERSION`, 7 |"')}


@pytest.mark.parametrize("path, old, new, reported", WRONG.values(), ids=WRONG)
def test_a_wrong_version_is_reported(path, old, new, reported):
    for name, text in RELEASE.items():
        write(name, (text.replace(old, new) if name == path else text) + "\n")
    write(CHECK, (TOOLS.parent / CHECK).read_text(), 0o755)
    # with all versions right, the release would be made
    wanted = f"versions: {reported}" if reported else "release: it was not made"
    assert run_here("release", "--check", git="exit 1") == (1, [wanted, "1 faults"])


UNUSED = "use: a fresh machine could not use the release"
# what makes a release, what uses it on a fresh machine, and what is reported
RELEASES = {
    "right": ("", "", []),
    "not made": ("exit 1", "", ["release: it was not made"]),
    "not made twice": ("case $1 in *second) rm a; exit 1; esac", "", [
        "release: it was not made again", "release: the second differs from the first"]),
    "made by the machine's mask": (
        "umask >mask", "", ["release: the second differs from the first"]),
    "changed": ("echo b >a", "", ["release: a sum is wrong"]),
    "not used": ("", "exit 1", [UNUSED]),
    "used with its files": (
        "", '[ "$1 $2 $4 $5 $6" = "--with pkg-config ./try_release 1.2.3 7" ] && cd $3 && '
        '[ "$(echo $(git ls-files))" = "SHA256SUMS a program.c program.rs try_release" ]', [])}


@pytest.mark.parametrize("allowed", ["1", ""])
@pytest.mark.parametrize("make, use, reported", RELEASES.values(), ids=RELEASES)
def test_a_release_is_made_twice_and_used(folder, monkeypatch, make, use, reported, allowed):
    write_program("tools/release", "mkdir $1 && cd $1 && echo a >a && "
                  f"sha256sum a >SHA256SUMS; {make}")
    monkeypatch.setenv("FRESH_MACHINE", str(write_program("machine", use)) if use else "")
    monkeypatch.setattr(os, "geteuid", lambda: 0)
    monkeypatch.setenv("COMPILED_CRATES", "")
    monkeypatch.setenv("NAQSHUVE_ALLOW_MISSING", allowed)
    tool = Tool("lib/releasing/check", check_versions=lambda *_: [])
    for path in tool.parts["PROGRAMS"]:
        write(path, "")
    status, output = tool.run("0.15.0+naqshuve.1.2.3", "7", str(folder))
    missing = ["missing: root and $FRESH_MACHINE, so no fresh machine has used the release"]
    is_missing = not use and reported[:1] != ["release: it was not made"]
    reported = [*reported, *[UNUSED] * (is_missing and not allowed)]
    assert output.splitlines() == [*missing * is_missing, *reported, f"{len(reported)} faults"]
    assert status == (1 if reported else 0)


@pytest.mark.parametrize("is_locked", [False, True])
def test_what_a_killed_release_left_is_removed(folder, is_locked):
    """It is removed, but not while another release is being made."""
    for name, text in RELEASE.items():
        write(name, text + "\n")
    left = folder / "naqshuve-1.2.3"
    write(left / "left", "")
    lock = os.open(folder, os.O_RDONLY)
    if is_locked:
        fcntl.flock(lock, fcntl.LOCK_EX)
    # it ends where it would copy the commit
    status, _ = run_here(
        "release", "out/release", cargo="echo cargo 1.90.0",
        git=f"case $1 in log) echo 0;; *) ls {left} >found; exit 1; esac",
        edit=lambda text: text.replace("=/tmp/", f"={folder}/").replace("-w 1800", "-w 0"))
    os.close(lock)
    assert status > 0 and (left / "left").exists() == is_locked
    assert is_locked or Path("found").read_text() == ""


def test_contents_are_what_is_linked(monkeypatch):
    monkeypatch.setenv("SOURCE_DATE_EPOCH", "86400")
    # what only builds need isn't linked
    edges = {"ours": {"both": ["dev", None], "build": ["build"]}, "both": {"in_both": [None]},
             "build": {}, "in_both": {}}
    packages = [{"id": name, "name": name, "version": "1.0", "license": "MIT/X",
                 "source": name != "ours" or None} for name in edges]
    nodes = [{"id": name, "deps": [{"pkg": it, "dep_kinds": [{"kind": kind} for kind in kinds]}
                                   for it, kinds in its.items()]} for name, its in edges.items()]
    write("described", json.dumps({"packages": packages,
                                   "resolve": {"root": "ours", "nodes": nodes}}))
    for name in "a.crate", "b.deb", "c.whl":
        write(f"out/{name}", "")
    assert run_here("lib/releasing/contents", "out", "1.2.3", "manifest", cargo="cat described",
                    rustc="echo rustc 1.99.0; echo host: here") == (0, [])
    read = json.loads(Path("out/naqshuve-1.2.3.spdx.json").read_text())
    assert read["creationInfo"]["created"] == "1970-01-02T00:00:00Z"
    ours = "Apache-2.0 OR MIT"
    keys = "name", "versionInfo", "licenseDeclared", "packageFileName"
    assert [tuple(map(package.get, keys)) for package in read["packages"]] == [
        ("naqshuve-vte", "1.2.3", ours, None),
        ("rust-standard-library", "1.99.0", "MIT OR Apache-2.0", None),
        ("both", "1.0", "MIT OR X", None), ("in_both", "1.0", "MIT OR X", None),
        *((f"file-{at}", "1.2.3", ours, name)
          for at, name in enumerate(("a.crate", "b.deb", "c.whl")))]
    held = [relation["spdxElementId"][-1] + relation["relatedSpdxElement"][7:]
            for relation in read["relationships"]]
    assert held == ["0-naqshuve-vte", "1-naqshuve-vte", "1-rust-standard-library", "2-naqshuve-vte",
                    "2-rust-standard-library", "2-both", "2-in-both"]
