"""Tests of bench/count and bench/run, and of lib/building, which builds what they run."""
import os
import re
from concurrent.futures import ThreadPoolExecutor
from types import SimpleNamespace

import pytest
from lib.building import builder
from lib.testing.support import Tool, write

# ---- the table of bench/count

LIMITS = """# Instructions
ours_release: {0}
ours_best: {0}
rattle: kit
kind stream call ours_release ours_best rattle
parser ascii 4096 {1} 4.000 -
vte_feed ascii 64 - 1.000 -
"""
OLD = ["missing: old: the ours_release and ours_best builds were not counted"]


@pytest.fixture
def count(monkeypatch):
    """What bench/count says to a table, or writes, if each count is 4 or 1."""
    def check_counts(*words, kit="kit", allowed="1", rustc="new", cell="4.000"):
        path = write("instructions.txt", LIMITS.format(rustc, cell))
        monkeypatch.setenv("NAQSHUVE_ALLOW_MISSING", allowed)
        tool = Tool("../bench/count", count_cells=lambda _, __, asked: {
            (row, column): {"parser": 4.0, "vte_feed": 1.0}[row[0]] for row, column in asked})
        monkeypatch.setattr(tool.parts["limits"], "TABLE", path)
        monkeypatch.setattr(tool.parts["limits"], "find_conditions",
                            lambda: {"ours_release": "new", "ours_best": "new", "rattle": kit})
        status, output = tool.run("limits", *words)
        return status, output.splitlines(), path.read_text()
    return check_counts


ROW = "parser `ascii` in calls of 4,096 B, ours_release: 4.000"
# a table's cell for a count of 4, or its compiler; the status, the faults, how many are counted
TABLES = {
    "not counted": ({"cell": "-"}, 0, [], 2),
    "the same": ({"cell": "4.000"}, 0, [], 3),
    "1 percent below": ({"cell": "3.961"}, 0, [], 3),
    "1 percent above": ({"cell": "4.039"}, 0, [], 3),
    "a limit that rounds to the count": ({"cell": "3.960"}, 1, [f"{ROW}, above 4.000"], 3),
    "too low": ({"cell": "3.900"}, 1, [f"{ROW}, above 3.939"], 3),
    "too high": ({"cell": "4.100"}, 0, [f"{ROW}, below 4.100"], 3),
    "none": ({"cell": "?"}, 1, [f"{ROW}, and the table has none"], 3),
    "of another compiler": ({"cell": "3.000", "rustc": "old"}, 0, OLD, 0),
    "of another compiler in the gate": ({"rustc": "old", "allowed": ""}, 1, OLD, 0)}


@pytest.mark.parametrize("table, status, faults, counts", TABLES.values(), ids=TABLES)
def test_a_count_above_its_limit_is_a_fault(count, table, status, faults, counts):
    last = f"{counts} counts, {status * (counts > 0)} above their limits"
    assert count("--check", **table)[:2] == (status, [*faults, last])


@pytest.mark.parametrize("allowed, wanted", [("1", 0), ("", 1)])
def test_limits_are_written(count, allowed, wanted):
    """A column that is missing is kept, and is a fault unless that is allowed."""
    status, output, text = count(rustc="old", cell="?", kit="", allowed=allowed)
    assert (status, output[1:]) == (wanted, ["3 counts are written"])
    found, wanted = ([line.split() for line in page.splitlines()[1:]]
                     for page in (text, LIMITS.format("new", "4.000")))
    assert found == wanted


# ---- the options of both: what they change, alone

STRIP = {"placements": 1, "cores": [], "kind": "strip", "bytes": 500_000, "rounds": 11,
         "streams": "ascii prose cjk cyrillic emoji ls_color coloured latin1 random".split()}


@pytest.mark.parametrize("words, changes", [
    ("strip", {}), ("strip --streams cjk emoji", {"streams": ["cjk", "emoji"]}),
    ("strip --bytes 99", {"bytes": 99}), ("strip --rounds 3", {"rounds": 3}),
    ("strip --placements 2", {"placements": 2}), ("strip --core 1", {"cores": [{1}]}),
    ("calls", {"kind": "calls", "streams": ["ascii", "ls_color", "coloured"] * 3})])
def test_each_option_of_run_changes_one_thing(monkeypatch, words, changes):
    run, rows, sizes = Tool("../bench/run", describe_run=lambda *_: []), [], []
    found = {"cores": []}
    measuring, figures = run.parts["measuring"], run.parts["figures"]

    def make_programs(folder, placements):
        found["placements"] = placements
        return SimpleNamespace(build=lambda _: None,
                               build_commands=lambda _: {"ours_best": [["ours"]]},
                               write_stream=lambda _, size: sizes.append(size))

    monkeypatch.setattr(measuring, "Programs", make_programs)
    monkeypatch.setattr(measuring, "compare_checksums", lambda *_: None)
    monkeypatch.setattr(measuring, "make_timer", lambda *_: lambda: 1)
    monkeypatch.setattr(figures, "show_row", rows.append)
    monkeypatch.setattr(figures, "tabulate", lambda _: [])
    monkeypatch.setattr(os, "sched_setaffinity", lambda _, cores: found["cores"].append(cores))
    run.run(*words.split())
    # before a stream is read by all sides, their checksums of a shorter one are compared
    found.update(bytes=sizes[-1], kind=rows[0]["kind"], streams=[row["stream"] for row in rows],
                 rounds=len(rows[0]["nanoseconds"]["ours_best"]))
    assert found == {**STRIP, **changes}


@pytest.mark.parametrize("words, kinds, changes", [
    ("strip", "strip filter", {}), ("strip --bytes 99", "strip filter", {"bytes": 99}),
    ("screens", "screen terminal", {}), ("screens --jobs 3", "screen terminal", {"jobs": 3}),
    ("strip --streams cjk emoji", "strip filter", {"streams": ["cjk", "emoji"]}),
    ("calls", "vte_feed", {"streams": ["ascii", "ls_color", "coloured"] * 3})])
def test_each_option_of_count_changes_one_thing(monkeypatch, words, kinds, changes):
    asked, jobs = [], []

    def make_pool(count):
        jobs.append(count)
        return ThreadPoolExecutor(count)

    def write_stream(name, size):
        asked.append((name, size))
        return SimpleNamespace(name=name, size=size)

    count = Tool("../bench/count", count_pass=lambda words, _, path: (path.size, "left"),
                 ThreadPoolExecutor=make_pool, copy_libc=lambda folder: None)
    monkeypatch.setattr(count.parts["measuring"], "Programs", lambda folder: SimpleNamespace(
        folder=folder, build_peers=lambda side: [side], proved_program="proved",
        write_stream=write_stream, build_commands=lambda _: {"vte_feed": [["in C"]]}))
    _, output = count.run(*words.split())
    wanted = {"streams": STRIP["streams"], "bytes": 200_000, "jobs": os.cpu_count(), **changes}
    streams = wanted["streams"] * len(kinds.split())
    names, sizes = zip(*asked)
    assert (sorted(names), {*sizes}) == (sorted(streams), {wanted["bytes"]})
    assert jobs == [wanted["jobs"]]
    assert re.findall(r"^\| `(\w+)` .* 1\.00 \|$", output, re.M) == streams
    assert re.findall(r"^\| (?:stream \| call \| )?(\w+) \|", output, re.M) == kinds.split()


# ---- lib/building

@pytest.mark.parametrize("newest, is_built", [
    ("benchmark/out/benchmark", False), ("vte/src/lib.rt", True), ("vte/specs/a/B.antt", True),
    ("vte/proofs/C.antt", True), ("../crates.txt", True)])
def test_a_proved_program_is_built_unless_it_is_newer(folder, monkeypatch, newest, is_built):
    built = []
    monkeypatch.setattr(builder, "TOOLS", folder / "tools")
    monkeypatch.setattr(builder, "run", lambda words, *_, **__: built.append(words))
    for name in ("benchmark/out/benchmark", "vte/src/lib.rt", "vte/specs/a/B.antt",
                 "vte/proofs/C.antt", "../crates.txt"):
        os.utime(write(f"crates/{name}", ""), (0, 2 if name == newest else 1))
    for part in (folder / "crates").rglob("*"):
        if part.is_dir():
            os.utime(part, (0, 1))
    assert builder.build_proved_program("benchmark") == folder / "crates/benchmark/out/benchmark"
    assert built == [["rt", "run"]] * is_built
