"""The table of bench/instructions.txt: the instructions per byte that streams may cost.

A line of the table names a kind of bench/, a stream, and the bytes of a call. In the column of each
build is a count; `?` is counted when the table is written next, and `-` never. The lines above it
say what its columns are counted with: other compilers, libraries and processors give other counts.
"""
import platform
import re
import shutil
import subprocess
from pathlib import Path

from lib.files import TOP

TABLE = TOP / "bench/instructions.txt"
COLUMNS = ["ours_release", "ours_best", "rattle"]
# a count may be above that of the table by one percent
MAX_RATIO = 1.01


def find_conditions():
    """Finds what each column is counted with now, or nothing if it can't be."""
    features = Path("/proc/cpuinfo")
    vectors = features.exists() and re.search(r"\bavx2\b", features.read_text())
    machine = f"{' '.join(platform.libc_ver())}; {platform.machine()}{' with AVX2' * bool(vectors)}"
    rustc, kit = ask_program("rustc", "--version"), ask_program("rt", "version")
    cargo = rustc and f"{' '.join(rustc.split()[:2])}; {machine}"
    kit = kit and f"{kit}; {machine}"
    return {"ours_release": cargo, "ours_best": cargo, "rattle": kit}


def ask_program(*words):
    """Returns the first line that a program says, or nothing if it isn't installed or fails."""
    done = shutil.which(words[0]) and subprocess.run(words, cwd=TABLE.parent, capture_output=True,
                                                     text=True)
    return done.stdout.partition("\n")[0] if done and done.returncode == 0 else ""


class Table:
    """What a table says: the conditions of its columns, and the cells of its rows."""

    def __init__(self, text):
        lines = [line for line in text.splitlines() if line and not line.startswith("#")]
        heads, rows = lines[:len(COLUMNS)], lines[len(COLUMNS) + 1:]
        self.conditions = dict(line.split(": ", 1) for line in heads)
        self.rows = {}
        for kind, stream, chunk, *cells in map(str.split, rows):
            self.rows[kind, stream, int(chunk)] = dict(zip(COLUMNS, cells, strict=True))

    def find_counted(self, columns):
        """Finds the rows and columns that have a count, or are to have one."""
        return [(row, column) for row, cells in self.rows.items() for column in columns
                if cells[column] != "-"]

    def update_lines(self, counts, found):
        """Yields the table's lines with these counts, and with the conditions found for them."""
        columns = {column for _, column in counts}
        yield "# Instructions per byte: bench/count limits --check refuses 1 percent more."
        for column in COLUMNS:
            yield f"{column}: {(found if column in columns else self.conditions)[column]}"
        yield format_line("kind", "stream", "call", *COLUMNS)
        for row, cells in self.rows.items():
            counted = {column: f"{counts[row, column]:.3f}" for column in COLUMNS
                       if (row, column) in counts}
            yield format_line(*row, *{**cells, **counted}.values())


def format_line(kind, stream, chunk, *cells):
    return f"{kind:<14}{stream:<13}{chunk:>5}{''.join(f'{cell:>13}' for cell in cells)}"


def compare(table, counts):
    """Yields what is to be said of counts, and whether it is a fault."""
    for (row, column), count in counts.items():
        cell, (kind, stream, chunk) = table.rows[row][column], row
        where = f"{kind} `{stream}` in calls of {chunk:,} B, {column}: {count:.3f}"
        if cell == "?":
            yield f"{where}, and the table has none", True
        elif count > float(cell) * MAX_RATIO:
            yield f"{where}, above {float(cell) * MAX_RATIO:.3f}", True
        elif count * MAX_RATIO < float(cell):
            yield f"{where}, below {cell}", False
