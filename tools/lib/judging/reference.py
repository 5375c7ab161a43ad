"""The reference: what `vtlog` prints, and under other house rules docs/EVENTS.md in Python."""
import concurrent.futures
import os
import shutil
import subprocess
import sys
from pathlib import Path

from lib.building.builder import is_current
from lib.files import TOP
from lib.judging.definition import lines_of
from lib.judging.house import DEFAULT

# the seconds that one stream may take, on a machine that is busy
TIMEOUT = 120
CARGO_CRATE = TOP / "rust/vtlog"


class NoReference(Exception):
    """There is no `vtlog`, or it can't be relied on."""


class Reference:
    def __init__(self, vtlog, house=DEFAULT):
        self.vtlog, self.house = vtlog, house
        self.threads = concurrent.futures.ThreadPoolExecutor(os.cpu_count())

    def check(self):
        """Raises NoReference for a program that isn't vtlog."""
        if self.answer(b"a\x1b[m\xff") != ["print 0061", "csi [0] - false 6d", "print fffd"]:
            raise NoReference(f"{self.vtlog} isn't vtlog: it prints other lines")

    def answer(self, stream):
        """Returns the lines of a stream."""
        try:
            done = subprocess.run([self.vtlog], input=stream, capture_output=True, timeout=TIMEOUT)
        except subprocess.TimeoutExpired:
            raise NoReference(f"{self.vtlog} gave no answer in {TIMEOUT} s") from None
        except OSError as error:
            raise NoReference(f"{self.vtlog} can't be run: {error.strerror}") from None
        if done.returncode != 0:
            said = done.stderr.decode(errors="replace")[:200]
            raise NoReference(f"{self.vtlog} failed with status {done.returncode}: {said}")
        lines = done.stdout.decode(errors="backslashreplace").splitlines()
        if self.house == DEFAULT:
            return lines
        if lines != lines_of(stream):
            raise NoReference("vtlog and tools/lib/judging/definition.py differ, which is a bug of "
                              f"this repository: {stream[:100].hex()}")
        return lines_of(stream, self.house)

    def answer_all(self, streams):
        return list(self.threads.map(self.answer, streams))


def find_vtlog(named=None):
    """Finds the program: the named one, $VTLOG, the one of this repository, which cargo keeps up to
    date, the proved one if it is newer than its sources, or the one that is installed."""
    named = named or os.environ.get("VTLOG")
    if named:
        if not os.access(named, os.X_OK) or Path(named).is_dir():
            raise NoReference(f"not a program: {named}")
        return str(Path(named).resolve())
    proved = TOP / "crates/vtlog/out/vtlog"
    found = build_by_cargo() or (proved if is_current(proved, TOP) else shutil.which("vtlog"))
    if not found:
        raise NoReference("there is no vtlog: give --vtlog PROGRAM, install cargo 1.63 or later, "
                          "or build it with ./vtlog")
    return str(found)


def build_by_cargo():
    """Returns the path of what cargo builds, or None if there is no cargo, or if it fails, whose
    message is shown."""
    if not shutil.which("cargo"):
        return None
    words = [TOP / "tools/lib/building/cargo_product", "build", "--quiet", "--release", "--locked",
             "--manifest-path", CARGO_CRATE / "Cargo.toml"]
    done = subprocess.run(words, stdin=subprocess.DEVNULL, capture_output=True)
    if done.returncode == 0:
        return done.stdout.decode().rstrip("\n")
    sys.stderr.buffer.write(done.stderr[-2000:])
    return None
