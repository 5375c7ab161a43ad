"""A build of the C library, and the C programs over it."""
import os
import re
import subprocess
from ctypes import CDLL, c_size_t
from concurrent.futures import ThreadPoolExecutor
from functools import cached_property
from pathlib import Path

from lib.testing.support import TOOLS

PROGRAMS = Path(__file__).parent
EXAMPLES = TOOLS.parent / "c/examples"
INCLUDE = TOOLS.parent / "c/include"
# of the interface
VERSION = int(re.search(r"#define VTE_VERSION (\d+)", (INCLUDE / "vte.h").read_text())[1])
WARNINGS = ["-O2", "-Wall", "-Wextra", "-Werror", f"-I{INCLUDE}"]
SANITIZERS = ["-g", "-fsanitize=address,undefined", "-fno-sanitize-recover=all"]


def output_of(words, stream=b"", **environment):
    """Returns what a program writes, and its status and standard error if it has these."""
    environment = {**os.environ, **environment}
    done = subprocess.run(words, input=stream, capture_output=True, env=environment)
    if done.returncode != 0 or done.stderr:
        return done.stdout + b"\nstatus %d: %b" % (done.returncode, done.stderr)
    return done.stdout


def run_at_once(test, cases):
    """Runs a test for all cases, side by side."""
    with ThreadPoolExecutor(os.cpu_count()) as pool:
        list(pool.map(test, cases))


def try_compiler(words, **environment):
    """Whether this compiler command succeeds, and what it says."""
    done = subprocess.run(words, env={**os.environ, **environment}, text=True,
                          stdout=subprocess.PIPE, stderr=subprocess.STDOUT)
    return done.returncode == 0, done.stdout


class Library:
    """A build of the library in a folder, with the programs that are compiled there."""

    def __init__(self, build, folder, is_short):
        self.build, self.folder, self.is_short = build, folder, is_short
        is_built, output = try_compiler([TOOLS / "build_c_library", f"--{build}", folder])
        assert is_built, output
        self.archive, self.shared = folder / "libvte_c.a", folder / "libvte_c.so"
        # whether it has what allocates memory
        self.is_complete = build == "cargo"
        self.of_events = ["-DWITH_LONG"] if self.is_complete else []

    def compile(self, source, *words, compiler="cc", name=None, optional=False):
        """Compiles a program. Returns its path, or None if it is optional and doesn't compile."""
        program = self.folder / (name or Path(source).name.replace(".", "_"))
        command = [compiler, *WARNINGS, *words, source, self.archive, "-o", program]
        is_built, output = try_compiler(command)
        assert is_built or optional, output
        return program if is_built else None

    @cached_property
    def functions(self):
        """The shared library for ctypes."""
        functions = CDLL(self.shared)
        of_64_bits = "feed strip long_feed long_parser_new processor_new".split()
        for name in of_64_bits[:None if self.is_complete else 2]:
            getattr(functions, f"vte_{name}").restype = c_size_t
        return functions

    @cached_property
    def events(self):
        return self.compile(PROGRAMS / "events.c", *self.of_events)

    @cached_property
    def sanitized(self):
        """The same program with sanitizers, or None if cc has none."""
        def link(*words):
            return self.compile(PROGRAMS / "events.c", *self.of_events, *SANITIZERS, *words,
                                name="events_sanitized", optional=True)

        # it begins sooner without shared libraries, which clang's never are
        return link("-static-libasan", "-static-libubsan") or link()
