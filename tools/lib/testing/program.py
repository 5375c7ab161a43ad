"""The program tools/test, without its list of parts."""
import os
import signal
import sys
import tempfile
from concurrent.futures import ThreadPoolExecutor
from dataclasses import dataclass

from lib.files import parser_of
from lib.testing.machine import Machine
from lib.testing.report import Report
from lib.testing.runner import Runner, count_cores


@dataclass
class Part:
    """A part of the tests: what it needs, commands for bash, of which each is run, and what it can
    do without: then it says itself what it doesn't test."""

    name: str
    needs: str
    commands: list
    optional: str = ""
    # its output is shown while it runs
    is_shown: bool = False
    # the last parts begin once it ends, and the others yield to it, each by its niceness
    is_awaited: bool = False
    niceness: int = 19
    # its last line counts tests, as that of `rt ci`, which the report adds to the parts
    counts_tests: bool = False


def set_environment(scratch):
    # builds take half the time without incremental files and debug information, and tests take
    # less with some optimization; as many proofs run at a time as there are cores
    os.environ.update(CARGO_INCREMENTAL="0", CARGO_PROFILE_DEV_DEBUG="0",
                      CARGO_PROFILE_DEV_OPT_LEVEL="1", CARGO_NET_RETRY="0",
                      CARGO_TERM_QUIET="true", NAQSHUVE_ALLOW_MISSING="1", SCRATCH=scratch)
    os.environ.setdefault("RT_JOBS", str(count_cores()))
    # otherwise pyo3 would be built again for each virtual environment
    os.environ.setdefault("PYO3_PYTHON", os.path.realpath(sys.executable))


def run_groups(groups):
    """Runs the first parts, then, if none failed, the later ones, and, once the one that is awaited
    ends, the last ones. Returns a report."""
    first, later, last = groups
    with tempfile.TemporaryDirectory() as scratch:
        set_environment(scratch)
        machine, report = Machine(), Report()
        runner = Runner(scratch, machine, report)
        for number in (signal.SIGINT, signal.SIGTERM):
            signal.signal(number, runner.stop)
        print("test: looking for what cargo and pip get from a network", flush=True)
        machine.find_crates()
        needs_pip = any("pip" in f"{part.needs} {part.optional}".split() for part in later)
        with ThreadPoolExecutor(1) as pool:
            looking = pool.submit(machine.find_pip, needs_pip)
            runner.run_all(first)
            looking.result()
        runner.run_all(later, last)
        report.show()
    return report


def run_tests(words, about, top, groups):
    """Runs the parts that words name, or all of three groups, in the folder `top`, as the text
    `about` says, and returns the status."""
    parser = parser_of(about, prog="test")
    parser.add_argument("--strict", action="store_true", help="let nothing be left out")
    parser.add_argument("names", nargs="*", metavar="NAME", help="a part (default: all)")
    options = parser.parse_args(words)
    names, parts = options.names, {part.name for group in groups for part in group}
    if unknown := [name for name in names if name not in parts]:
        parser.error(f"no part is named {unknown[0]}")
    os.chdir(top)
    asked = [[part for part in group if not names or part.name in names] for group in groups]
    report = run_groups(asked)
    was_run = len(report.ended) == sum(map(len, asked))
    is_complete = not report.missing if options.strict else not names or was_run
    return 0 if is_complete and report.count("FAILED") == 0 else 1
