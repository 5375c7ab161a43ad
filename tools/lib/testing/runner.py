"""Runs parts of tools/test side by side, and says at once how each ended."""
import os
import subprocess
import sys
import threading
import time
from concurrent.futures import ThreadPoolExecutor
from pathlib import Path

from lib.testing.machine import wrap_in_bash

SAYING = threading.Lock()


def say(text):
    """Prints lines without those of another part between them."""
    with SAYING:
        print(f"{text}\n", end="", flush=True)


def count_cores():
    return len(os.sched_getaffinity(0))


class Runner:
    """Runs what this machine can, with logs in the folder `scratch`, and adds to a report."""

    def __init__(self, scratch, machine, report):
        self.scratch, self.machine, self.report = scratch, machine, report
        # the commands that run, and whether no other may begin
        self.running, self.is_stopped = set(), False

    def stop(self, *_):
        """Ends what runs, and this program."""
        self.is_stopped = True
        for process in self.running.copy():
            process.terminate()
        sys.exit(130)

    def report_missing(self, part, has_failed):
        """Returns what a part lacks to be run, and adds it to the report."""
        needed, optional = map(self.machine.list_missing, (part.needs, part.optional))
        missing = [name for name, _ in needed]
        packages = [names for _, names in needed] + [names for _, names in optional if names]
        if has_failed:
            missing = ["all parts before it to pass"]
        elif None not in packages:
            self.report.packages.update(name for names in packages for name in names.split())
        if missing:
            self.report.missing.add(f"{part.name}: it needs {', '.join(missing)}")
        return missing

    def run_part(self, part, niceness):
        """Runs the commands of a part, even after one has failed. Prints the output of a part that
        failed, or while it runs if it is to be shown."""
        has_failed, begun = False, time.monotonic()
        log = Path(self.scratch, part.name.replace("/", " "))
        say(f"test: {part.name} begins")
        for command in part.commands:
            if self.is_stopped:
                return
            has_failed |= self.run(command, log, part.is_shown, niceness) != 0
        text, seconds = log.read_text(errors="replace"), time.monotonic() - begun
        ended = "FAILED" if has_failed else "passed"
        self.report.add(seconds, ended, part, text)
        said = text if has_failed and not part.is_shown else ""
        say(f"{said}test: {seconds:.0f} s  {ended}  {part.name}")

    def run(self, command, log, is_shown, niceness):
        """Runs a command, whose output goes to a log and may be shown, too, and returns its status.
        A command that hangs is ended."""
        if is_shown:
            command = f"{command} 2>&1 | tee '{log}'"
        with log.open("ab") as file, subprocess.Popen(
                # timeout ends all processes of its group
                ["timeout", "150m", "nice", "-n", str(niceness), *wrap_in_bash(command)],
                stdin=subprocess.DEVNULL, stderr=subprocess.STDOUT,
                stdout=None if is_shown else file) as process:
            self.running.add(process)
            if self.is_stopped:
                process.terminate()
            status = process.wait()
            self.running.remove(process)
        return status

    def run_all(self, parts, last=(), niceness=0):
        """Runs parts side by side, one more at a time than there are cores. The last ones begin
        once the part that is awaited ends, if that is among the others."""
        has_failed = self.report.count("FAILED") > 0
        runnable = [part for part in parts if not self.report_missing(part, has_failed)]
        is_awaiting = any(part.is_awaited for part in runnable)

        def run_nicely(part):
            self.run_part(part, part.niceness if is_awaiting else niceness)
            if part.is_awaited:
                self.run_all(last, niceness=19)

        with ThreadPoolExecutor(count_cores() + 1) as pool:
            list(pool.map(run_nicely, runnable))
        if not is_awaiting and last:
            self.run_all(last)
