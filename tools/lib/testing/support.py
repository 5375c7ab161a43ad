"""What tests of tools share."""
import contextlib
import io
import os
import subprocess
import sys
import time
from pathlib import Path
from runpy import run_path

import pytest

TOOLS = Path(__file__).resolve().parents[2]


class Tool:
    """A tool of tools/ over the files of a test's folder."""

    def __init__(self, name, **replaced):
        self.name, self.main = name, run_path(str(TOOLS / name))["main"]
        self.parts = self.main.__globals__
        self.parts.update(TOP=Path.cwd(), **replaced)

    def run(self, *words):
        """Returns the status or the message of its end, and what it printed."""
        output = io.StringIO()
        with pytest.MonkeyPatch.context() as patch, contextlib.redirect_stdout(output):
            patch.setattr(sys, "argv", [self.name, *words])
            try:
                status = self.main()
            except SystemExit as ended:
                status = ended.code
        return status, output.getvalue()


def write(path, text, mode=0o644):
    file = Path(path).absolute()
    file.parent.mkdir(parents=True, exist_ok=True)
    file.write_text(text)
    file.chmod(mode)
    return file


def write_program(path, text):
    return write(path, f"#!/bin/sh\n{text}\n", 0o755)


def wait_until(condition, message=""):
    """Waits for something, for minutes if the machine is busy."""
    end = time.monotonic() + 1200
    while not condition():
        assert time.monotonic() < end, message
        time.sleep(0.02)


def run_here(tool, *words, edit=str, **programs):
    """The status and lines of an edited shell tool here, which finds these programs first."""
    write(f"tools/{tool}", edit((TOOLS / tool).read_text()), 0o755)
    write("tools/lib/shell.sh", (TOOLS / "lib/shell.sh").read_text())
    for name, text in programs.items():
        write_program(f"bin/{name}", text)
    done = subprocess.run([f"tools/{tool}", *words], stdout=subprocess.PIPE, text=True,
                          env={**os.environ, "PATH": f"{Path.cwd()}/bin:{os.environ['PATH']}"})
    return done.returncode, done.stdout.splitlines()
