"""Runs a program in a pty, passes its output on, and reports each title that it sets.

title_watcher.py PROGRAM ARGUMENT..
"""
import os
import pty
import sys

import vte


def titles(events):
    """Operating system commands 0 and 2 set the title, which may contain `;`."""
    for event in events:
        if isinstance(event, vte.Osc) and event.pieces[0] in (b"0", b"2"):
            yield b";".join(event.pieces[1:]).decode(errors="replace")


def main(words):
    parser = vte.Parser()

    def read(descriptor):
        data = os.read(descriptor, 65536)
        for title in titles(parser.feed(data)):
            print(f"title: {title}", file=sys.stderr)
        return data

    return os.waitstatus_to_exitcode(pty.spawn(words, read))


sys.exit(main(sys.argv[1:]))
