"""What the programs of tools/ and bench/ share: the top of this repository, its files, their parser
of arguments, and how files that are made from others are written or checked."""
import argparse
import re
import subprocess
import sys
from pathlib import Path

TOP = Path(__file__).resolve().parents[2]


def list_files(top):
    """Returns the files below `top` that git tracks or doesn't ignore: their paths from there."""
    command = ["git", "ls-files", "-co", "--exclude-standard"]
    paths = subprocess.run(command, cwd=top, capture_output=True, text=True, check=True).stdout
    return [path for path in paths.splitlines() if (top / path).is_file()]


def parser_of(about, **options):
    """Returns a parser of arguments, whose help is the text about a tool, line by line."""
    layout = argparse.RawDescriptionHelpFormatter
    return argparse.ArgumentParser(description=about, formatter_class=layout, **options)


def write_or_check(about, make, top):
    """Writes the files that aren't up to date, or with --check ends the program with their names.
    `make` yields the path of each below `top`, and its text, or None to remove it."""
    parser = parser_of(about)
    parser.add_argument("--check", action="store_true", help="only check that files are up to date")
    is_check = parser.parse_args().check
    stale = {name: text for name, text in make() if not is_current(top / name, text)}
    if is_check and stale:
        names = "".join(f"\n  {name}" for name in sorted(stale))
        sys.exit(f"these files aren't up to date; run tools/{parser.prog}:{names}")
    for name, text in stale.items():
        path = top / name
        if text is None:
            path.unlink()
        else:
            path.parent.mkdir(parents=True, exist_ok=True)
            path.write_text(text)
    if not is_check:
        print(f"{len(stale)} files are written")


def is_current(path, text):
    """Whether a file has a text, except the layout of Rattle, which is that of `rt fmt`."""
    if text is None or not path.exists():
        return False
    found = path.read_text()
    return found == text or path.suffix == ".rt" and drop_layout(found) == drop_layout(text)


def drop_layout(text):
    """Drops blanks and commas outside literals."""
    return re.sub(r"""('"'|"(?:\\.|[^"\\])*")|[\s,]""", lambda it: it[1] or "", text)
