"""Tests of what tools/make_vectors refuses."""
import shutil
from pathlib import Path

import pytest
from lib.testing.support import TOOLS, Tool, write

PLAIN, MARK = "crates/event_vectors/src/vectors/plain.rt", "// Written by tools/make_vectors."
STALE = f"these files aren't up to date; run tools/make_vectors:\n  {PLAIN}"


@pytest.mark.parametrize("old, new, wanted", [
    (None, None, "crates/event_vectors has no table of PlainVector"),
    ('text: b"\\x0a"', 'text: b"\\x0d"', STALE),
    ('b"a\\x1b[1mb', 'b"a\\x1b[1m b', STALE),
    ("        name", "name", None),
    ("plain text of nothing", "nothing", f'{PLAIN}: no vector of text has the name "nothing"'),
    ("[PlainVector;", "[Plain;", f"{PLAIN}: 0 tables, and 1 times `{MARK}`"),
    ("// Written by", "// By", f"{PLAIN}: 1 tables, and 0 times `{MARK}`")])
def test_a_wrong_table_is_refused(folder, old, new, wanted):
    for name in "event_vectors/src", "call_vectors":
        shutil.copytree(TOOLS.parent / "crates" / name, folder / "crates" / name)
    text = Path(PLAIN).read_text()
    if old is None:
        Path(PLAIN).unlink()
    else:
        assert old in text
        write(PLAIN, text.replace(old, new, 1))
    assert Tool("make_vectors").run("--check") == (wanted, "")
