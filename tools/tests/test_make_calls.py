"""Tests of what tools/make_calls writes."""
from pathlib import Path

import pytest
from lib.testing.support import TOOLS, Tool, write

HEADER = "c/include/vte_handler.h"
# the ends of each file's lists with a method more, `ring_bells(&mut self, top: u16, text: &str)`
ENDS = {
    "crates/vte_handler/src/by_call.rt": [
        "RingBells(u16, &'a str),\n}", "take(HandlerCall::RingBells(top, text));\n    }\n}"],
    "crates/test_lines/src/visitor.rt": [
        "RingBells(top, text): ring_bells visit_number(top as u64) visit_text(text);\n    }"],
    "rust/vte/tests/vectors/call_lines.rs": ["ring_bells(top: u16, text: &str),\n        }"],
    "rust/vte/examples/unknown.rs": ["ring_bells(u16, &str)\n}"], "rust/vte_c/src/processor.rs": [
        "(top: u16, text: &str) => u16 = top, *const u8 = text.as_ptr(), usize = text.len();\n}"],
    HEADER: ["ring_bells)(void *user, uint16_t top, const uint8_t *text, size_t text_length);\n}"],
    "c/include/vte.hpp": [
        "virtual void ring_bells(uint16_t, std::string_view) {}\n}", "&Handler::ring_bells>,\n}"],
    "python/rust/calls.rs": ["RingBells(top, text)\n}"], "python/src/vte/calls.py": [
        'class RingBells(NamedTuple):\n    """Rings. Twice."""\n    top: int\n    text: str\n\n\n',
        "RingBells,\n]"]}


@pytest.fixture
def calls():
    """The tool, over a copy of its files, and what these say."""
    tool = Tool("make_calls")
    texts = {name: (TOOLS.parent / name).read_text()
             for name in (tool.parts["TRAIT"], *tool.parts["LISTS"])}
    for name, text in texts.items():
        write(name, text)
    return tool, texts


def update(tool, *files):
    """Sees that files are reported as out of date, and then written."""
    stale = "".join(f"\n  {file}" for file in sorted(files))
    wanted = f"these files aren't up to date; run tools/make_calls:{stale}"
    assert tool.run("--check") == (wanted, "")
    assert tool.run() == (None, f"{len(files)} files are written\n")
    assert tool.run("--check") == (None, "")


def test_a_call_is_added_to_all_lists_and_removed(calls):
    tool, texts = calls
    trait, *files = texts
    method = "/// Rings.\n    /// Twice.\n    fn ring_bells(&mut self, top: u16, text: &str)"
    write(trait, texts[trait].replace("/// Rings", f"{method}\n\n    /// Rings", 1))
    update(tool, *files)
    assert [end for file in files for end in ENDS[file] if end not in Path(file).read_text()] == []
    write(trait, texts[trait])
    update(tool, *files)
    assert {file: Path(file).read_text() for file in texts} == texts


@pytest.mark.parametrize("path, old, new", [
    ("crates/vte_handler/src/by_call.rt", "HandlerCall::MoveUp(count)", "HandlerCall::MoveUp(1)"),
    ("rust/vte_c/src/processor.rs", "set_tabs(interval: u16)", "set_tabs(interval: u8)"),
    (HEADER, "put_tab)(void *user, uint16_t", "put_tab)(void *user, size_t"),
    ("python/src/vte/calls.py", "bottom: int | None", "bottom: int")])
def test_a_wrong_entry_is_reported_and_written_again(calls, path, old, new):
    tool, texts = calls
    assert old in texts[path]
    write(path, texts[path].replace(old, new))
    update(tool, path)
    assert old in Path(path).read_text()


def test_the_table_of_c_has_one_order(calls):
    tool, texts = calls
    bell = "    void (*bell)(void *user);\n"
    without = texts[HEADER].replace(bell, "")
    write(HEADER, without.replace("} vte_handler;", f"{bell}}} vte_handler;"))
    fault = tool.run("--check")[0]
    assert fault.startswith(HEADER) and fault.endswith("the functions don't have one order")
