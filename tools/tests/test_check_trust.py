"""Tests that tools/check_trust refuses what it says."""
import subprocess

import pytest
from lib.testing.support import TOOLS, Tool, write

CORE, CARGO = "crates/vte_core/src/", "rust/vte/src/proved/vte_core/"
# a file, its `unsafe`, and a text with just that
READER, ONE, TEXT = f"{CORE}reader.rt", "1 text_between", "fn text_between() { unsafe { g() } }"
MADE, USED, UNCOUNTED = (f":1: {fault}" for fault in (
    "other modules can make this", "the bytes of a call are used", "bytes are read uncounted"))


def fault_of(places, allowed="0"):
    return f": has `unsafe` {places}, expected {allowed}"


# a file, its text, and its fault: `unsafe` in files that may have some, or none
UNSAFE = {
    "in another file": ("a.rt", f"{TEXT} // unsafe, as unsafe_code is", fault_of(ONE)),
    "in a file of the same name": (f"old/{READER}", TEXT, fault_of(ONE)),
    "where it may be": (READER, TEXT, ""),
    "elsewhere": (READER, "fn text_between() {} fn g() { unsafe { h() } }", fault_of("1 g", ONE)),
    "twice": (READER, TEXT.replace("g()", "unsafe"), fault_of("2 text_between", ONE)),
    "not even once": (READER, "", fault_of("0", ONE)),
    # a call of `text_between` says why it is right, so that one isn't safe to call
    "in a function that became safe to call": (
        f"{CARGO}reader.rs", f"{TEXT} unsafe fn take_run() {{ unsafe {{ f() }} }}",
        fault_of("3 text_between take_run", "4 text_between take_run")),
    "not around a call": (
        f"{CARGO}reader/advance.rs", "fn advance_to_run() { take_run(bytes, range) }",
        fault_of("0", "1 advance_to_run")),
    "of attributes, functions, traits, types and macros": (
        "a.rs", "unsafe #[unsafe(no_mangle)]\npub extern \"C\" fn f() {} unsafe impl T for U {} "
        "\npub unsafe extern \"C\" fn g(h: unsafe fn()) { unsafe {} } macro_rules! m { unsafe }",
        fault_of("7 - f T g m")),
    "in strings, and after one that looks like a comment": (
        "a.rs", 'fn f() { g("//"); unsafe { h("unsafe", r#"unsafe"#) } }', fault_of("1 f")),
    "after '\"'": ("a.rs", "fn f() { g('\"'); unsafe {} } // \" unsafe", fault_of("1 f")),
    "in an unclosed string": ("a.rs", '\nfn f() { unsafe { " } }', ":2: unclosed quote: \"")}
# the same for the root of a crate, which must refuse `unsafe` elsewhere
ROOTS = {
    "forbids unsafe": ("rust/vtlog/src/main.rs", "#![forbid(unsafe_code)]", ""),
    **{f"{path} with {text}": (path, text, ": it doesn't deny `unsafe_code`")
       for path in ("python/rust/lib.rs", "rust/vte/src/lib.rs")
       for text in ("// #![deny(unsafe_code)]", "#![deny(unsafe_code_of_others)]")}}
# the same for files of the parser, by their names
PARSER = {
    "its own module makes a reader": ("reader", f"fn new(bytes: &'a [u8]) -> Self {TEXT}", ""),
    "others make a reader": ("reader", f"pub(crate) fn new(bytes: &'a [u8]) {TEXT}", MADE),
    "others set its tally": ("reader", f"pub tally: Snapshot<Tally>, {TEXT}", MADE),
    "others make a parser": ("parser", "pub(crate) fn new(bytes: B) -> Self", ""),
    "others set its looks": ("reader/looks", "pub tally: Snapshot<Tally>,", MADE),
    "a call passes its bytes on": (
        "reader/advance",
        "self.drive::<P, InRuns, true>(performer, Chunk::new(bytes)) // bytes", ""),
    "a call takes a run": ("reader/advance_long", "Ok(take_run(bytes, range))", ""),
    "a call reads bytes": ("reader/advance", "for byte in bytes {}", USED),
    "a call gives its bytes to others": (
        "reader/advance_long", "f(bytes); Chunk::new(bytes)", USED),
    "a call opens a chunk": ("reader/advance", "let reader = Chunk::new(bytes).open();", USED),
    "a call keeps a run": ("reader/advance", "let run = take_run(bytes, range);", USED),
    "bytes by another name": ("reader/advance", "    pub fn advance(&mut self, data: &[u8])", USED),
    "a search reads a byte": ("reader/run_end", "if input.bytes[at] == 0 {", UNCOUNTED),
    "a search for the end of data reads a byte": (
        "reader/search", "while end < input.len() && is_data(input.bytes[end]) {", UNCOUNTED),
    "a search for ESC reads bytes": (
        "reader/search", "memchr(ESCAPE, &input.bytes[from..])", UNCOUNTED),
    "a search counts by itself": ("reader/run_blocks", "self.count_looks(0);", UNCOUNTED),
    "a search sets the tally": ("reader/run_end", "reader.tally = tally_before;", UNCOUNTED),
    "a search opens an input": ("reader/run_end", "let Input { bytes } = input;", UNCOUNTED),
    "a search renames an input": ("reader/run_end", "use a::b::{Input as I};", UNCOUNTED),
    "a search extends an input": ("reader/run_blocks", "impl Input<'_> {", UNCOUNTED),
    "a search takes an input": ("reader/run_end", "use a::{B, Input}; fn f(input: Input<'_>)", ""),
    "a search opens a reader": ("reader/run_blocks", "let Reader { tally } = self;", UNCOUNTED),
    "a contract names bytes": ("reader/run_end", "requires in { to ≤ length input.bytes.now }", "")}
CASES = {**UNSAFE, **ROOTS, **{name: (f"{CORE}{file}.rt", text, fault)
                               for name, (file, text, fault) in PARSER.items()}}


@pytest.mark.parametrize("path, text, fault", CASES.values(), ids=CASES)
def test_what_is_refused_in_a_file(path, text, fault):
    write(path, text)
    write("HANDLES", "Handles allowed: none.\n")
    tool = Tool("check_trust", list_files=lambda _: [path], find_unused=lambda _: [])
    status, output = tool.run()
    wanted = [*[path + fault] * bool(fault), f"1 files, {bool(fault):d} places that are refused"]
    assert (status, output.splitlines()) == (bool(fault), wanted)


def test_all_files_and_handles_are_checked():
    subprocess.run(["git", "init", "-q"], check=True)
    write(".gitignore", "out/\n")
    for path in "crates/x/specs/A.antt", "crates/x/out/A.rt", "bench/b.rs", "c/d.rt", "e.md":
        write(path, "unsafe one\n")
    write("HANDLES", "Handles allowed: some.\n")
    status, output = Tool("check_trust", find_unused=lambda _: []).run()
    assert status == 1 and sorted(line.partition(":")[0] for line in output.splitlines()) == [
        "2 files, 3 places that are refused", "HANDLES", "bench/b.rs", "c/d.rt"]


# a word that is replaced in a file of the reader, and the fault
@pytest.mark.parametrize("path, word, fault", [
    ("reader", "tally", r"nothing there is \btally:"),
    ("reader", "Input", r"nothing there is \bstruct Input\b"),
    ("reader", "count_looks", r"nothing there is \bfn count_looks\("),
    ("reader/advance", "take_run", r"nothing there is ^ *take_run\(bytes, range\)$"),
    ("reader/run_end", "", "it isn't there"),
    ("reader", "no word of it", None)])
def test_a_name_that_nothing_has_is_reported(path, word, fault):
    tool = Tool("check_trust", PLACES={}, ROOTS=())
    files = {*tool.parts["MAKERS"], *tool.parts["CALLS"], *tool.parts["SEARCHES"]}
    changed = f"{CORE}{path}.rt"
    for file in files:
        text = (TOOLS.parent / file).read_text()
        write(file, text.replace(word, "other") if file == changed else text)
    output = [*tool.parts["find_unused"](files if word else files - {changed})]
    assert [line.endswith(fault) for line in output] == [True] * bool(fault)
