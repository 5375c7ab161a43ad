"""Tests of tools/erase, and that tools/check_erased refuses what it says."""
import re

import pytest
from lib.erasing.plan import Plan
from lib.testing.missing import need
from lib.testing.support import TOOLS, Tool, write

# ---- check_erased

def find_differences(source, written, path="c/mod.rs", adapter=""):
    """Finds what differs in a file, in whose place something else is written, and in an adapter."""
    write("a.rs", adapter)
    write("crates/c/src/lib.rt", source)
    write(f"w/{path}", written)
    plan = Plan(folder="w", modules={"c": "crate::c"})
    status, output = Tool("check_erased", PLANS=(plan,), REPEATED={"a.rs": "w"}).run()
    *found, last = output.splitlines()
    assert status == (1 if found else 0)
    assert last == f"{len(found)} differences between the proved sources and rust/"
    return found


# the text of a crate, what is written of it, and the items that aren't in one of them: -A isn't
# written, and +A isn't in the source so. More that doesn't differ is in test_erasing
DIFFERENCES = {
    "the allocator, laws and documentation": (
        "/// F.\npub fn f() { laws::x(); g(alloc, c::X); }",
        "/// F. More.\npub fn f() { g(X); }", ""),
    "a method that does more than say no": (
        "fn f() -> bool;", "fn f() -> bool { true }", "+fn f, -fn f"),
    "a function that isn't written": ("fn f() { g(); }", "", "-fn f"),
    "a method that isn't written": ("trait T { fn f(); }", "trait T {}", "-fn f"),
    "a function without a source": ("", "fn f() { g(); }", "+fn f"),
    "a number": ("fn f() { g(1); }", "fn f() { g(2); }", "+fn f, -fn f"),
    "an empty body": ("fn f() { g(); }", "fn f() {}", "+fn f, -fn f"),
    "bodies in another order": (
        "impl S { fn f() { g(); } } impl T { fn f() { h(); } }",
        "impl S { fn f() { h(); } } impl T { fn f() { g(); } }", "+fn f, -fn f"),
    "the value of a static": (
        "pub static N: u8 = 1;", "pub static N: u8 = 2;", "+static N, -static N"),
    "a constant that isn't written": ("impl S { const N: u8 = 1; }", "impl S {}", "-const N"),
    "no constants, but parameters and pointers": (
        "fn f<const N: u8>() -> *const u8 { N }", "fn f<const N: u8>() -> *const u8 { N }", ""),
    "unsafe around calls that have contracts": (
        "fn f() { g(text_between(a, b.c)); take_run(a); }",
        "fn f() { g(unsafe { text_between(a, b.c) }); unsafe { take_run(a) }; }", ""),
    "unsafe around another call of such a function": (
        "fn f() { text_between(a); }", "fn f() { unsafe { text_between(b) }; }", "+fn f, -fn f"),
    "unsafe around another function": (
        "fn f() { g(a); }", "fn f() { unsafe { g(a) }; }", "+fn f, -fn f"),
    "unsafe around a statement": (
        "fn f() { g(a); }", "fn f() { unsafe { g(a); } }", "+fn f, -fn f"),
    "unsafe around two calls": (
        "fn f() { g(a); }", "fn f() { unsafe { text_between(a); g(a); } }", "+fn f, -fn f"),
    "unsafe around a call in a call": (
        "fn f() { g(a); }", "fn f() { unsafe { h(text_between(a)) } }", "+fn f, -fn f"),
    "another end of the input": (
        "fn f() { input.take_prefix(a); }", "fn f() { take_prefix(input, b); }", "+fn f, -fn f"),
    "a name that begins as that of the bytes": (
        "fn f() { g(input.bytes_read); }", "fn f() { g(input_read); }", "+fn f, -fn f"),
    "a name that ends as that of the input": (
        "fn f() { g(an_input.bytes); }", "fn f() { g(an_input); }", "+fn f, -fn f"),
    "a name that begins as that of the reader": (
        "fn f() { g(&mut reader_of_a); }", "fn f() { g(reader_of_a); }", "+fn f, -fn f"),
    "contracts with braces in them": (
        "fn f() // requires { }\n ghost a: { ℕ }\n requires b { { \"}\" } ≡ '}' } "
        "ensures* { c } { g(); }", "fn f() { g(); }", ""),
    "a body after a tactic and a contract": (
        "#[tactic(auto, u(a))]\nfn f()\n    ensures { a }\n{ b }", "fn f() { c }", "+fn f, -fn f"),
    "a body after ghosts": (
        "impl A for B { ghost use c.{D}; ghost e = { λ f. g }; fn h() { 1 } }",
        "impl A for B { fn h() { 2 } }", "+fn h, -fn h"),
    "a mark's line": (
        "fn f() {\n// cargo instead: a();\nb(); }", "fn f() { b(); }", "+fn f, -fn f"),
    "what a mark says is lacking": (
        "// cargo lacks: why\nfn f() {}\nfn g() {}", "fn f() {}", "+fn f, -fn g"),
    "the end of a range": (
        "fn f() { match a { 0..16 => 1 } }", "fn f() { match a { 0..=16 => 1 } }", "+fn f, -fn f"),
    "the end of a let-else": (
        "fn f() { let A(b) = c else { break; }; }",
        "fn f() { let b = match c { A(b) => b, _ => return, }; }", "+fn f, -fn f")}


@pytest.mark.parametrize("source, written, wanted", DIFFERENCES.values(), ids=DIFFERENCES)
def test_what_differs_is_reported(source, written, wanted):
    shown = re.compile("c/mod.rs (.*?): it isn't (?:written|in the source as it is written: (.*))")
    found = [shown.fullmatch(line) for line in find_differences(source, written)]
    assert ", ".join("+-"[match[2] is None] + match[1] for match in found) == wanted
    assert all(word in written for match in found for word in (match[2] or "").split())


def example_of(template):
    """Returns an example of a text of a rule, whose brackets all have a partner."""
    text = template.replace("$comma", ",").replace("$leave", "return").replace("$", "")
    for opening, closing in "()", "[]", "{}":
        surplus = text.count(closing) - text.count(opening)
        text = opening * surplus + text + closing * -surplus
    return text


STEPS = Tool("check_erased").parts["STEPS"]
# what a rule has, with places as words, and what this is too
EXAMPLES = [*([*map(example_of, rule)] for step in STEPS for rule in step),
            ["0..16 =>", "0..=15 =>"], ["0..0x10 =>", "0..=0xf =>"]]
# more than words in places
VALUES = [
    ("let A(b) = f() else { return; };", "let b = match f() { A(b) => b, _ => return, };"),
    ("let A(b) = f() else { break c; };", "let b = match f() { A(b) => b, _ => break c, };"),
    ("let A(b) = f() else { g(); c };", "let b = match f() { A(b) => b, _ => { g(); c } };"),
    ("input.bytes[a - 1..].first_chunk::<N>()", "first_chunk::<N>(&input[a - 1..])"),
    ("{ let result = f(a, b); result }", "{ f(a, b) }"),
    ("match a { A => { laws::f(); 1 } _ => c, }", "match a { A => 1, _ => c }"),
    ("f(a, [b,],)", "f(a, [b])"), ("A { a, looks: Looks::new(), }", "A { a }")]


@pytest.mark.parametrize("source, written", EXAMPLES + VALUES)
def test_what_may_differ_is_not_reported(source, written):
    assert find_differences(f"fn f() {{ {source} }}", f"fn f() {{ {written} }}") == []


@pytest.mark.parametrize("source, written", EXAMPLES)
def test_any_other_token_differs(source, written):
    """Only the name of a law doesn't count."""
    ignored = []
    for token in re.finditer(r"\w+|[^\w\s(){}[\]]", source):
        other = " 7 " if token[0].isdigit() else " other "
        changed = source[:token.start()] + other + source[token.end():]
        if not find_differences(f"fn f() {{ {changed} }}", f"fn f() {{ {written} }}"):
            ignored.append(token[0])
    assert ignored == (["name"] if "laws" in source else [])


def test_the_order_in_a_step_does_not_matter():
    """The sources of this repository have no difference, either, with each step in reverse."""
    tool = Tool("check_erased")
    rules = [tool.parts["compile_rule"](*rule) for step in STEPS for rule in reversed(step)]
    tool.parts.update(RULES=rules, TOP=TOOLS.parent)
    assert tool.run()[0] == 0


def test_documentation_is_repeated():
    text = "/// F\n/// [`crate::G`].\npub fn f() {}\n"
    same = ("/// F [`G`]:\n/// ```\n/// g();\n/// ```\n#[inline]\npub const fn f() {}\n"
            "/// More.\npub fn shrink() {}\n")
    assert find_differences(text, text, adapter=same) == []
    found = find_differences(text, text, adapter="/// F [`H`].\npub const fn f() {}\n")
    assert found == ["a.rs fn f: the source has other documentation"]


def test_all_files_are_compared():
    for path in "a", "a/b", "laws/a", "tests", "tests/a":
        write(f"crates/c/src/{path}.rt", "fn f() {}")
    source = "pub mod laws;\n#[cfg(test)]\nmod tests;\n"
    assert find_differences(source, "") == [f"c/{path}.rs fn f: it isn't written"
                                            for path in ("a", "a/b")]
    found = find_differences(source + "// cargo lacks: why\nmod a;\n", "", "c/d.rs")
    assert found == ["w/c/d.rs: it has no source"]


# ---- erase

def run_erase(*words):
    plans = [Plan(folder=folder, modules={"c": "crate::c"}) for folder in ("v", "w")]
    return Tool("erase", PLANS=plans, format_files=lambda files: files).run(*words)


def test_what_is_out_of_date_is_reported_and_then_written(folder):
    write("crates/c/src/d/e.rt", "fn f() { laws::x(); }\n")
    write("w/left/over", "")
    write("w/mod.rs", "as it was")
    outdated = ("these files aren't up to date; run tools/erase:\n"
                "  v/c/d/e.rs\n  v/mod.rs\n  w/c/d/e.rs\n  w/left/over\n  w/mod.rs")
    assert run_erase("--check") == (outdated, "")
    assert run_erase() == (None, "5 files are written\n")
    assert run_erase("--check") == (None, "")
    assert run_erase() == (None, "0 files are written\n")
    assert not (folder / "w/left/over").exists()
    assert (folder / "w/c/d/e.rs").read_text().splitlines()[1:] == ["fn f() { }"]


def test_each_folder_is_written():
    top = TOOLS.parent
    folders = {str(path.relative_to(top)) for path in top.glob("rust/*/src/proved")}
    assert {plan.folder for plan in Tool("erase").parts["PLANS"]} == folders


def test_files_have_the_layout_of_rustfmt():
    need("rustfmt", "the layout of what the eraser writes was not tested")
    format_files = Tool("erase").parts["format_files"]
    assert format_files({"mod.rs": "mod a;", "a.rs": "fn f( ){}"}) == {
        "mod.rs": "mod a;\n", "a.rs": "fn f() {}\n"}
    with pytest.raises(OSError, match="rustfmt failed with status 1"):
        format_files({"mod.rs": "fn f( {"})


@pytest.mark.parametrize("words", [[], ["--check"]])
def test_what_the_eraser_refuses_is_reported(words, folder):
    write("crates/c/src/lib.rt", "\n#[test]\nfn f() {}\n")
    reported = "tools/erase: crates/c/src/lib.rt:2: unknown attribute: test"
    assert run_erase(*words) == (reported, "")
    assert not (folder / "w").exists()
