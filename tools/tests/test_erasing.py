"""Tests of tools/erase, and of tools/check_erased on what it writes."""
import re

import pytest
from lib.erasing.crate import Failure, erase, write_crate
from lib.erasing.patterns import rewrite
from lib.erasing.plan import Plan
from lib.erasing.source import Source
from lib.erasing.tokens import Refused, split
from lib.testing.support import Tool, write


def make_plan(**entries):
    return Plan(folder="o", modules={"a": "crate::a", "b": "crate::b"}, **entries)


# what is in ‹ › goes, and what is in « » comes
TRAPS = '''//! Head.
‹#![tactic(auto)]
ghost use A.{◌≡◌, ◌∷◌};
›
// ensures { this comment stays }
#[inline]
‹#[tactic(auto, using(crate::x))]
#[tactic(auto)]
›pub fn f<'a>(s: &'a str, c: char) -> bool‹
    ghost top: { ℕ }
    requires named { c ≢ "}" → "\\"{" ≡ s }
    // goes
    ensures* { { 1 } ≡ { 1 } -- and { here
    }›
{
    let open = ['{', '\\'', '"', '\\u{7b}', '\\x7b', b'{' as char, '}'];
    let text = "ghost use x; ensures { \\"} }";
    let raw = r#"requires { " } ghost"#;
    let bytes = b"\\x1b]{ ensures";
    ‹// goes
    laws::nothing();
    ›'outer: loop { break 'outer; }
    1..2; 1.5e3; x.0.1; s == text && open.len() == raw.len() + bytes.len()
}

#[derive(Clone, Copy, Debug, Default, ‹Drop, ›Eq, Hash, Ord, PartialEq, PartialOrd‹, Serialize,
    Deserialize›)]«
#[cfg_attr(feature = "serde", derive(Serialize, Deserialize))]»
pub struct P<T‹: Drop›> {
    pub a: T,‹
    /// goes too
    pub(crate) ghost in_range: { a ≤ 100 },›
}

‹#[derive(Drop)]
›struct Q;

‹impl Model for Q {
    ghost Value = { ℕ };
}

›trait R<T: A‹ + Drop›, U: B> {‹
    // goes with it
    ghost x: { Self → ℕ } = { λ _. 0 };›

    fn drop_it(&self)‹
        ensures { ⊤ }›;
}

‹#[cfg(test)]
pub(crate) fn helper(r#in: [u8; 2]) { r#in; }
#[cfg(test)]
pub(crate) mod cases;
#[cfg(test)]
mod tests { fn g() { 1; } }
›const R: u8 = r#in;
'''


def split_marked(marked):
    """Returns a text with marks, as it is before and after."""
    return re.sub("[‹›]|«[^»]*»", "", marked), re.sub("[«»]|‹[^›]*›", "", marked)


def words_of(text):
    """The words, comments and blank lines of a text: the rest of its layout is rustfmt's."""
    texts = [token.text.strip(" ") for token in split(text)]
    return [text for text in texts if text not in ("", "\n", ",")]


# a plan, and a text with marks, as crates/ have no such case: named by how it begins
TEXTS = [
    ({}, "use c::Kept; use c::Gone; fn f(k: u8) {}\n‹#[cfg(test)]\nmod tests { fn g() { Gone } }›"),
    ({}, "‹use b::laws; pub use laws::Step; mod laws;› use ‹std›«core»::cmp::Ordering; mod c;"),
    ({}, "fn f() { match a { ‹1..0x10›«1..=0xf» => 2, ‹20..30›«20..=29» => 3, A..B => 4 } }"),
    # marks: comments, lines, and what isn't there, each up to its end and not more
    ({}, "//! A.\n‹// proof: goes\n// goes\n›/// B.\nfn f() {\n    // stays\n‹    // proof: goes\n›"
     "    c();\n‹    // proof: goes\n    // cargo: g();›«    g();»\n}\n"),
    ({}, "fn f() {\n    ‹// cargo: ›g();\n    h();\n    ‹// cargo instead: ›i(\n"
     "    ‹// cargo instead: ›    j);\n‹    k(l); // goes\n›    m();\n"
     "‹    // cargo instead:\n    n();\n›}"),
    ({}, "‹use c::Gone;› use c::Kept; fn f() {\n‹// cargo instead: ›Kept\n‹Gone::new()\n›}"),
    ({}, "‹/// Goes.\n// cargo lacks: why\n#[inline]\n#[tactic(auto)]\npub fn f()\n"
     "    ensures { a }\n{}\n›const A: u8 = 1; // one\nfn ff() {}"),
    ({}, "//! File.\n// A group.\n\n‹// goes\n#[inline]\n// cargo lacks: why\nfn f() {}\n\n›"
     "fn g() {}"),
    *(({}, f"fn f() {{}} ‹\n// cargo lacks: why\n{item}›\nfn g() {{}}") for item in (
        "pub const fn g(a: [u8; 2]) { a; }", "static S: T = T { a: [0; 2] };", "struct U([u8; 2]);",
        "const C: u8 = { 1 };", "type X = V<{ 1 }>;", "pub(crate) use c::{d, e};",
        "impl V<[u8; 2]> for U where U: W { const Y: u8 = 1; }")),
    ({}, "struct S { ‹\n// cargo lacks: why\npub a: T<(u8, u8)>,›\nb: c::D } fn f() { ‹\n"
     "// cargo lacks: why\nlet e = [f, g];›\nh(); }"),
    ({}, "‹// cargo lacks: why\nmod d;›\n‹pub use d::E;› fn f() { E }"),
    ({}, "trait I { fn h(); }\n‹// cargo defaults: why\n›#[allow(a)] pub trait H { "
     "fn f(&self) -> bool‹;›« { false }» fn g(&self, k: [u8; 2])‹;›« {}» fn i() { j; } }\n"
     "impl H for K { fn f(&self) -> bool { a; b } }"),
    ({}, "trait H { ‹\n// cargo defaults: why\n›fn f() -> bool‹;›« { false }» fn g(); }"),
    ({}, "‹// cargo: ›handlers! {\n«    »/// H.\n‹// cargo instead: ›«    »pub trait H;\n"
     "‹pub trait H {\n›\n    fn f(t: &str) {} }"),
    ({}, "#[derive(Debug«, Eq, Hash»)]\n‹// cargo: #[derive(Eq)]\n›#[allow(a)]\n"
     "‹// cargo: #[derive(Hash)]\n›pub struct S;\n"
     "‹#[derive(Drop)]\n// cargo: ›#[derive(Clone)]\nstruct T;"),
    (dict(imports={"c::D": "e::D"}), "use ‹c::D›«e::D»; use c::{I, K};"),
    (dict(homes={"q": "find g"}), "«use q::find;\n»// why\nuse c::D; fn g() { find(x) }"),
    (dict(homes={"q": "find"}), "«use q::find;\n»pub use q::l; fn f() { find() }"),
    (dict(homes={"q": "find Big g h D"}), "use q::‹k›«{Big, find, k}»; pub use q::l; "
     "use c::D; fn f(d: D) { find::<u8>(k); Big; a.g(); g } fn h() { h() }"),
    ({}, "‹// cargo: ›use crate::adapter::d;\n‹// cargo: ›pub use ::e; use crate::«a::»f;"),
    ({}, "fn f(k: «crate::»b::K) { «crate::»b::g(«crate::»b::h::<«crate::»b::I>(), c::b::J) }"),
    ({}, "#[derive(Debug«, Clone»)] pub struct S<A> { a: A }\n‹// goes\nimpl<A: B> Clone for S<A> "
     "{ fn clone(&self) -> Result<Self, AllocError> { self.a } }› «#[derive(Clone)]» struct T; "
     "‹impl Clone for T {}› ‹impl Clone for U {}› impl Copy for T {}"),
    ({}, "fn f() {} impl<A: Allocator> V<A> { «#[inline]» pub(crate) const fn f() {} "
     "fn g<T>() {} #[inline(never)]\n/// H.\nfn h() {} «#[inline]» #[allow(a)] fn i() {} } "
     "fn i() {}"),
    (dict(homes={"c": "find"}), "«use c::find;\n»‹// cargo: ›#[cfg(m)]\n"
     "use c::D; fn f(d: D) { find() }"),
    ({}, "//! ```\n//! # a;\n//! f(‹alloc›);\n//! ```\n\n/// F.\nfn f() {}"),
    ({}, "‹//! ```rattle\n//! f();\n//! ```\n\n›"
     "/// F.\n‹///\n/// ```rattle\n/// f();\n/// ```\n›/// G.\nfn f() {}"),
    (dict(rules=[("$x.b", "k($x)")]), "fn f() { ‹g\n.b›«k(g)»; }"),
    ({}, "fn f() { ‹a[b..].first_chunk::<2>()›«first_chunk::<2>(&a[b..])»; "
     "‹a.first_chunk::<2>()›«first_chunk::<2>(a)»; "
     "a.‹is_sorted()›«windows(2).all(|pair| pair[0] <= pair[1])»; }"),
    ({}, "fn f() { ‹let A(x) = g(1) else {\n// why\nreturn };›"
     "«let x = match g(1) { A(x) => x, _ => {\n// why\nreturn } };»"
     "‹let B(y) = h else { break; };›«let y = match h { B(y) => y, _ => break, };» "
     "‹let C(z) = i else { j(); k };›«let z = match i { C(z) => z, _ => { j(); k } };» }"),
    # bodies that stay as they are
    *(({}, text) for text in (
        "fn f() -> Option<u8> { let x = *g(); h()?; Some(x) }", "fn f() { !x >= 1 && x <= 5 }",
        "fn f() { (a % 32) as u32 + match g(b) { Ok(c) => c, Err(_) => return 1, } }"))]


def test_only_ghosts_and_tests_are_erased():
    assert "".join(token.text for token in split(TRAPS)) == TRAPS
    before, after = split_marked(TRAPS)
    text, tests, _ = erase(before, "a", "a/x", make_plan())
    assert words_of(text) == words_of(after)
    assert tests == {"a/x/cases", "a/x/tests"}


@pytest.mark.parametrize("entries, marked", TEXTS, ids=[
    " ".join(re.sub("[‹›«»]", "", marked).split())[:50] for _, marked in TEXTS])
def test_what_is_erased_has_no_difference(entries, marked):
    """What the eraser writes has no difference for the tool that shares no rule with it."""
    (before, after), of_test = split_marked(marked), make_plan(**entries)
    assert words_of(erase(before, "a", "a/x", of_test)[0]) == words_of(after)
    write("crates/a/src/x.rt", before)
    write("o/a/x.rs", after)
    status, output = Tool("check_erased", PLANS=(of_test,), REPEATED={}).run()
    # what only a rule of this plan changes is none of the differences that check_erased knows
    expected = 1 if "rules" in entries else 0
    assert status == expected, output


@pytest.mark.parametrize("text, line", [
    ("\n#[test]\nfn f() {}\n", 2), ("fn f() {}\n#[derive(Clone, Ghostly)]\nstruct S;\n", 2),
    ("fn f() {}\nuse std::thread;\n", 2), ("\n/* a */\n", 2), ("\nfn f() { std::mem::g() }\n", 2),
    ("\nfn f()\n    ensures { { }\n{}\n", 3), ("ghost use A\n", 1), ("\nfn f() { \"x }\n", 2),
    ("fn f() { (\n", 1), ("\nfn f()\n", 2), ("\n/// ```\nfn f() {}\n", 2),
    # marks, and what is below them, in the line of the source
    ("\n// cargo inlines: a\n", 2), ("\n// Cargo: a\n", 2), ("\n/// proof: a\nfn f() {}\n", 2),
    ("\n// cargo lacks:\nfn f() {}\n", 2), ("// cargo instead: a\n// cargo: b\nc\n#[test]\n", 4)])
def test_a_refusal_has_its_line(text, line):
    with pytest.raises(Refused) as caught:
        erase(text, "a", "a/x", make_plan())
    assert (caught.value.line or 1) == line, caught.value


@pytest.mark.parametrize("is_reversed", [False, True])
def test_files_of_tests_and_laws_are_not_written(is_reversed):
    made = {"a": {"y/tests.rt": "#[x]", "x.rt": "#[x]", "y.rt": "#[cfg(test)] mod tests;",
                  "lib.rt": "#[cfg(test)] mod x; #[cfg(test)] mod c; mod y; mod z;\n"
                  "// cargo lacks: why\nmod left;", "z.rt": "pub mod laws;",
                  "z/lib.rt": "", "z/laws/b.rt": "#[x]", "c.rt": "#[x]", "c/d.rt": "#[x]",
                  "left.rt": "#[x]", "left/over.rt": "#[x]", "leftover.rt": ""},
            "b": {"main.rt": "#[cfg(test)] mod x; #[cfg(test)] mod c;", "x.rt": "#[x]",
                  "c.rt": "#[x]", "old.rt": "fn f() {}"}}
    ours = make_plan(conditions={"b": "x"}, allowed_lints=("y", "z"))
    files = write_crate(ours, lambda crate: dict(sorted(made[crate].items(), reverse=is_reversed)))
    assert sorted(files) == ["a/leftover.rs", "a/mod.rs", "a/y.rs", "a/z.rs",
                             "a/z/lib.rs", "b/mod.rs", "b/old.rs", "mod.rs"]
    assert files["b/old.rs"] == ("// Written by tools/erase from crates/b/src/old.rt: "
                                 "edit that one.\nfn f() {}\n")
    assert "#![allow(y, z)]\n" in files["mod.rs"]
    assert files["mod.rs"].splitlines()[-3:] == [
        "pub(crate) mod a;", "#[cfg(x)]", "pub(crate) mod b;"]


@pytest.mark.parametrize("entries", [
    dict(of_std={"gone": "b"}), dict(other_crates={"gone": "b"}), dict(imports={"gone": ""}),
    dict(homes={"b": "gone"}), dict(rules=[("gone", "")])])
def test_each_entry_is_needed(entries):
    with pytest.raises(Failure, match="what no file needs: gone"):
        write_crate(make_plan(**entries), lambda _crate: {"x.rt": "fn f() {}"})


@pytest.mark.parametrize("text, pattern, stays", [
    ("f(// why\nalloc)\n", "(alloc)", True), ("f(alloc)\n", "(alloc)", False),
    ("f(a; b)\n", "($$x)", True), ("f(a; b)\n", "($$$x)", False)])
def test_a_match_with_a_comment_stays(text, pattern, stays):
    source = Source(text)
    rewrite(source, pattern, "()")
    assert (source.join_text() == text) == stays
