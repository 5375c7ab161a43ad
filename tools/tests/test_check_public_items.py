"""Tests of which differences tools/check_public_items finds."""
import re
import subprocess

from lib.testing.missing import miss
from lib.testing.support import Tool, write

ITEMS = """pub fn f(a: u8) -> u8 { a }
pub struct S<A> { pub b: A, pub c: u8 }
impl<A> S<A> { pub fn g(&self, d: u8) {} }
impl<A: Clone> Clone for S<A> { fn clone(&self) -> Self { todo!() } }
pub const N: u8 = 1;
pub type Y = u8;
pub trait T { fn h(&self); fn i(&self) {} }
pub enum E { I(u8) }
"""
# an edit of these, and the item in which it differs
EDITS = [("f(a: u8)", "f(b: u8)", None), ("f(a: u8)", "f(a: u16)", "f"), ("-> u8 { a", "{ ", "f"),
         ("S<A> { pub b: A", "S<A> { b: A", "S::b"), ("pub c: u8", "pub c: u16", "S::c"),
         ("d: u8", "d: u16", "S::g"), ("&self, d", "self, d", "S::g"), ("u8 = 1", "u8 = 2", "N"),
         (re.search("impl<A: Clone.*", ITEMS)[0], "", "S: Clone"), ("Y = u8", "Y = u16", "Y"),
         ("h(&self);", "h(&self) {}", "T::h"), ("I(u8)", "I(u16)", "E::I"),
         ("pub enum E { I(u8) }", "", "E"), ("pub struct S<A>", "#[repr(C)] pub struct S<A>", "S")]


def test_which_public_items_differ(folder):
    version = subprocess.run(["rustdoc", "--version"], capture_output=True, text=True).stdout
    if " 1.95." not in version:
        miss("rustdoc 1.95, whose pages tools/check_public_items reads")
    texts = [ITEMS, *(ITEMS.replace(old, new) for old, new, _ in EDITS)]
    write("lib.rs", "\n".join(f"pub mod m{at} {{ {text} }}" for at, text in enumerate(texts)))
    subprocess.run(["rustdoc", "lib.rs", "--crate-name", "vte", "-o", "doc"], check=True)
    found = Tool("check_public_items").parts["read_pages"](folder / "doc/vte")
    sides = [{path.partition("::")[2]: text for path, text in found.items()
              if path.startswith(f"m{at}::")} for at in range(len(texts))]
    for (old, new, item), side in zip(EDITS, sides[1:]):
        texts = {path: text for path, text in sides[0].items() if text != side.get(path)}
        assert [*texts][:1] == [item] * bool(item), (old, new, texts)
