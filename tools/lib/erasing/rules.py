"""What becomes of expressions and signatures: patterns (patterns.py) and what replaces them."""
import re

from lib.erasing.patterns import rewrite

# What Rust lacks, or has without saying so.
GENERAL = [
    ("laws::$f();", ""),
    ("impl<$$x> Model for $$t {}", ""), ("impl Model for $$t {}", ""),
    # `T: Drop` says that a `T` may be let go, which Rust allows of all types: after these signs
    # `Drop` is always a bound
    ("+ Drop", ""), (": Drop", ""),
    # a `Formatter` of Rattle has its writer's type as a parameter
    ("<W: fmt::Write>", ""), ("Formatter<W>", "Formatter<'_>"),
]

# There is one allocator: its parameter `A`, and values `alloc` of it, which only constructors take,
# go. If something else had such a name, rustc would refuse a type or a call with one argument less
# than it is declared with, or a name that isn't declared.
ALLOCATORS = [
    ("<A: Allocator>", ""), (", A: Allocator>", ">"), (", A: Allocator + Copy>", ">"),
    (", A: Allocator, const", ", const"), (", A: Allocator + Copy, const", ", const"),
    ("<A>", ""), (", A>", ">"), (", A, >", ">"), (", A, N>", ", N>"),
    ("fn new(alloc: A,", "fn new("), ("fn new(alloc: A)", "fn new()"),
    ("::new(alloc,", "::new("), ("::new(alloc)", "::new()"),
    ("Vec::with_capacity(alloc,", "Vec::with_capacity("),
]

# What the oldest Rust lacks: `is_sorted`, `first_chunk`, `let .. else`, and ranges of patterns
# without their last number.
OLDER = [
    ("$v.is_sorted()", "$v.windows(2).all(|pair| pair[0] <= pair[1])"),
    ("$v$range.first_chunk::<$n>()", "first_chunk::<$n>(&$v$range)",
     lambda names: names["range"][0] == "["),
    ("$v.first_chunk::<$n>()", "first_chunk::<$n>($v)", lambda names: names["v"].isidentifier()),
    ("let $v($$p) = $$e else { $$$body };", lambda names: _write_match(**names)),
    ("$a..$b =>", lambda names: f"{names['a']}..={_decrement(names['b'])} =>",
     lambda names: names["b"][0].isdigit()),
]


def _write_match(v, p, e, body):
    is_short = re.match(r"(return|break)\b", body)
    arm = f"{body.rstrip(' ;')}," if is_short else f"{{ {body} }}"
    return f"let {p} = match {e} {{\n{v}({p}) => {p},\n_ => {arm}\n}};"


def _decrement(number):
    return hex(int(number, 0) - 1) if number.startswith("0x") else str(int(number, 0) - 1)


def apply(source, rules):
    for rule in rules:
        rewrite(source, *rule)
