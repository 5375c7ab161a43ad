"""What patterns can't say: contracts, ghosts, attributes, clones and examples."""
from lib.erasing.tokens import CLAUSE, GHOST, SPACE, WORD

# The derives that Rust knows by the same name. `Drop` isn't one: it says that values may be let go.
DERIVES = {"Clone", "Copy", "Debug", "Default", "Eq", "Hash", "Ord", "PartialEq", "PartialOrd"}
SERDE = {"Serialize", "Deserialize"}
# The attributes that mean to rustc what they mean to Rattle.
KEPT_ATTRIBUTES = {"allow", "cfg", "default", "doc", "inline", "must_use", "repr"}
INLINE = "#[inline]"


def drop_ghosts(source):
    """Removes contracts, with the comments above them, ghost members and imports, with their docs.
    """
    for at in reversed(range(len(source.tokens))):
        if source.kind(at) == CLAUSE:
            start = source.find_before(at) + 1
            source.replace(start, at + (source.kind(at + 1) == SPACE),
                           "" if source.is_sign(source.find_after(at), ";") else " ")
        elif source.kind(at) == GHOST:
            source.cut(source.find_attached(source.find_visibility(at)), at)


def sort_attributes(source):
    """Tactics go, tests go with their items, derives keep what Rust can derive. Any other attribute
    is refused.

    Returns the names of the modules of tests.
    """
    tests = set()
    for at in source.find_all("#[cfg(test)]"):
        item = source.skip_visibility(source.find_after(source.find_attribute_end(at)))
        if source.is_word(item, "mod"):
            tests.add(source.text(source.find_after(item)))
        source.cut(at, source.find_item_end(item))
    for at in source.find_all("#"):
        if (end := source.find_attribute_end(at)) is None:
            continue
        name, *rest = [source.text(index) for index in range(at, end) if source.kind(index) == WORD]
        if name == "tactic" or "no_mangle" in rest:
            source.cut(at, end)
        elif name == "derive":
            _derive(source, at, end, rest)
        elif name not in KEPT_ATTRIBUTES:
            source.refuse(f"unknown attribute: {name}", at)
    return tests


def _derive(source, at, end, names):
    """Keeps the names that rustc knows; Serde's get a condition."""
    if unknown := set(names) - DERIVES - SERDE - {"Drop"}:
        source.refuse(f"unknown derive: {', '.join(unknown)}", at)
    plain, serde = (", ".join(name for name in names if name in known)
                    for known in (DERIVES, SERDE))
    lines = [f"#[derive({plain})]"] * bool(plain)
    lines += [f'#[cfg_attr(feature = "serde", derive({serde}))]'] * bool(serde)
    if lines:
        source.replace(at, end, "\n".join(lines))
    else:
        source.cut(at, end)


def derive_clones(source):
    """Clones can be refused memory in Rattle. Here they are derived: rustc copies the same fields,
    and those that are vectors have as much memory."""
    for at in source.find_all("Clone for"):
        first, end = next((first, end) for first, end in source.find_items() if first < at < end)
        name = source.text(source.find_after(source.find_after(at)))
        source.cut(source.find_attached(first), end)
        for struct in source.find_all(f"struct {name}"):
            source.insert(source.find_visibility(struct), "#[derive(Clone)]\n")


def join_derives(source):
    """The derives of an item stand in one attribute."""
    for at in source.find_all("#[derive"):
        above = next((index for index in range(at - 1, source.find_attached(at) - 1, -1)
                      if source.read_words(index, 3) == ["#", "[", "derive"]), None)
        if above is not None:
            end = source.find_attribute_end(at)
            names = source.text_between(at + 4, source.find_before(source.find_before(end)))
            source.cut(at, end)
            source.insert(source.find_before(source.find_attribute_end(above)), f", {names}")


def inline(source):
    """The functions of an impl whose only parameter is the allocator, which goes, may still be
    inlined into other crates."""
    for at in source.find_all("impl<A: Allocator>"):
        for index in range(source.find_item_end(at), at, -1):
            before = source.find_before(index)
            start = source.find_visibility(before if source.is_word(before, "const") else index)
            is_generic = source.is_sign(source.find_after(source.find_after(index)), "<")
            above = source.find_attached(start)
            is_said = "inline" in source.text_between(above, start)
            if source.is_word(index, "fn") and not is_generic and not is_said:
                source.insert(source.find_solid(above), f"{INLINE}\n")


def complete_examples(source):
    """The examples of docs take no allocator. Those for Rattle go, with the empty line before."""
    fences = [at for at, token in enumerate(source.tokens) if token.text[3:].strip()[:3] == "```"]
    if len(fences) % 2:
        source.refuse("an example that isn't closed", fences[-1])
    for opened, closed in reversed([*zip(fences[::2], fences[1::2])]):
        if source.text(opened).endswith("```rattle"):
            is_apart = source.text(opened - 2) == source.text(opened)[:3]
            source.cut(opened - 2 * is_apart, closed)
            continue
        for at in range(opened, closed):
            text = source.text(at).replace("(alloc)", "()")
            source.tokens[at] = source.tokens[at]._replace(text=text)


def add_above(source, lines):
    """Puts lines above the first item."""
    at = [*source.find_items()][-1][0]
    is_apart = not source.is_word(source.skip_visibility(at), "use", "mod")
    source.insert(source.find_attached(at), lines + "\n" * (1 + is_apart))
