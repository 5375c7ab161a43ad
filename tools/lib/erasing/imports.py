"""Imports, and the roots of paths: a crate's own modules, Rust's std and the prelude."""
from collections import Counter

from lib.erasing.passes import add_above
from lib.erasing.tokens import WORD

# What is by hand in a crate for cargo, as marks name it.
BY_HAND = ("adapter::", "prelude::")
# Modules of std that Rust's `core` has with the same meaning.
OF_CORE = {"cmp", "fmt", "iter", "marker", "mem", "ops", "str", "time"}


def count_words(source):
    """Counts how often each word stands in a file outside its imports."""
    imports = {index for at, end in source.find_items()
               if source.is_word(source.skip_visibility(at), "use") for index in range(at, end)}
    return Counter(token.text for index, token in enumerate(source.tokens) if index not in imports)


def rename_root(source, at, path, crate, plan):
    """Returns a path with its root in the Rust crate."""
    root, _, rest = path.partition("::")
    if root == "std":
        module, _, rest = rest.partition("::")
        if module not in OF_CORE and module not in plan.of_std:
            source.refuse(f"unknown module of std: {module}", at)
        root = f"core::{module}" if module in OF_CORE else plan.of_std[module]
        source.used.add((module, root))
    elif not (root == "crate" and rest.startswith(BY_HAND)):
        roots = {**plan.modules, **plan.other_crates, "crate": plan.modules[crate]}
        source.used.add((root, roots.get(root)))
        root = roots.get(root, root)
    return f"{root}::{rest}" if rest else root


def rename_paths(source, crate, plan):
    """Renames the roots of paths outside of imports. Links in docs stay."""
    imports_str = any(path.endswith("std::str") for at, end in source.find_items()
                      for _, path in find_imports(source, at, end))
    for at in reversed(range(len(source.tokens))):
        before = source.find_before(at)
        is_inner = source.is_sign(before, ":") and source.is_sign(before - 1, ":")
        if source.kind(at) != WORD or source.read_words(at, 3)[1:] != [":", ":"] or is_inner \
                or source.is_word(before, "use"):
            continue
        if source.text(at) == "str" and not imports_str:
            # as a method of the type it is newer than our oldest Rust
            source.replace(at, at, "core::str")
        else:
            source.replace(at, at, rename_root(source, at, source.text(at), crate, plan))


def find_imports(source, at, end):
    """Finds the names that an item imports, if it does: pairs of a visibility and a path."""
    word = source.skip_visibility(at)
    if not source.is_word(word, "use"):
        return []
    path = "".join(token.text for token in source.tokens[word + 1:end] if not token.is_blank)
    root, _, listed = path.rstrip("},").partition("{")
    return [(source.text_between(at, word - 1), root + name) for name in listed.split(",")]


def settle_imports(source, crate, plan, before):
    """Imports of names that aren't used any more go; what is used now is imported from its home."""
    known = _keep_used(source, crate, plan, before)
    needed = [(name, home) for name, home in plan.list_names()
              if name not in known and _uses(source, name)]
    source.used.update(needed)
    homes = _join(source, [f"{home}::{name}" for name, home in needed])
    if homes:
        _import_first(source, homes)


def _keep_used(source, crate, plan, before):
    """Cuts imports of names that aren't used any more. Returns the names of the others."""
    used, known = count_words(source), set()
    for at, end in source.find_items():
        if not (names := find_imports(source, at, end)):
            continue
        paths = []
        for visibility, path in names:
            name = path.rpartition("::")[2]
            source.used.add((path, plan.imports.get(path)))
            if visibility or used[name] or not before[name]:
                paths.append(plan.imports.get(path) or rename_root(source, at, path, crate, plan))
                known.add(name)
        if paths:
            source.replace(at, end, _write_imports(names[0][0], paths))
        else:
            source.cut(source.find_attached(at), end)
    return known


def _join(source, homes):
    """Adds paths to the imports of their modules. Returns those whose modules have none."""
    for at, end in source.find_items():
        names = find_imports(source, at, end)
        modules = {path.rpartition("::")[0] for visibility, path in names if not visibility}
        joined = [home for home in homes if home.rpartition("::")[0] in modules]
        # one with an attribute has a condition
        if joined and not source.is_sign(source.find_before(at), "]"):
            source.replace(at, end, _write_imports("", [path for _, path in names] + joined))
            homes = [home for home in homes if home not in joined]
    return homes


def _import_first(source, homes):
    """Imports paths above the other imports, or above the first item."""
    *_, first = None, *(at for at, end in source.find_items() if find_imports(source, at, end))
    if first is None:
        add_above(source, _write_imports("", homes))
    else:
        source.insert(source.find_attached(first), _write_imports("", homes) + "\n")


def _uses(source, name):
    """Whether a file uses a type or calls a function of another module."""
    indices = source.find_all(name)
    declaring = "fn", "struct", "trait", "enum"
    if any(source.is_word(source.find_before(at), *declaring) for at in indices):
        return False
    for at in indices:
        before, following = source.text(source.find_before(at)), source.text(source.find_after(at))
        is_generic = following == ":" and source.read_words(at, 4)[3] == "<"
        if before != "." and (name[0].isupper() or following in ("(", "!") or is_generic):
            return True
    return False


def _write_imports(visibility, paths):
    """Returns the imports of these paths: one for each module."""
    groups = {}
    for path in paths:
        root, sign, name = path.rpartition("::")
        groups.setdefault(root + sign, []).append(name)
    listed = {root: names[0] if len(names) == 1 else "{" + ", ".join(sorted(names)) + "}"
              for root, names in groups.items()}
    return "\n".join(f"{visibility}use {root}{names};" for root, names in listed.items())
