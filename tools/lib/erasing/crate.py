"""The files of a Rust crate, from those of Rattle crates."""
from pathlib import PurePosixPath

from lib.erasing import marks, passes
from lib.erasing.imports import count_words, rename_paths, settle_imports
from lib.erasing.rules import GENERAL, OLDER, apply
from lib.erasing.source import Source
from lib.erasing.tokens import Refused

HEADER = "// Written by tools/erase from {origin}: edit that one.\n"

ROOT = """// Written by tools/erase from crates/: edit those.
//! The proved text.
"""

STYLE = """// The code has the form that is proved.
#![allow({})]
"""


class Failure(Exception):
    """Text that can't be erased, with its file and line."""


def read_files(top, crate):
    """Returns the files of a Rattle crate, by their paths below its `src`."""
    folder = top / "crates" / crate / "src"
    return {str(file.relative_to(folder)): file.read_text()
            for file in sorted(folder.rglob("*.rt"))}


def write_crate(plan, read_files):
    """Returns the files of a crate, by path below its folder. `read_files` answers those of a
    Rattle crate, by their paths below its `src`."""
    files, left, used = {"mod.rs": _write_root(plan)}, set(), set()
    for crate in plan.modules:
        # those that declare modules of tests, or without a form for cargo, come first
        for path, text in sorted(read_files(crate).items(), key=_rank):
            name = f"{crate}/{PurePosixPath(path).with_suffix('')}"
            if left & {str(parent) for parent in PurePosixPath(name, "_").parents}:
                continue
            try:
                erased, its_left, its_used = erase(text, crate, name, plan)
            except Refused as refused:
                where = f"crates/{crate}/src/{path}:{refused.line or 1}"
                raise Failure(f"{where}: {refused}") from None
            files[target_of(name)] = HEADER.format(origin=f"crates/{crate}/src/{path}") + erased
            left |= its_left
            used |= its_used
    if unused := {sought for sought, _ in plan.list_entries() - used}:
        raise Failure(f"the plan has what no file needs: {', '.join(sorted(unused))}")
    return files


def _rank(file):
    return file[0] not in ("lib.rt", "main.rt"), file[0].count("/")


def target_of(name):
    """Returns where a file of crates/ is written."""
    crate, _, rest = name.partition("/")
    return f"{crate}/mod.rs" if rest in ("lib", "main") else f"{crate}/{rest}.rs"


def _write_root(plan):
    style = [STYLE.format(", ".join(plan.allowed_lints))] * bool(plan.allowed_lints)
    lines = [ROOT, *style, "\n"]
    for name in plan.modules:
        if name in plan.conditions:
            lines.append(f"#[cfg({plan.conditions[name]})]\n")
        lines.append(f"pub(crate) mod {name};\n")
    return "".join(lines)


def erase(text, crate, name, plan):
    """Returns the Rust of a Rattle file, the modules that it declares and that aren't written, and
    the entries of the plan that it used."""
    source = Source(text)
    replaced = marks.put_lines(source)
    passes.drop_ghosts(source)
    left = passes.sort_attributes(source)
    before = count_words(source) + replaced
    left |= marks.drop_lacking(source)
    marks.give_defaults(source)
    passes.derive_clones(source)
    passes.join_derives(source)
    passes.inline(source)
    apply(source, plan.rules + GENERAL + OLDER)
    passes.complete_examples(source)
    rename_paths(source, crate, plan)
    settle_imports(source, crate, plan, before)
    folder = name.removesuffix("/lib").removesuffix("/main")
    return source.join_text(), {f"{folder}/{module}" for module in left}, source.used
