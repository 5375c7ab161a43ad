"""The functions of a crate, by the names that the prover gives them: its answers' folders."""
import re
from functools import cache

# the head of a block that functions belong to, or that of a function
HEAD = re.compile(r"^(?:[\w()]+ )*(?:impl|trait)\b([^{]*)\{|^( *)(?:[\w()]+ )*fn (\w+)", re.M)
TYPE = re.compile(r"(?:(?:\w+::)*(\w+)\s+for\s+)?(?:&\S* )?(?:\w+::)*(\w+)")
DEFINED = re.compile(r"^(?:[\w()]+ )*(?:struct|enum|trait) (\w+)", re.M)
ATTRIBUTE = re.compile(r"\s*(#\[|//)")


def type_in(head):
    """Returns the type and the trait, if any, in the head of a block."""
    head, inner = head.replace("->", ""), 1
    while inner:
        head, inner = re.subn(r"<[^<>]*>", "", head)
    found = TYPE.match(head.strip())
    return found[2], found[1] or ""


def functions_in(text):
    """Yields the line, the name, the type and the trait of each function of a source."""
    block = None
    for head in HEAD.finditer(text):
        if head[1] is not None:
            block = head[1]
        else:
            line = text.count("\n", 0, head.start()) + 1
            yield line, head[3], *(type_in(block) if head[2] and block else ("", ""))


def module_of(crate, file):
    path = file.relative_to(crate / "src").with_suffix("").parts
    return path[:-1] if path[-1] in ("lib", "main") else path


@cache
def modules_of_types(crate):
    """Returns the module of each type that a crate defines."""
    return {name: module_of(crate, file) for file in sorted(crate.glob("src/**/*.rt"))
            for name in DEFINED.findall(file.read_text())}


def name_of(module, function, of_type, trait):
    return "::".join([*module, *([of_type + trait] if of_type else []), function])


@cache
def functions_of(crate):
    """Returns the names of the functions of a crate, by their type's module and by their own."""
    return {name_of(module, *function) for file in crate.glob("src/**/*.rt")
            for _, *function in functions_in(file.read_text())
            for own in [module_of(crate, file)]
            for module in (own, modules_of_types(crate).get(function[1], own))}


def function_at(crate, path, line):
    """Returns the name of the function at a line of a source, or of that below an attribute."""
    text = (crate / path).read_text()
    lines = text.splitlines()
    while line < len(lines) and ATTRIBUTE.match(lines[line - 1]):
        line += 1
    found = [function for start, *function in functions_in(text) if start <= line]
    if not found:
        return None
    module = module_of(crate, crate / path)
    return name_of(modules_of_types(crate).get(found[-1][1], module), *found[-1])
