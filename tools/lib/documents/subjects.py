"""Checks of the pages that must name all of something, or only what is there: tools/check_docs says
of what."""
import re

from lib.documents import NAME
from lib.generating.calls import TRAIT, calls_of

# the modules that begin an entry of a list
LISTED = re.compile(r"- (`[A-Z]\w*`(?:,\s+`[A-Z]\w*`)*)")
# in a section about crates: the names that begin an entry of a list, and what it says of them
ENTRY = re.compile(r"^- ((?:`[\w/]+`,\s+)*`[\w/]+`):(.*(?:\n  .*)*)", re.M)
MODULE = re.compile(r"`([a-z_]+(?:/[a-z_]+)*)`")
IMPORTED = re.compile(r"\bRattle\.(\w+)\.specs\.(\w+)")
EXAMPLES = "crates/vte/specs/CallExamples.antt"


def list_modules(text):
    """Yields the crates and names of the modules that begin entries of lists, in order."""
    crate = ""
    for entry in re.split(r"\n(?=- |\n)", text):
        crate = (re.findall(r"`crates/(\w+)/specs`", entry) or [crate])[0]
        yield from ((crate, name) for name in re.findall(r"\w+", (LISTED.match(entry) or [""])[0]))


def check_modules(text, repository):
    modules = {(path.parts[1], path.stem): path for path in repository.paths
               if path.match("crates/*/specs/*.antt") and path.stem not in ("Lib", "private")
               and path.parts[1] not in ("examples", "test_lines")}
    named = {*re.findall(r"`(\w+)`", text)}
    yield from (f"this module has no name here: {path}" for (_, name), path in modules.items()
                if name not in named)
    listed = set()
    for crate, name in list_modules(text):
        listed.add((crate, name))
        if path := modules.get((crate, name)):
            imports = {*IMPORTED.findall((repository.top / path).read_text())} & modules.keys()
            yield from (f"{name} imports {late[1]} of {late[0]}, which isn't listed before it"
                        for late in sorted(imports - listed))
        else:
            yield f"no such module of {crate}: {name}"


def check_clauses(text, repository):
    clauses = repository.clauses
    for section in re.split(r"(?m)^#+ ", text):
        named = re.findall(r"\w+", " ".join(re.findall(r"`([^`]+)`", section)))
        known = clauses.keys() | set().union(*(clauses.get(name, ()) for name in named))
        asides = " ".join(re.findall(r"\(([^()]*)\)", section))
        for span in re.findall(r"`([^`]+)`", asides):
            if NAME.fullmatch(span) and not repository.is_path(span):
                yield from (f"no module, definition, or clause of what the section names: {name}"
                            for name in re.findall(r"\w+", span) if name not in known)


def check_parts(text, repository):
    for section in re.split(r"(?m)^## ", text):
        crates = re.findall(r"`(\w+)`", section.partition("\n")[0])
        sources = {path.with_suffix("").parts[3:]: source
                   for path, source in repository.sources.items()
                   if path.parts[:1] + path.parts[2:3] == ("crates", "src")
                   and path.parts[1] in crates}
        # a module has its path, or the end of it
        modules = {"/".join(path[start:]) for path in sources for start in range(len(path))}
        functions = {*re.findall(r"\bfn (\w+)", "\n".join(sources.values()))}
        named = [head + (rest if head[1:-1] in crates else "")
                 for head, rest in ENTRY.findall(section)] if crates else []
        asides = re.findall(r"\(([^()]*)\)", section) if crates else []
        for names, known in (named, modules.union(crates)), (asides, modules | functions):
            yield from (f"no such part of {', '.join(crates)}: {name}"
                        for name in MODULE.findall(" ".join(names)) if name not in known)


def check_calls(text, repository):
    examples = (repository.top / EXAMPLES).read_text()
    for call in calls_of((repository.top / TRAIT).read_text()).values():
        if call.method != "newline":
            if not re.search(rf"`{call.method}\b", text):
                yield f"this call has no name here: {call.method}"
            if not re.search(rf"\b{call.variant}\b", examples):
                yield f"{EXAMPLES} doesn't have {call.variant}"


SUBJECTS = {"REVIEWING.md": check_modules, "CALLS.md": check_calls, "PROMISES.md": check_clauses,
            "ARCHITECTURE.md": check_parts}
