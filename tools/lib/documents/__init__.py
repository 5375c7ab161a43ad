"""What documents name: the parts of a page, and the files, sources and history of a repository."""
import re
import subprocess
from collections import defaultdict
from functools import cache, cached_property
from pathlib import Path

from lib.files import list_files

SOURCES = {".rt", ".antt", ".rs", ".py", ".h", ".hpp", ".c", ".cpp", ".sh", ".toml", ".txt",
           ".edit", ""}
NAME = re.compile(r"[A-Za-z_]\w*(?:(?:::|\.)[A-Za-z_]\w*)*(?:\(\)|!)?")
FILE = re.compile(r"[\w*-][\w.*-]*")
PATH = re.compile(r"[\w.*-]*/[\w.*/-]*")
BUILT = re.compile(r"(^|/)(out|target)/|\b[A-Z]{4,}\b")
# a name after a word that declares it in Rust and Rattle: a definition's, and one that is in it
DEFINED = re.compile(r"\b(?:record|data|fn|mod|struct|enum|trait|const|static|type|abbrev(?: pub)?)"
                     r"\s+(?!fn\b)(\w+)")
CLAUSE = re.compile(r"\b(?:pub|ensures\*?|requires|ghost)\s+(\w+)")
DECLARING = re.compile(r"(crates|rust)/\w+/(src|specs)/")


class Page:
    """A Markdown page, as text outside its blocks and a list of blocks."""

    def __init__(self, path):
        self.path = path
        self.prose = []  # (line number, text)
        self.blocks = []  # (line number of the first line, info string, lines)
        fence = None
        for number, line in enumerate(path.read_text().splitlines(), 1):
            if line.lstrip().startswith("```"):
                if fence is None:
                    fence = (number + 1, line.strip("` "), [])
                else:
                    self.blocks.append(fence)
                    fence = None
            elif fence is not None:
                fence[2].append(line)
            elif not line.startswith("    "):
                self.prose.append((number, line))

    def list_headings(self):
        for _, line in self.prose:
            if line.startswith("#"):
                title = re.sub(r"[^\w\- ]", "", line.lstrip("# ").lower())
                yield title.replace(" ", "-")


def strip_marks(line):
    """Returns a line without its indentation and without the mark of a doc comment, because
    examples there may be quoted too."""
    return line.strip().removeprefix("//! ").removeprefix("/// ").strip()


class Repository:
    """What the documents of a repository can name: its files, what stands in its sources, and its
    commits. Documents aren't sources."""

    def __init__(self, top):
        self.top = top
        self.is_in_history = cache(self.find_in_history)

    @cached_property
    def paths(self):
        """The files, from the top."""
        return [Path(path) for path in list_files(self.top)]

    @cached_property
    def sources(self):
        """The text of each source file."""
        return {path: (self.top / path).read_text(errors="replace") for path in self.paths
                if path.suffix in SOURCES and path.parts[0] != "docs"}

    @cached_property
    def source_lines(self):
        """The lines of all sources, without their marks."""
        return {strip_marks(line) for text in self.sources.values() for line in text.splitlines()}

    @cached_property
    def words_by_file(self):
        """The words of each source file, except comments, and of its path."""
        return [{*re.findall(r"\w+", re.sub(r"(?m)(^|\s)(--|//) .*", "", text)), *path.parts,
                 path.stem, path.suffix[1:]} for path, text in self.sources.items()]

    @cached_property
    def words(self):
        return set().union(*self.words_by_file)

    @cached_property
    def clauses(self):
        """The names of fields and clauses, by that of the module or the definition."""
        clauses = defaultdict(set)
        for path, text in self.sources.items():
            if DECLARING.match(str(path)):
                code = re.sub(r"(--|//).*", "", text)
                parts = DEFINED.split(code)
                for name, part in [*((folder, "") for folder in path.parts), (path.stem, code),
                                   *zip(parts[1::2], parts[2::2])]:
                    clauses[name].update(CLAUSE.findall(part))
        return clauses

    @cached_property
    def lemmas(self):
        """The names that proofs declare."""
        return {name for path, text in self.sources.items() if path.parts[2:3] == ("proofs",)
                for name in re.findall(r"(?m)^ *(?:pub )?([\w-]+) :", text)}

    @cached_property
    def suffixes(self):
        return {path.suffix for path in self.paths if path.suffix[1:].isalpha()}

    def is_path(self, span):
        """Whether a code span is a path in here, not an absolute one or a build output."""
        is_file = Path(span).suffix in self.suffixes and FILE.fullmatch(span)
        return bool((is_file or PATH.fullmatch(span)) and not BUILT.search(span)
                    and not span.startswith("/") and re.search(r"[a-z]", span))

    def has_path(self, span):
        """Whether a path exists: from the top, or as the end of the path of a file or folder, with
        or without its suffix."""
        named = re.escape(span.removeprefix("./").strip("/")).replace(r"\*", "[^/]*")
        pattern = re.compile(rf"(?:.*/)?{named}(?:\.\w+)?(?:/.*)?")
        return any(pattern.fullmatch(str(path)) for path in self.paths)

    def run_git(self, *words):
        return subprocess.run(["git", *words], cwd=self.top, capture_output=True, text=True)

    def find_in_history(self, commit):
        """Whether HEAD stands on a commit, as every one does if this is no full clone."""
        return (self.run_git("merge-base", "--is-ancestor", commit, "HEAD").returncode == 0
                or not self.has_history())

    def has_history(self):
        """Whether this is a full clone."""
        return self.run_git("rev-parse", "--is-shallow-repository").stdout == "false\n"

    def list_history(self):
        """Returns the commits, the newest first, and how many are newer than the last change of a
        file, by its path from the top."""
        commits, last_changes = [], {}
        log = self.run_git("log", "--topo-order", "--format=commit %H", "--name-only").stdout
        for line in filter(None, log.splitlines()):
            if line.startswith("commit "):
                commits.append(line.removeprefix("commit "))
            else:
                last_changes.setdefault(line, len(commits) - 1)
        return commits, last_changes
