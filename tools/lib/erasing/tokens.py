"""Splits Rattle or Rust source text into tokens."""
import re
from typing import NamedTuple

SPACE, COMMENT, STRING, CHARACTER = "space", "comment", "string", "character"
WORD, LIFETIME, NUMBER, SIGN = "word", "lifetime", "number", "sign"
# what only the prover reads: a contract's clause, and a ghost item or statement
CLAUSE, GHOST = "clause", "ghost"

TOKEN = re.compile(
    r"""
    (?P<space>\s+)
  | (?P<comment>//[^\n]*)
  | (?P<string>
        [bc]?r(?P<hashes>\#*)"(?s:.*?)"(?P=hashes)
      | [bc]?"(?:[^"\\]|\\(?s:.))*"
    )
  | (?P<character>b?'(?:[^'\\\n]|\\u\{[^}]*\}|\\x[0-9a-fA-F]{2}|\\.)')
  | (?P<word>[^\W\d]\w*)
  | (?P<lifetime>'\w+)
  | (?P<number>\d\w*(?:\.\d\w*)?)
  | (?P<sign>\S)
    """,
    re.VERBOSE,
)
# a function's clause that names a ghost value, which the next clause follows
GHOST_VALUE = re.compile(r"ghost \w+: \{[^{}]*\}(?=\s+(?:ghost|requires|ensures)\b)")
# of ghost text a string, a comment, or a sign
GHOST_TOKEN = re.compile(r'"(?:[^"\\]|\\(?s:.))*"|(?://|-- )[^\n]*|["{};,]')


class Refused(Exception):
    """Text that a tool can't read, and the line where it stands."""

    def __init__(self, message, line=None):
        super().__init__(message)
        self.line = line


class Token(NamedTuple):
    kind: str
    text: str
    line: int

    @property
    def is_blank(self):
        return self.kind in (SPACE, COMMENT)


def split(text):
    """Returns the tokens of a file. Their texts, joined, are the file."""
    tokens, at, line = [], 0, 1
    while at < len(text):
        try:
            kind, end = _read_token(text, at)
        except Refused as refused:
            raise Refused(str(refused), line) from None
        tokens.append(Token(kind, text[at:end], line))
        line += text.count("\n", at, end)
        at = end
    return tokens


def _read_token(text, at):
    """Returns the kind and the end of the token at an index."""
    if text.startswith("/*", at):
        raise Refused("a comment of several lines")
    found = TOKEN.match(text, at)
    kind = STRING if found.lastgroup == "hashes" else found.lastgroup
    if kind == SIGN and found[0] in ('"', "'"):
        raise Refused(f"unclosed quote: {found[0]}")
    if kind == WORD and found[0] == "ghost":
        value = GHOST_VALUE.match(text, at)
        return (CLAUSE, value.end()) if value else (GHOST, _find_ghost_end(text, found.end(), ";,"))
    if kind == WORD and found[0] in ("requires", "ensures"):
        return CLAUSE, _find_ghost_end(text, found.end(), "}")
    return kind, found.end()


def _find_ghost_end(text, at, stops):
    """Finds where ghost text ends: after one of `stops` outside braces. It isn't Rust, so only its
    braces, strings and comments are looked at."""
    depth = 0
    for found in GHOST_TOKEN.finditer(text, at):
        token = found[0]
        if token == '"':
            raise Refused("a quote that isn't closed in ghost text")
        depth += (token == "{") - (token == "}")
        if depth < 0:
            raise Refused("ghost text that closes a brace it hasn't opened")
        if depth == 0 and token in stops:
            return found.end()
    raise Refused("ghost text that isn't closed")
