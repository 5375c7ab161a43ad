"""The rules by which a stream has its events: what each says, what binds a parser, where it stands,
and the source.

The name of a rule is the first half of the name of a class. vectors/events.json goes from general
rules to special ones: a difference belongs to the most special rule that its smallest stream needs.
The levels:

- must: a standard says shall or must, in the sentence that the source quotes
- should: a standard or the VT500 parser, which terminals follow, has it so
- differs: a choice of the crate `vte`, others are as good

A class has the level of its rule, with three exceptions that are must: no answer, a difference that
depends on a cut, and malformed text that is read as characters, or with the bytes after it.
"""
import json
from typing import NamedTuple

from lib.files import TOP

MUST, SHOULD, DIFFERS = LEVELS = ("must", "should", "differs")


class Rule(NamedTuple):
    """What a rule says, its level, its page with the heading, and its source."""

    says: str
    level: str
    page: str
    source: str


FILE = json.loads((TOP / "vectors/events.json").read_text())
# vectors of other kinds also name rules of what is made of events
OF_EVENTS = {name for vector in FILE["vectors"] + FILE["long"] if vector["kind"] == "events"
             for name in vector["rules"]}
RULES = {name: Rule(**rule) for name, rule in FILE["rules"].items() if name in OF_EVENTS}
# how many U+FFFD stand for what is malformed is recommended; what Unicode demands is in the sources
MALFORMED = ("unfinished", "malformed", "surrogate", "overlong")
# cuts, and what isn't about a rule of streams
CUT = Rule("The events of a stream don't depend on how it is cut into chunks.", MUST,
           "docs/EVENTS.md#prefixes-and-resynchronisation", "each cut must give the same")
ALONE = {
    "not-deterministic": Rule("A stream has the same events each time.", MUST,
                              "docs/EVENTS.md#events", "each run must give the same"),
    "kept-state": Rule("The events of a stream don't depend on the streams before it.", MUST,
                       "docs/EVENTS.md#events",
                       "docs/JUDGE.md: each stream must have a new parser"),
    "protocol": Rule("A program prints one line per event, and nothing else.", MUST,
                     "docs/EVENTS.md#events-and-their-lines",
                     "docs/JUDGE.md: it must answer each stream"),
}
ORDER = {name: index for index, name in enumerate(RULES)}


def find_most_special(names):
    return max(names, key=ORDER.__getitem__)
