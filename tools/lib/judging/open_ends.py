"""What is open at the end of a stream: the number that vte.h has for it, by the grammar.

It began at the last ESC, or is at most three bytes of a character.
"""
import re

NOTHING, CHARACTER, ESC, CSI, DCS, OSC, IGNORED = range(7)
# A body up to its end, by the first pattern that is found. CAN and SUB end each; before the key
# stands what isn't one.
BODIES = [(kind, re.compile(pattern, re.DOTALL)) for kind, pattern in (
    (CSI, rb"[^ -~\x18\x1a]*\[[^@-~\x18\x1a]*"),
    (OSC, rb"[^ -~\x18\x1a]*\][^\x07\x18\x1a]*"),
    (IGNORED, rb"[^ -~\x18\x1a]*[X^_][^\x18\x1a]*"),
    # the data of a well-shaped head: a marker, parameters, intermediates; then one of another head
    (DCS, rb"[^ -~\x18\x1a]*P[^ -~\x18\x1a]*[<-?]?[^ -/<-~\x18\x1a]*[^0-~\x18\x1a]*[@-~]"
          rb"[^\x9c\x18\x1a]*"),
    (IGNORED, rb"[^ -~\x18\x1a]*P[^@-~\x18\x1a]*[@-~][^\x18\x1a]*"),
    (DCS, rb"[^ -~\x18\x1a]*P[^@-~\x18\x1a]*"),
    (ESC, rb"[^ -~\x18\x1a]*([ -/][^0-~\x18\x1a]*)?"))]


# a character of which bytes are missing: no other begins inside one
TRUNCATED = re.compile(
    rb"([\xc2-\xdf]|\xe0[\xa0-\xbf]?|[\xe1-\xec\xee\xef][\x80-\xbf]?|\xed[\x80-\x9f]?"
    rb"|\xf0([\x90-\xbf][\x80-\xbf]?)?|[\xf1-\xf3]([\x80-\xbf][\x80-\xbf]?)?"
    rb"|\xf4([\x80-\x8f][\x80-\xbf]?)?)\Z")


def find_open_in_text(text):
    return CHARACTER if TRUNCATED.search(text) else NOTHING


def open_at_end(stream):
    text, escape, body = stream.rpartition(b"\x1b")
    if not escape:
        return find_open_in_text(body)
    kind, found = next((kind, found) for kind, pattern in BODIES if (found := pattern.match(body)))
    return kind if found.end() == len(body) else find_open_in_text(body[found.end() + 1:])
