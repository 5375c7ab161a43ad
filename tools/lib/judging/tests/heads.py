"""The head of a vector, as the definition of events gives it: rules, levels and house rules."""
import re

from lib.generating.vectors import bytes_of, chunks_of
from lib.judging import definition
from lib.judging.house import CHOICES, House
from lib.judging.rules import LEVELS, MUST, RULES

# of each kind, the rule that stands before those of its stream
FIRST_RULE = {"text": "plain-text", "updates": "updates", "stops": "stops",
              "colour": "colour-text", "number": "number-text"}
LINE = re.compile(r"(csi|esc|execute)(?: \[.*?\])?(?: (\S+) (?:true|false))? (\S\S)")
# control functions by what is sent: executed; and after ESC or CSI intermediates and a final byte
FUNCTIONS = {
    "execute": {"\a": "BEL", "\b": "BS", "\t": "HT", "\n": "LF", "\v": "VT", "\f": "FF",
                "\r": "CR", "\x0e": "SO", "\x0f": "SI", "\x1a": "SUB"},
    "esc": {"7": "DECSC", "8": "DECRC", "#8": "DECALN", "=": "DECKPAM", ">": "DECKPNM", "D": "IND",
            "E": "NEL", "H": "HTS", "M": "RI", "Z": "DECID", "\\": "ST", "c": "RIS",
            **{collected + final: "SCS" for collected in "()*+" for final in "B0"}},
    "csi": {"@": "ICH", "A": "CUU", "B": "CUD", "C": "CUF", "D": "CUB", "E": "CNL", "F": "CPL",
            "G": "CHA", "H": "CUP", "I": "CHT", "J": "ED", "K": "EL", "L": "IL", "M": "DL",
            "P": "DCH", "S": "SU", "T": "SD", "X": "ECH", "Z": "CBT", "`": "HPA", "a": "HPR",
            "b": "REP", "d": "VPA", "e": "VPR", "f": "HVP", "g": "TBC", "h": "SM", "l": "RM",
            "m": "SGR", "n": "DSR", "r": "DECSTBM", "s": "SCOSC", "t": "XTWINOPS", "u": "SCORC",
            "?W": "DECST8C", "?h": "DECSET", "?l": "DECRST", "$p": "DECRQM", "?$p": "DECRQM",
            " q": "DECSCUSR", " k": "SCP", ">m": "XTMODKEYS", "?m": "XTQMODKEYS",
            **{f"{marker}u": "kitty-keyboard" for marker in "<=>?"}}}


def head_of(vector, rules):
    """The rules, levels and, for events, house rules of a vector. `rules` are those of its file."""
    used = rules_of(vector)
    levels = sorted((rules[name]["level"] for name in used if name in rules),
                    key=LEVELS.index) or [MUST]
    head = {"level": levels[-1], "rules": used}
    if vector["kind"] == "events":
        house = [*find_house_rules(vector), *["limit"] * ("limit" in used)]
        head |= {"house": house, "strongest": levels[0]}
    return head


def rules_of(vector):
    """Returns the names of the rules of a vector, in the order of the tables."""
    stream, kind = b"".join(chunks_of(vector)), vector["kind"]
    used = {name for step in definition.steps_of(stream, House(limit=vector.get("limit", 1024)))
            for name in step.rules}
    # a vector with repetitions names no control functions
    is_of_texts = all(isinstance(part, str) for name in ("chunks", "events", "calls")
                      for part in vector.get(name, []))
    has_functions = kind in ("calls", "updates") and is_of_texts
    return [*([FIRST_RULE[kind]] if kind in FIRST_RULE else []),
            *(name for name in RULES if name in used),
            *(dict.fromkeys(functions_of(stream)) if has_functions else ())]


def functions_of(stream):
    """Yields the names of the control functions in a stream."""
    for line in definition.lines_of(stream):
        match = LINE.fullmatch(line)
        if line.startswith("osc "):
            first = text_of(line.split(" ")[3])
            if first.isdigit():
                yield f"OSC-{first}"
        elif match:
            kind, collected, final = match.groups()
            # device attributes have any intermediates
            sent = text_of(collected or "-") + text_of(final)
            name = "DA" if kind == "csi" and final == "63" else FUNCTIONS[kind].get(sent)
            yield from filter(None, [name])


def text_of(shown):
    return bytes.fromhex(shown.replace("-", "")).decode("ascii", "replace")


def find_house_rules(vector):
    """Finds the house rules on which the events of a vector depend."""
    stream = bytes_of(shorten(vector["chunks"]))
    house = House(limit=vector["limit"])
    others = [(name, value) for name, choices in CHOICES.items() if name != "limit"
              for value in (choices[1:] if isinstance(choices, tuple) else [None])]
    lines = definition.lines_of(stream, house)
    return list(dict.fromkeys(
        name for name, value in others
        if lines != definition.lines_of(stream, house._replace(**{name.replace("-", "_"): value}))))


def shorten(value):
    """A list in which each repetition has three turns at most: the house rules are the same."""
    if isinstance(value, list):
        return [shorten(item) for item in value]
    return {**value, "times": min(value["times"], 3)} if isinstance(value, dict) else value
