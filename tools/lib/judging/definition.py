"""docs/EVENTS.md in Python, with house rules: the steps of a stream, each with its rules and its
lines.

`vtlog` is the reference. This says which rule gives an event, and what the events are under the
rules of another house; the judge checks it against `vtlog` on every stream for which it asks it.
"""
import re
from collections import namedtuple
from itertools import accumulate

from lib.judging.house import DEFAULT

# a stream is read as a text with a character for each byte
ESC, BEL, ST = "\x1b", "\x07", "\x9c"
# what ends any sequence and string, besides ESC: CAN and SUB
ENDS = "\x18\x1a"
WELL_SHAPED = re.compile("([<-?]?)([0-;]*)([ -/]*)")
# Unicode's table of well-formed sequences, and their prefixes; or any byte
SEGMENT = re.compile("[\xc2-\xdf][\x80-\xbf]?|[\xe1-\xec\xee\xef][\x80-\xbf]{0,2}"
                     "|\xe0([\xa0-\xbf][\x80-\xbf]?)?|\xed([\x80-\x9f][\x80-\xbf]?)?"
                     "|\xf0([\x90-\xbf][\x80-\xbf]{0,2})?|\xf4([\x80-\x8f][\x80-\xbf]{0,2})?"
                     "|[\xf1-\xf3][\x80-\xbf]{0,3}|.", re.S)
# before the name of a rule about a limit that isn't reached, but would be by a parser with a lower
# one
NEAR = "near:"
# how many readings may have looked at a byte that comes after them: that of a character looks at
# four bytes, and that of a sequence at two bytes after it
LOOKAHEAD = 3


# what some bytes of a stream mean: the rules at work, where the bytes are, the lines of events
Step = namedtuple("Step", "rules start end lines", defaults=[()])


def lines_of(stream, house=DEFAULT):
    return [line for step in steps_of(stream, house) for line in step.lines]


def steps_of(stream, house=DEFAULT):
    return [step for steps in iter(StepReader(stream.decode("latin-1"), house).read_next, [])
            for step in steps]


def segment_at(text, position, house):
    """Returns the segment of text at a position, and whether it is a well-formed character."""
    first = text[position]
    if first < "\x80" or house.encoding == "bytes":
        return first, True
    segment = SEGMENT.match(text, position)[0]
    return segment, len(segment) == expect_length(first)


def expect_length(first):
    """Returns the length of a character as far as its first byte gives it alone."""
    return 2 + (first >= "\xe0") + (first >= "\xf0")


def execute(character):
    return f"execute {ord(character):02x}"


def lines_of_end(end):
    """Returns the lines of what ended a sequence: CAN and SUB have one."""
    return (execute(end),) if end and end in ENDS else ()


def hex_of(text):
    return text.encode("latin-1").hex() or "-"


class StepReader:
    """Reads the steps of a text: those of a character, of a sequence, of a string, or of a byte of
    a device control string at a time."""

    def __init__(self, text, house, state=(False, False)):
        self.text, self.house, self.steps, self.position = text, house, [], 0
        # whether ESC has just ended a string, so that a backslash makes it the terminator; and
        # whether data of a device control string come
        self.has_ended_string, self.is_hooked = state

    @property
    def state(self):
        return self.has_ended_string, self.is_hooked

    def read_next(self):
        """Returns the steps of what is at the position; none at the end."""
        self.steps = []
        if self.position < len(self.text):
            if self.is_hooked:
                self.read_device_byte(self.position)
            elif self.text[self.position] == ESC:
                self.read_body(self.position)
            else:
                self.read_character(self.position)
        return self.steps

    def add(self, rules, start, end, *lines):
        self.steps.append(Step(tuple(rules), start, end, lines))
        self.position = end

    def find_first(self, wanted, start):
        """Finds where a character first is that is wanted, or that ends any sequence and string."""
        found = re.compile(f"[{wanted}{ESC}{ENDS}]").search(self.text, start)
        return found.start() if found else len(self.text)

    def character_at(self, position):
        return self.text[position:position + 1]

    # ---- text

    def read_character(self, start):
        segment, is_whole = segment_at(self.text, start, self.house)
        house, end = self.house, start + len(segment)
        if not is_whole:
            if "\x80" <= segment < "\xa0":
                lines = {"execute": [execute(segment)], "replace": ["print fffd"], "drop": []}
                return self.add(["c1-byte"], start, end, *lines[house.c1_bytes])
            return self.read_malformed(start, segment)
        code = ord(segment if len(segment) == 1 else segment.encode("latin-1").decode())
        shown = f"print {code:04x}"
        if code < 0x20:
            self.add(["control"], start, end, execute(segment))
        elif code == 0x7F:
            self.add(["delete"], start, end, *([shown] if house.delete == "print" else []))
        elif len(segment) == 2 and code < 0xA0:
            lines = {"execute": [execute(chr(code))], "print": [shown], "drop": []}
            self.add(["c1-character"], start, end, *lines[house.c1_characters])
        else:
            self.add(["text"], start, end, shown)

    def read_malformed(self, start, segment):
        end = start + len(segment)
        begun = "\xc2" <= segment[0] <= "\xf4"
        # whether its bytes are those of a character except for their values
        length = expect_length(segment)
        is_formed = "\xc0" <= segment[0] < "\xf8" and re.fullmatch(
            f"[\x80-\xbf]{{{length - 1}}}", self.text[start + 1:start + length])
        is_cut_short = begun and self.character_at(end) in ("", ESC, *ENDS)
        rules = ["unfinished" if is_cut_short else "malformed"]
        if is_formed:
            rules.append("surrogate" if segment[0] == "\xed" else "overlong")
        lines = {"subparts": ["print fffd"], "bytes": ["print fffd"] * len(segment), "drop": []}
        # at the end of the stream it is open
        is_open = begun and end == len(self.text)
        self.add(rules, start, end, *([] if is_open else lines[self.house.malformed]))

    # ---- sequences

    def read_body(self, escape):
        """Reads what ESC begins."""
        has_ended_string, self.has_ended_string = self.has_ended_string, False
        if has_ended_string and self.character_at(escape + 1) == "\\":
            lines = ["esc - false 5c"] if self.house.terminator == "event" else []
            return self.add(["escape-sequence", "terminator"], escape, escape + 2, *lines)
        key = self.find_final(escape, escape + 1, " -~")
        if key:
            by_key = {"[": self.read_control_sequence, "P": self.read_device_control,
                      "]": self.read_system_command,
                      **dict.fromkeys("X^_", self.read_ignored_string)}
            read = by_key.get(self.text[key], self.read_escape_sequence)
            read(escape, key)

    def find_final(self, escape, start, wanted, dropped="dropped-in-sequence"):
        """Finds the position of a final byte, or None if the sequence ends without one: by the next
        ESC, or CAN or SUB. Until then C0 is executed, or dropped as what isn't in a head."""
        end = self.find_first(wanted, start)
        for position, byte in enumerate(self.text[start:end], start):
            if byte < " " and dropped == "dropped-in-sequence":
                self.add(["control-in-sequence"], position, position + 1, execute(byte))
            elif not " " <= byte < "\x7f":
                self.add([dropped], position, position + 1)
        last = self.character_at(end)
        if last in ("", ESC):
            self.add(["restart"], escape, end)
            self.has_ended_string = dropped != "dropped-in-sequence"
        elif last in ENDS:
            self.add(["cancel"], escape, end + 1, execute(last))
        else:
            return end
        return None

    def read_escape_sequence(self, escape, key):
        final = self.find_final(escape, key, "0-~")
        if final:
            collected = re.sub("[^ -/]", "", self.text[key:final])
            rules = {"intermediates": collected, "many-intermediates": len(collected) > 2}
            self.add(["escape-sequence", *filter(rules.get, rules)], escape, final + 1,
                     f"esc {hex_of(collected[:2])} {str(len(collected) > 2).lower()} "
                     f"{hex_of(self.text[final])}")

    def read_control_sequence(self, escape, key):
        final = self.find_final(escape, key + 1, "@-~")
        if final:
            rules, lines = self.read_head("csi", "control-sequence", key + 1, final)
            self.add(rules or ["ill-shaped-head"], escape, final + 1, *lines)

    def read_head(self, method, rule, start, final):
        """Returns the rules and the line of a head, without what is dropped or executed in it; none
        if it is ill-shaped."""
        house, text = self.house, re.sub("[^ -?]", "", self.text[start:final])
        shape = WELL_SHAPED.fullmatch(text)
        if not shape or house.colon == "refuses" and ":" in text:
            return [], []
        marker, parameters, intermediates = shape.groups()
        numbers, collected = re.split("[:;]", parameters), marker + intermediates
        too_many = house.numbers is not None and len(numbers) > house.numbers
        rules = {"parameters": parameters, "empty-number": "" in numbers,
                 "intermediates": collected, "colon": ":" in parameters,
                 "largest": any(number_of(number, 0x10000) == "65536" for number in numbers),
                 "numbers": too_many or len(numbers) > 32, "many-intermediates": len(collected) > 2,
                 NEAR + "largest": max(map(len, numbers)) > 2, NEAR + "numbers": len(numbers) > 2}
        ignore = str(len(collected) > 2 or too_many).lower()
        line = (f"{method} [{show_groups(parameters, house)}] {hex_of(collected[:2])} {ignore} "
                f"{hex_of(self.text[final])}")
        return [rule, *filter(rules.get, rules)], [line]

    # ---- strings

    def read_device_control(self, escape, key):
        final = self.find_final(escape, key + 1, "@-~", "dropped-in-device-head")
        if final:
            rules, lines = self.read_head("hook", "device-control", key + 1, final)
            if not rules:
                return self.read_dropped_string(escape, final + 1, "ill-shaped-device-head")
            self.add(rules, escape, final + 1, *lines)
            self.is_hooked = True

    def read_device_byte(self, start):
        """Reads a byte of data, or the end. If that is ESC, it also begins what comes next."""
        byte = self.text[start]
        if byte < "\x7f" and byte not in ESC + ENDS:
            self.add(["device-data"], start, start + 1, f"put {hex_of(byte)}")
        elif byte in ESC + ENDS or byte == ST and self.house.device_9c == "ends":
            is_ended = byte == ESC and self.character_at(start + 1) == "\\"
            rule = "byte-9c" if byte == ST else "device-end" if is_ended else "device-cut-short"
            self.add([rule], start, start + 1, "unhook", *lines_of_end(byte))
            self.is_hooked, self.has_ended_string = False, byte == ESC
            if self.has_ended_string:
                self.position = start
        else:
            rule = "byte-9c" if byte == ST else "dropped-in-device-data"
            self.add([rule], start, start + 1)

    def read_ignored_string(self, escape, key):
        self.read_dropped_string(escape, key + 1, "ignored-string")

    def read_dropped_string(self, escape, start, rule):
        """Reads a string of which nothing is reported, up to ESC, CAN or SUB."""
        stop = self.find_first(ST if self.house.ignored_9c == "ends" else "", start)
        last, text, rules = self.character_at(stop), self.text[start:stop], [rule]
        if ST in text + last:
            rules.append("byte-9c")
        if rule == "ignored-string" and re.search("[^\x08-\x0d -~]", text):
            rules.append("dropped-in-ignored-string")
        self.add(rules, escape, stop)
        if last not in ("", ESC):
            self.add(["cancel"], stop, stop + 1, *lines_of_end(last))
        self.has_ended_string = last == ESC

    def read_system_command(self, escape, key):
        stop = self.find_first(ends_of_command(self.house), key + 1)
        self.drop_command_controls(key + 1, stop)
        items, last = re.sub("[\0-\x1f]", "", self.text[key + 1:stop]), self.character_at(stop)
        of_bytes = {"byte-9c": ST in items + last, "command-bytes": re.search("[\x7f-\xff]", items)}
        if not last:
            return self.add(["command", *filter(of_bytes.get, of_bytes)], escape, stop)
        is_cut_short = self.character_at(stop + 1) != "\\" if last == ESC else last in ENDS
        kept, pieces = split_command(items, self.house)
        rules = {**find_size_rules(items, kept, pieces, self.house), **of_bytes,
                 "command-bell": last == BEL, "empty-command": not items,
                 "command-cut-short": is_cut_short}
        lines, end = [], stop if last == ESC else stop + 1
        if not drops_command(items, last, is_cut_short, self.house):
            shown = pieces[:self.house.pieces]
            lines = [f"osc {str(last == BEL).lower()} {len(shown)} {' '.join(map(hex_of, shown))}"]
        self.add(["command", *filter(rules.get, rules)], escape, end, *lines, *lines_of_end(last))
        self.has_ended_string = last == ESC

    def drop_command_controls(self, start, stop):
        for position, byte in enumerate(self.text[start:stop], start):
            if byte < " ":
                rule = "command-bell" if byte == BEL else "control-in-command"
                self.add([rule], position, position + 1)


def number_of(digits, largest):
    """Returns a number in decimal, which has any number of digits if there is no largest one."""
    digits, most = digits.lstrip("0") or "0", str(largest)
    is_kept = largest is None or (len(digits), digits) < (len(most), most)
    return digits if is_kept else most


def show_groups(parameters, house):
    """Shows the groups of a parameter text, as a line shows them."""
    text = parameters if house.colon == "joins" else parameters.replace(":", ";")
    parts = re.split("([:;])", text)
    kept = len(parts) if house.numbers is None else 2 * house.numbers - 1
    return "".join(part if index % 2 else number_of(part, house.largest)
                   for index, part in enumerate(parts[:kept]))


def split_command(items, house):
    """Returns how many of the items of a command are kept, and their pieces."""
    counts = accumulate((item != ";" for item in items), initial=0)
    kept = "".join(item for item, count in zip(items, counts)
                   if house.limit is None or count < house.limit)
    return len(kept), kept.split(";")


def ends_of_command(house):
    """Returns what ends a command, besides ESC, CAN and SUB."""
    return (BEL if house.bell == "ends" else "") + (ST if house.command_9c == "ends" else "")


def find_size_rules(items, kept, pieces, house):
    """Finds the rules about how long a command is, and whether each is at work."""
    data = len(items) - items.count(";")
    most = 16 if house.pieces is None else min(house.pieces, 16)
    return {"limit": kept < len(items) or data > 1024, "pieces": len(pieces) > most,
            NEAR + "limit": data > 16, NEAR + "pieces": len(pieces) > 4}


def drops_command(items, last, is_cut_short, house):
    """Whether a house drops a command with these items, which has ended so."""
    if not items and house.empty_commands == "drop":
        return True
    choice = house.escaped_commands if last == ESC else house.cancelled_commands
    return is_cut_short and choice == "drop"
