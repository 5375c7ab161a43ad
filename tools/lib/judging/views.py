"""What a parser's interface doesn't report: such fields and lines are left out on both sides."""
import re

EVENTS = {"print": ("print",), "execute": ("execute",), "csi": ("csi",), "esc": ("esc",),
          "osc": ("osc",), "dcs": ("hook", "put", "unhook")}


def join_pieces(command):
    """Returns the line of a command whose pieces are joined again by `;`."""
    data = command[2].replace("-", "").replace(" ", "3b")
    return f"{command[1]} 1 {data or '-'}"


# the fields ignore and bell_terminated, how the data of a command are divided into pieces, and
# which numbers `:` joins in a group
FIELDS = {
    "ignore": (r"^((csi|hook|esc) .*) \S+ (\S+)$", r"\1 - \3"),
    "bell": (r"^osc \S+", "osc -"),
    "pieces": (r"^(osc \S+) \d+ (.*)$", join_pieces),
    "groups": (r"^(csi|hook) \S+", lambda line: line[0].replace(":", ";"))}


class View:
    """Event lines without what a parser doesn't report."""

    def __init__(self, unreported=()):
        unreported = list(unreported)
        unknown = [name for name in unreported if name not in EVENTS and name not in FIELDS]
        if unknown:
            choices = ", ".join([*EVENTS, *FIELDS])
            raise ValueError(f"unknown word {unknown[0]!r}; choose from {choices}")
        self.changes = [FIELDS[name] for name in unreported if name in FIELDS]
        self.hidden = {method for name in unreported for method in EVENTS.get(name, ())}

    def filter(self, lines):
        """Returns the lines with what both sides report."""
        return [self.view_line(line) for line in lines if line.partition(" ")[0] not in self.hidden]

    def view_line(self, line):
        for pattern, change in self.changes:
            line = re.sub(pattern, change, line)
        return line
