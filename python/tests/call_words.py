"""Calls as words: those of Python, and those of the test vectors' lines, which Rust writes."""
import re

from vte import calls

# character sets and modes, by their names
NUMBERS = {
    "G0": 0, "G1": 1, "G2": 2, "G3": 3, "Insert": 4, "LineFeedNewLine": 20, "CursorKeys": 1,
    "ColumnMode": 3, "Origin": 6, "LineWrap": 7, "BlinkingCursor": 12, "ShowCursor": 25,
    "ReportMouseClicks": 1000, "ReportCellMouseMotion": 1002, "ReportAllMouseMotion": 1003,
    "ReportFocusInOut": 1004, "Utf8Mouse": 1005, "SgrMouse": 1006, "AlternateScroll": 1007,
    "UrgencyHints": 1042, "SwapScreenAndSetRestoreCursor": 1049, "BracketedPaste": 2004,
    "SyncUpdate": 2026}
# words around values
AROUND = {"Some", "Named", "Unknown", "Spec", "Indexed", "Rgb", "r", "g", "b", "CursorStyle",
          "shape", "blinking", "Hyperlink", "id", "uri"}


def words_of_line(line):
    # a letter is a text of one character
    line = re.sub(r"\('\\?(.)'\)", r'("\1")', line)
    words = re.findall(r'"(?:[^"\\]|\\.)*"|[^\s(){},:]+', line)
    return [str(NUMBERS.get(word, word)) for word in words if word not in AROUND]


def words_of(value):
    if isinstance(value, tuple):
        return [word for part in value for word in words_of(part)]
    if isinstance(value, str):
        parts = (f"\\{c}" if c in '"\\' else c if " " <= c <= "~" else f"\\u{{{ord(c):x}}}"
                 for c in value)
        return ['"' + "".join(parts) + '"']
    if isinstance(value, bytes):
        return [value.hex() or "-"]
    return [str(value).lower() if isinstance(value, bool) else repr(value)]


def name_of(kind):
    return re.sub("(?<!^)(?=[A-Z])", "_", kind.__name__).lower()


def lines_of(call):
    """The words of the lines of a call: a text is a line per character."""
    name = name_of(type(call))
    match call:
        case calls.Input(text):
            return [[name, f"{ord(c):04x}"] for c in text]
        case calls.SetMouseCursorIcon(keyword):
            return [[name, keyword.title().replace("-", "")]]
        case calls.TerminalAttribute(attribute, None) if attribute.name != "UnderlineColor":
            call = (attribute,)
        case calls.SetCursorStyle(None) | calls.SetHyperlink(uri=None):
            call = (None,)
        case calls.ClipboardStore(clipboard, rest) | calls.ClipboardLoad(clipboard, rest):
            call = clipboard.encode("latin-1"), rest
    return [[name, *words_of(call)]]
