"""Generated streams by name, and the recorded ones.

A name and a size always give the same bytes, and a shorter stream is the front of a longer one. A
stream is cut at its size, so it may end inside a character or a sequence. It repeats after 2 MB."""
import itertools
import json
import random
import tarfile
from functools import partial
from pathlib import Path

from lib.generating.random_text import cut_at

COLUMNS, ROWS = 80, 24
PERIOD = 2 << 20
WORDS = ("the of terminal stream parser escape sequence cursor colour screen buffer margin scroll "
         "region title window pane status line character cell width glyph paste bracket update "
         "frame hold stop reset bold a to in is").split()
DIGITS = b"ABCDEFGHIJKLMNOPQRSTUVWXYZabcdefghijklmnopqrstuvwxyz0123456789+/"


def list_characters(*ranges):
    return [chr(code) for codes in ranges for code in codes]


CJK = list_characters(range(0x4E00, 0x9FA0, 7))
CYRILLIC = list_characters(range(0x410, 0x450))
EMOJI = list_characters(range(0x1F300, 0x1F650), range(0x1F680, 0x1F6D0), range(0x1F900, 0x1FA00))
LATIN = list("abcdefghijklmnopqrstuvwxyz      " * 3 + "äöüßéèàñ")


# ---- helpers: each makes one part

def pick_words(chance, shortest, longest):
    length = chance.randint(shortest, longest)
    return " ".join(chance.choice(WORDS) for _ in range(length // 5 + 1))[:length].encode()


def pick(chance, choices, count):
    return "".join(chance.choice(choices) for _ in range(count))


def pick_base64(chance, count):
    return bytes(chance.choices(DIGITS, k=count))


# ---- text

def make_script(choices, end):
    def make_line(chance):
        text = pick(chance, choices, chance.randint(10, 40)) + end
        return (text + "\r\n" if chance.random() < 0.3 else text).encode()
    return make_line


def make_western(letters, encoding):
    def make_line(chance):
        return (pick(chance, letters, chance.randint(30, 100)) + "\r\n").encode(encoding)
    return make_line


# ---- colours and the cursor

def make_ls_color(chance):
    """Returns what `ls -lR --color` could write."""
    kinds = [("01;34", ""), ("01;32", ""), ("01;36", " -> \x1b[0m\x1b[01;34mtarget\x1b[0m"),
             ("01;31", ".gz"), ("01;35", ".png"), (None, ".txt"), (None, ".c")]
    path = "/".join(chance.choice(WORDS) for _ in range(chance.randint(1, 5)))
    lines = [f"\r\n./{path}:\r\ntotal {chance.randrange(9999)}\r\n"]
    for _ in range(chance.randint(2, 30)):
        colour, end = chance.choice(kinds)
        name = "-".join(chance.choice(WORDS) for _ in range(chance.randint(1, 3)))
        name = f"\x1b[0m\x1b[{colour}m{name}\x1b[0m{end}" if colour else name + end
        size = chance.randrange(10 ** chance.randint(1, 8))
        lines.append(f"-rw-r--r-- {chance.randint(1, 9):2} demo demo {size:8} "
                     f"Jan {chance.randint(1, 28):2} "
                     f"{chance.randrange(24):02}:{chance.randrange(60):02} {name}\r\n")
    return "".join(lines).encode()


def make_coloured_line(chance):
    """Returns text with a colour or an attribute at each second word."""
    attributes = [0, 1, 3, 4, 7, 22, 24, 27, 31, 32, 33, 34, 35, 36, 39, 42, 49, 91, 97]
    line = [b"\x1b[%dm" % chance.choice(attributes) * (chance.random() < 0.5)
            + chance.choice(WORDS).encode() + b" " for _ in range(12)]
    return b"".join(line) + b"\r\n"


def make_dense_cells():
    """Yields cells, each with two colours of 256, bold, italic and underlined."""
    for shift in itertools.count():
        for letter in range(0x41, 0x5B):
            colours = ((line + column + shift) % 156 for line in range(ROWS)
                       for column in range(COLUMNS))
            yield b"\x1b[H" + b"".join(
                b"\x1b[38;5;%d;48;5;%d;1;3;4m%c" % (colour + 100, 255 - colour, letter)
                for colour in colours)


def make_cursor(chance):
    """Returns a motion or an erasure of any kind, as full-screen programs write."""
    others = [b"\x1b7", b"\x1b8", b"\x1bM", b"\x1b(0", b"\x1b(B", b"\x0e", b"\x0f", b"\x08", b"\t",
              b"\r\n", b"\x1b[?25l", b"\x1b[?25h", b"\x1b[?7l", b"\x1b[?1049h"]
    kind = chance.random()
    if kind < 0.6:
        numbers = [b"", b"%d" % chance.randint(0, 99),
                   b"%d;%d" % (chance.randint(1, 50), chance.randint(1, 132))]
        return b"\x1b[%s%c" % (chance.choice(numbers), chance.choice(b"ABCDEFGdGHfJKLMPSTX@`ae"))
    return chance.choice(others) if kind < 0.7 else pick_words(chance, 1, 20)


# ---- strings

def make_osc_title(chance):
    """Returns a window title, ended by BEL or ST, and a little text."""
    end = chance.choice([b"\x07", b"\x1b\\"])
    title = b"\x1b]%d;%s%s" % (chance.randrange(3), pick_words(chance, 5, 60), end)
    return title + pick_words(chance, 1, 30)


def make_sixel(chance):
    """Returns a sixel image of some 30 kB."""
    def make_band():
        runs = [b"!%d%c" % (chance.randint(2, 90), chance.randrange(63, 127))
                if chance.random() < 0.5
                else bytes(chance.choices(range(63, 127), k=chance.randint(1, 20)))
                for _ in range(8)]
        return b"#%d" % chance.randrange(16) + b"".join(runs) + b"$"

    colours = [b"#%d;2;%d;%d;%d" % (index, *chance.choices(range(101), k=3))
               for index in range(16)]
    lines = [b"".join(make_band() for _ in range(6)) + b"-\n" for _ in range(40)]
    return b'\x1bP0;1;8q"1;1;400;240' + b"".join([*colours, *lines]) + b"\x1b\\\r\n"


# ---- streams by name

# what makes a part, over and over
PARTS = {
    "ascii": lambda chance: pick_words(chance, 20, 120) + b"\r\n",
    # one letter in thirteen is above ASCII, with typographic quotes and dashes
    "prose": make_western([*LATIN, "\u2019", "\u2013"], "utf-8"),
    # one byte in thirteen is malformed UTF-8
    "latin1": make_western(LATIN, "latin-1"),
    "cjk": make_script(CJK, ""), "cyrillic": make_script(CYRILLIC, " "),
    "emoji": make_script(EMOJI, ""),
    "ls_color": make_ls_color, "coloured": make_coloured_line, "cursor": make_cursor,
    "updates": lambda chance: b"\x1b[?2026h\x1b[H%b\x1b[?2026l" % b"".join(
        make_coloured_line(chance) for _ in range(ROWS)),
    "osc_title": make_osc_title,
    # more than a parser with a limit keeps
    "osc_clipboard": lambda chance: b"\x1b]52;c;%b\x07text\r\n" % pick_base64(chance, 65536),
    "sixel": make_sixel,
    # strings that mean nothing, as Kitty's images
    "ignored": lambda chance: b"\x1b_Gm=1;%b\x1b\\" % pick_base64(chance, 4096),
    "random": lambda chance: chance.randbytes(4096),
}
# a beginning, and what follows over and over
REPEATED = {
    "bad_ff": (b"", b"\xff"), "bad_trunc4": (b"", b"\xf0\x9f\x98"),
    "bad_alternate": (b"", b"a\xff"), "lead_esc": (b"", b"\xe2\x1b[m"),
    "esc_flood": (b"", b"\x1b"),
    # a string that means nothing, and an update, without end
    "sos_open": (b"\x1bX", b"text "),
    "update_open": (b"\x1b[?2026h", b"text \x1b[31m"),
}
STREAMS = [*PARTS, "dense_cells", *REPEATED]


def parts_of(name):
    """Returns the parts of a stream, without end."""
    if name in PARTS:
        return iter(partial(PARTS[name], random.Random(name)), None)
    if name == "dense_cells":
        return make_dense_cells()
    start, unit = REPEATED[name]
    return itertools.chain([start], itertools.repeat(unit * (8192 // len(unit) + 1)))


def generate(name, size):
    parts, made = parts_of(name), bytearray()
    while len(made) < min(size, PERIOD):
        made += next(parts)
    return bytes(made[:PERIOD] * (size // PERIOD + 1))[:size]


def read_recorded():
    """Streams that real programs wrote: each with its name and the chunks that it came in. The
    archive has a file for each, and their lengths in pieces.json."""
    with tarfile.open(Path(__file__).with_name("recorded.tar.xz")) as archive:
        def read(name):
            return archive.extractfile(name).read()

        for name, lengths in json.loads(read("pieces.json")).items():
            ends = list(itertools.accumulate(lengths))
            yield name, cut_at(read(f"{name}.bin"), ends[:-1])
