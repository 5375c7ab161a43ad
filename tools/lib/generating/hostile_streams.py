"""Short hostile streams in chunks. A stream depends only on a seed and its number.

A stream has 1 to 24 parts, rarely 200. A part follows the grammar, stands at a limit, or breaks a
rule. Then some bytes may be damaged. The stream is cut nowhere, at every byte, at random, or where
a cut is most likely to hurt. Empty chunks occur. There are two sets of kinds of parts: all, and
mostly text.
"""
import random

from lib.generating.random_text import CHARACTERS, MALFORMED, cut_at


# ---- a part is bytes, or a function that makes them by chance

def make_part(chance, part):
    return part if isinstance(part, bytes) else part(chance)


def choose(*parts):
    """Returns one of the parts."""
    return lambda chance: make_part(chance, chance.choice(parts))


def prefer(part, *others):
    """Returns the part, and rarely one of the others."""
    return choose(*[part] * 9, choose(*others))


def join(*parts):
    """Returns all of the parts, one after another."""
    return lambda chance: b"".join(make_part(chance, part) for part in parts)


def repeat(counts, part, between=b""):
    """Returns a part as often as one of the counts says, and something between them."""
    def make(chance):
        count = chance.choice(counts)
        parts = [part, between] * (count - 1) + [part] * (count > 0)
        return join(*parts)(chance)
    return make


def byte_of(values):
    values = bytes(values)
    return lambda chance: bytes([chance.choice(values)])


def number_below(limit):
    return lambda chance: b"%d" % chance.randrange(limit)


def add_stray(part):
    """Returns a part, sometimes with a byte or two in it that belong elsewhere."""
    def make(chance):
        text = make_part(chance, part)
        if chance.random() > 0.1:
            return text
        position = chance.randrange(len(text) + 1)
        return text[:position] + make_part(chance, STRAY) + text[position:]
    return make


def separate(counts, part):
    """Repeats a part with `;`, with `:`, or with both between them."""
    by = [repeat(counts, part, between) for between in (b";", b":", choose(b";", b":"))]
    return choose(by[0], *by)


# ---- the grammar: bytes, numbers, and the heads and ends of sequences

CONTROLS = byte_of(byte for byte in range(0x20) if byte not in (0x18, 0x1A, 0x1B))
HIGH = byte_of(range(0x80, 0x100))
DATA = choose(byte_of(range(0x20, 0x7F)), CONTROLS, HIGH)
STRAY = choose(*b"\x7f \x18 \x1a \x1b \x9c \x80 \xff \xc3\xa9 \xf0\x9f ? :".split(b" "),
               b" ", CONTROLS, byte_of(range(256)))
KNOWN = [b"%d" % number for number in (
    *range(11), 14, 18, 20, 22, 23, 25, 31, 32, 33, 255, 256, 1000, 1049, 2004, 2026, 65535, 65536)]
BIG = [b"65534", b"65537", b"6553500", b"065535", b"0000000000001", b"4294967295", b"4294967296",
       b"18446744073709551616", b"02026", repeat([1, 20, 40], b"9"), repeat([1, 20, 40], b"0")]
NUMBER = prefer(choose(b"", number_below(70_000), *[choose(*KNOWN)] * 6), *BIG, number_below(2**64))
SMALL = choose(b"1", b"", b"0", b"38", b"2", b"5")
PARAMETERS = prefer(choose(b"", separate(range(1, 5), NUMBER), separate(range(1, 5), NUMBER),
                           separate([14, 15, 16, 17, 30, 31, 32, 33, 34, 40, 64], SMALL)),
                    join(NUMBER, b";"), join(NUMBER, b":"))
MARKER = choose(*[b""] * 4, b"?", b"?", b">", b"<", b"=", b"??", b"<>")
INTERMEDIATES = repeat([0, 0, 0, 0, 1, 1, 2, 3, 4], byte_of(range(0x20, 0x30)))
SHAPED_HEAD = join(MARKER, PARAMETERS, INTERMEDIATES)
HEAD = prefer(SHAPED_HEAD, join(SHAPED_HEAD, choose(b"?", b"1", b";", b"<2", b"< ")),
              join(INTERMEDIATES, PARAMETERS))
FINAL = byte_of(b"@ABCDEFGHIJKLMPSTWXZ`abcdefghijklmnpqrstux{|}~")
END = choose(*[b"\x07"] * 3, *[b"\x1b\\"] * 3, b"\x9c", b"\x18", b"\x1a", b"\x1b", b"", b"\x1b[",
             b"\x1b\x1b", b"\x1b\x07", b"\x1bc")

# ---- kinds of parts: text

TEXT = repeat([1, 1, 2, 5, 20], byte_of(range(0x20, 0x7F)))
CONTROL = repeat([1, 2, 3], choose(CONTROLS, byte_of(b"\x7f\x07\x0a\x0d\x09\x08")))
CANCELS = choose(b"\x18", b"\x1a", b"\x18\x1a", b"\x1b\x18", b"\x1b\x1a")
EIGHT_BITS = choose(byte_of(range(0x80, 0xA0)), join(b"\xc2", byte_of(range(0x80, 0xA0))),
                    join(b"\x9b", PARAMETERS, b"m"), b"\x9d2;x\x9c", b"\x90q\x9c")
CHARACTER = choose(*CHARACTERS)
FRONTS = [character[:end] for character in CHARACTERS for end in range(1, len(character))]
BROKEN = choose(choose(*FRONTS), choose(*MALFORMED), repeat(range(1, 6), HIGH))
# a character and a fault soon after it, which a cut inside the character may lose
FAULT = join(CHARACTER,
             repeat([0, 1, 1, 2, 3], choose(b"a", b"\x0a", b"\x1b", b"\x7f", b"[", b"\xc3\xa9")),
             choose(BROKEN, b"\xff", b"\x80", b"a", b"\x1b[m"))
LIKELY = byte_of(b"\x1b\x1b[]P;:?0123456789mhlq\\\x07\x18\x1a\x9c\xc3\xa9\xe4\xbd\xf0\x9f")
ANY = repeat(range(1, 17), choose(byte_of(range(256)), LIKELY))

# ---- kinds of parts: sequences

ESCAPE = join(b"\x1b", add_stray(join(choose(INTERMEDIATES, b"", b"(", b"*", b"#"), choose(
    byte_of(b"B0DEHMZc78=>\\NOn|"), byte_of(range(0x30, 0x7F))))))
ODD_ESCAPE = join(b"\x1b", choose(b"", b"\x1b", b"\x7f", b"\x80", b"\xff", b"\xc3\xa9", b"\x07",
                                  b" ", b"[", b"P", b"]", b"\xe2\x82"))
SEQUENCE = join(b"\x1b[", add_stray(join(HEAD, FINAL)))
# what a processor knows
KNOWN_SEQUENCE = join(
    b"\x1b[", choose(b"", b"", b"?", b">", b"=", b"<"), separate(range(4), NUMBER),
    prefer(b"", b" ", b"$", b"!", b"!\"", b"#$%"), FINAL)
ATTRIBUTE = choose(*(b"%d" % number for number in [*range(50), 58, 59, *range(89, 109)]))
COLORS_OF_TEXT = [join(choose(b"38", b"48", b"58"), mark, choose(*b"2 5 2 5  3".split(b" ")),
                       repeat(range(7), join(mark, choose(b"", number_below(300)))))
                  for mark in (b";", b":")]
RENDITION = join(b"\x1b[", repeat(range(6), choose(
    ATTRIBUTE, ATTRIBUTE, repeat([1, 2, 3], choose(*KNOWN[:7]), b":"), *COLORS_OF_TEXT), b";"),
    b"m")
REPETITION = join(choose(b"x", b"\xc3\xa9", b"", b"\x0a"), b"\x1b[",
                  choose(b"", b"0", b"1", b"3", b"12", b"65535", b"2;5"), b"b")
# the two sequences of a synchronized update, and others that are almost one
UPDATE = choose(*[b"\x1b[?2026h"] * 6, *[b"\x1b[?2026l"] * 6, *(b"\x1b" + text for text in (
    b"[?2026$p", b"[?02026h", b"[?02026l", b"[?2026;25h", b"[?25;2026h", b"[?25;2026l",
    b"[?2026:1h", b"[?1:2026h", b"[2026h", b"[?2026", b"[?202", b"[?20\x0726h", b"[?2026 h",
    b"[?2026H", b"\x1b[?2026h", b"[\x1b[?2026l", b"]0;\x1b[?2026h", b"Pq\x1b[?2026l", b"[>2026h",
    b"[?2027h", b"[?2026;2026h", b"[?;2026h", b"P=1s\x1b\\", b"P=2s\x1b\\")), b"\xe2\x1b[?2026h")
UPDATES = repeat([1, 1, 1, 2, 3, 5], join(UPDATE, choose(b"", TEXT)))

# ---- kinds of parts: strings

DEVICE = join(b"\x1bP", add_stray(join(HEAD, byte_of(b"q|pst{$zr+"))),
              repeat([0, 1, 3, 12, 60], choose(byte_of(range(0x20, 0x7F)), DATA)), END)
IGNORED = join(b"\x1b", byte_of(b"X^_"), repeat(range(13), DATA), END)
# about as many pieces as are kept, about as many bytes as 1,024, or anything
SIXTEEN = repeat([0, 1, 14, 15, 16, 17, 18, 33],
                 choose(b"", b"", b"4", b"abc", b"\xc3\xa9", b"\xff", b"1", b"#fff", b"?"), b";")
FULL = join(repeat(range(3), b";"), repeat(range(1018, 1025), b"a"), repeat(range(3), b";"),
            repeat([0, 1, 2, 5, 1000], b"a"), repeat(range(2), b";"), repeat(range(4), b"a"))
ANY_DATA = repeat(range(1, 31), choose(DATA, b";"))
COMMAND = join(b"\x1b]", add_stray(choose(SIXTEEN, FULL, ANY_DATA)), END)
# what a processor knows
CODES = (b"0 1 2 4 8 9 10 11 12 13 22 50 52 104 105 110 111 112 113 133 1337 00 002 010 +2 ltitle "
         b"P1ffffff R ").split(b" ")
COLORS = (b"? #fff #1aF #102030 #0123456789aB #110aa0ff0 rgb:f/0/7 rgb:ff/80/00 rgb:123/4/56 rgb: "
          b"rgb:ffff/8000/0001 rgb:0// rgb:f/f rgb:f/f/f/f rgb:fffff/0/0 rgb:g/0/0 # #f #ff red "
          b"RGB:f/f/f #gggggg ").split(b" ")
LETTERS = (b"a B - / : = id= id=1 a=b http://x CursorShape= 0 1 2 7 007 255 256 12x default "
           b"e-resize grab Grab zoom-out c p ? aGk= \xc3\xa9 \xc2\x85 \xc2\xa0 \xe2\x80\x83 "
           b"\xe2\x80\x8b \x7f \t \xff \x80 \xe4\xbf").split(b" ") + [b" ", b"  "]
PIECE = choose(choose(*COLORS), number_below(300), repeat(range(5), choose(*LETTERS)))
KNOWN_COMMAND = join(b"\x1b]", prefer(choose(*CODES), PIECE),
                     repeat([0, 1, 1, 2, 3, 4, 18], join(b";", PIECE)), END)

# each kind of part, and its weight
PARTS = {TEXT: 6, CONTROL: 3, CANCELS: 2, EIGHT_BITS: 3, CHARACTER: 6, BROKEN: 8, FAULT: 4,
         ESCAPE: 4, ODD_ESCAPE: 3, SEQUENCE: 10, KNOWN_SEQUENCE: 3, RENDITION: 5, UPDATES: 5,
         REPETITION: 1, DEVICE: 6, COMMAND: 3, KNOWN_COMMAND: 4, IGNORED: 3, ANY: 3}
OF_TEXT = {TEXT: 6, CONTROL: 2, CANCELS: 1, CHARACTER: 6, BROKEN: 10, FAULT: 4, ESCAPE: 1,
           SEQUENCE: 2, DEVICE: 1, KNOWN_COMMAND: 1, IGNORED: 1, ANY: 3}


# ---- streams and their chunks

def make_hostile_stream(seed, index, weights=PARTS):
    """Returns the chunks of the stream of this number, whose kinds of parts have these weights."""
    chance = random.Random(f"hostile {seed}/{index}")
    size = chance.random()
    count = (chance.randint(1, 3) if size < 0.45 else chance.randint(2, 9) if size < 0.85 else
             chance.randint(8, 24) if size < 0.99 else 200)
    parts = chance.choices(list(weights), weights.values(), k=count)
    if chance.random() < 0.12:
        parts = parts[:1] * count
    stream = b"".join(make_part(chance, part) for part in parts)
    if chance.random() < 0.15:
        stream = damage(chance, stream)
    return cut_at(stream, choose_cuts(chance, stream))


def damage(chance, stream):
    """Returns the stream with a few bytes changed, dropped or doubled, or without its end."""
    for _ in range(chance.randint(1, 3)):
        position = chance.randrange(len(stream) + 1)
        front, back = stream[:position], stream[position:]
        stream = front + chance.choice([chance.randbytes(1) + back[1:], back[chance.randint(1, 4):],
                                        front[-chance.randint(1, 8):] + back, b""])
    return stream


def choose_cuts(chance, stream):
    every = range(len(stream) + 1)
    likely = [at + 1 for at, byte in enumerate(stream) if byte in b"\x1b[]P?;:" or byte >= 0x80]
    choices = [places for places in (every, likely, likely) if places]
    cuts = [chance.sample(places, chance.randint(1, min(len(places), 8))) for places in choices]
    cuts = chance.choice([[], [*every[1:-1]] if len(stream) <= 4000 else [], *cuts])
    # sometimes an empty chunk
    return sorted(cuts + cuts[:1] * (chance.random() < 0.06))
