"""The differences of tools/stand_ins/vte, which the targets of rust/vte/fuzz must find: for each
the words with which the target reports it, and an input with which it does."""

BEGIN, END = b"\x1b[?2026h", b"\x1b[?2026l"
# the first bytes of an input: chunks of 0 and 1 bytes, and of up to 4, 8 (5 among them) and 128
SINGLE, FOUR, EIGHT, WHOLE = b"\0\0", b"\2\0", b"\3\7", b"\7\0"
OVERFLOW = "AddressSanitizer: heap-buffer-overflow"
ABORT = "deadly signal"

PARSER = [
    ("after an ESC", "in chunks", SINGLE + b"a\x1bcb"),
    ("inside a character", "in chunks", SINGLE + b"\xe4\xbd\xa0b"),
    ("after a semicolon", "in chunks", SINGLE + b"\x1b[1;2m"),
    ("after five bytes", "in chunks", EIGHT + b"abcdefghi"),
    ("empty", "in chunks", SINGLE + b"a" * 8),
    ("closed by a cut", "in chunks", SINGLE + b"ab\x1b["),
    ("in runs", ": in runs\n", WHOLE + b"a~b"), ("closed in runs", ": in runs\n", WHOLE + b"\x1b["),
    ("with line ends", "in runs with line ends", WHOLE + b"a\n~"),
    ("after a character", "with stops after characters", WHOLE + b"ab"),
    ("after an escape", "with stops after escapes", WHOLE + b"\x1bca"),
    ("closed with stops", "with stops after characters", WHOLE + b"\x1b["),
    ("with an early end", "an early end", WHOLE + b"\x1b[1m"),
    ("to text", "parser_readings.rs", WHOLE + b"a"),
    ("to data", "parser_readings.rs", WHOLE + b"\x1bPqab"),
    ("to nothing", "no run", WHOLE + b"\x1bc"), ("closed to a run", "to runs", WHOLE + b"\x1b["),
    # the longest stream that both read the same way
    ("closed", "both parsers", WHOLE + b"a" * 62 + b"\x1b["),
    ("open as another", "both parsers", WHOLE + b"\x1b[")]
PROCESSOR = [
    # a call that is nearly the end of an update
    ("in chunks", "in chunks", SINGLE + b"ab\x1b[?9l"),
    ("in runs", ": in runs\n", SINGLE + b"a~"),
    ("held in runs", ": in runs\n", SINGLE + b"a"),
    ("in an update", ": with updates\n", SINGLE + BEGIN + b"\x1b[?9l" + END),
    ("at a stop", ": with updates\n", SINGLE + BEGIN + b"~"),
    ("after a stop", ": with updates\n", FOUR + BEGIN + b"~" * 30),
    ("in an update in runs", "with updates, in runs", SINGLE + BEGIN + b"~~" + END),
    ("at a stop in runs", "with updates, in runs", SINGLE + BEGIN + b"~"),
    ("always", "both processors", WHOLE + b"a" * 1023 + b"~")]
BESIDE_VTE = [
    ("Parser whole", WHOLE + b"a" * 1023 + b"~"), ("Processor whole", SINGLE + b"ab~"),
    # with a text that may be a colour which only `vte` reads, and with another colour
    ("Processor whole", SINGLE + b"#\x1b]50;CursorShape=~1\7"),
    ("Processor whole", SINGLE + b"#\x1b]104;9\7"),
    ("Processor whole", SINGLE + b"\x1b]4;1;rgb:90/00/00\7"),
    ("Processor in chunks", SINGLE + b"ab~"), ("Processor held", SINGLE + BEGIN + b"b"),
    ("Processor held after a stop", SINGLE + BEGIN + b"b"),
    ("Processor in an update", SINGLE + BEGIN + b"~~"),
    ("Processor at a stop", FOUR + BEGIN + b"~" * 30),
    ("Processor expired", FOUR + BEGIN + b"~" * 30)]
LIBRARY = [
    ("vte_feed in chunks", ABORT, b"\0\0\0a~"),
    ("vte_feed in little room", ABORT, b"\xff\0\0a\x1b[mb"),
    ("vte_feed with stops", ABORT, b"\xff\xff\xffa\x1b[m"),
    ("vte_feed of some kinds", ABORT, b"\xff\xff\1ab"),
    ("vte_feed of any parser", ABORT, b"\xff\xff\1any\x1b[m"),
    ("vte_strip in chunks", ABORT, b"\0\0\0a~"),
    ("vte_strip in little room", ABORT, b"\xff\0\0ab"),
    *((f"vte_feed {what}", ABORT, b"\0\0\0" + stream) for what, stream in (
        ("of another kind", b"\x1bc"), ("with another flag", b"\x1bc"),
        ("with another final byte", b"\x1bc"), ("with another intermediate", b"\x1b(B"),
        ("with another number", b"\x1b[1m"), ("with another number", b"\x1bP1q"),
        ("with other groups", b"\x1b[1:2;3m"), ("with another byte", b"\x1b]ab;c\7"),
        ("with other pieces", b"\x1b]ab;c\7"))),
    *((f"vte_feed of too many {what}", ABORT, b"\0\0\0a") for what in ("events", "data")),
    *((f"{function} that reads {what}", ABORT, b"\0\0\0a")
      for function in ("vte_feed", "vte_strip") for what in ("nothing", "too much")),
    *((f"{function} beyond its {what}", OVERFLOW, b"\0\0\0a")
      for function, what in (("vte_feed", "bytes"), ("vte_feed", "events"), ("vte_feed", "data"),
                             ("vte_strip", "bytes"), ("vte_strip", "text")))]
DIFFERENCES = {
    "readings": [(f"{name} {difference}", *rest)
                 for names, rows in ((("Parser", "LongParser"), PARSER),
                                     (("Processor", "LongProcessor"), PROCESSOR))
                 for name in names for difference, *rest in rows],
    "beside_vte": [("Parser inside a character", "programs.rs", SINGLE), *(
        (difference, "beside_vte.rs", data) for difference, data in BESIDE_VTE)],
    "c_library": LIBRARY}
