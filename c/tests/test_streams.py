"""Vectors and streams, by the C programs: however a stream is cut, they write the same."""
from lib.building import builder
from lib.files import TOP
from lib.generating.hostile_streams import OF_TEXT, make_hostile_stream
from lib.generating.streams import read_recorded
from lib.generating.vectors import bytes_of, expand_lines, read_vectors
from lib.judging import definition, house

from library import output_of, run_at_once

# arguments of the C program: chunks of one byte, of 4,096, and of random sizes in random room
WAYS = [["1"], ["4096"], ["0"], ["7", "4", "2112"]]
STRIP_WAYS = [["strip", *way[:2]] for way in (["1"], ["4096"], ["0"], ["7", "16"])]
STOPS_WAYS = [["stops", str(1 << kind), "4096"] for kind in range(8)] + [["stops", "255", "4096"]]
LONG_WAYS = [["long", *way[:2]] for way in WAYS]
# sets of kinds, and the words of their lines
KINDS = {"32": ("osc",), "96": ("osc", "csi"), "86": ("execute", "hook", "unhook", "csi"),
         "1": ("print",), "28": ("hook", "put", "unhook")}
LIMIT = 1024
VECTORS = [(vector, bytes_of(vector["chunks"])) for vector in read_vectors()
           if vector["kind"] in ("events", "text") and vector["limit"] == LIMIT]
# commands around their limits: the 17th piece isn't reported, but dropped if it has data
SIXTEEN, MOST = b"a;" * 15 + b"b", b"a" * LIMIT
COMMANDS = [MOST[1:], MOST, MOST + b"a", MOST[1:] + b";b", MOST[1:] + b";bc", MOST + b";;",
            MOST + b";;b", b";" + MOST, b"52;c;" + MOST * 3, SIXTEEN, SIXTEEN + b";",
            SIXTEEN + b";c", SIXTEEN + b";;" + MOST + b"a", b"aa"]


def compare(library, name, stream, wanted, ways):
    """Compares what all programs write in these ways with what they should. With --short,
    sanitizers watch a third of the ways."""
    watched = ways[sum(stream) % 3::3] if library.is_short else ways
    for program, some in (library.events, ways), (library.sanitized, watched):
        for way in some if program else []:
            if library.is_complete or "long" not in way:
                found = output_of([program, *way], stream)
                assert found == wanted, f"{name}, {program.name} {' '.join(way)}, {stream[:60]}"


def compare_lines(library, name, stream, lines, ways):
    """Compares the events. A parser without a limit has the same if no command reaches it."""
    each = lines.splitlines(True)
    is_long = any(line.startswith(b"osc ") and len(line) >= 2 * LIMIT for line in each)
    compare(library, name, stream, lines, ways if is_long else ways + LONG_WAYS)
    for kinds, words in KINDS.items():
        kept = b"".join(line for line in each if line.split()[0].decode() in words)
        way = ["kinds", kinds, "0"]
        compare(library, name, stream, kept, [way] if is_long else [way, ["long", *way]])


def compare_losses(library, name, stream):
    """Compares the flags of commands with the definition: a command lost data if it has more
    without limits."""
    # a command is in what one ESC begins
    bodies = b"\x1b".join(body if b"]" in body else b"" for body in stream.split(b"\x1b"))

    def measure_commands(**limits):
        return [sum(len(piece) // 2 for piece in line.split()[3:])
                for line in definition.lines_of(bodies, house.House(**limits))
                if line.startswith("osc ")]

    all_data = measure_commands(limit=None, pieces=None)
    for parser, limit in ([], LIMIT), (["long"], None):
        wanted = b"".join(b"kept\n" if has == size else b"lost\n"
                          for has, size in zip(measure_commands(limit=limit), all_data))
        ways = [[*parser, "losses", chunk] for chunk in ("1", "4096", "0")]
        compare(library, name, stream, wanted, ways)


def join_lines(lines):
    return "".join(f"{line}\n" for line in lines).encode()


def test_vectors_give_their_events_and_text(library):
    """Events and text are as worked out by hand, for a parser that keeps 1,024 bytes."""
    def check_vector(case):
        vector, stream = case
        is_text = vector["kind"] == "text"
        wanted = bytes_of(vector["text"]) if is_text else join_lines(expand_lines(vector["events"]))
        ways = STRIP_WAYS if is_text else WAYS
        compare(library, f"vector: {vector['name']}", stream, wanted, [ways[0], ways[2]])

    run_at_once(check_vector, VECTORS)


def test_commands_lose_what_is_over_their_limits(library):
    ends = b"\a", b"\x18", b"\x1b"
    stream = b"".join(b"\x1b]" + data + end for data in COMMANDS for end in ends)
    stream += b"\x1b]2;" + MOST * 60 + b"\a"
    for parser, limit in ([], LIMIT), (["long"], None):
        lines = join_lines(definition.lines_of(stream, house.House(limit=limit)))
        compare(library, "commands", stream, lines, [[*parser, *way[:2]] for way in WAYS])
    compare_losses(library, "commands", stream)


def make_streams(option):
    """Vectors joined, recorded streams and groups of random ones, with their names. With --short no
    recorded one is longer than 4,000 bytes."""
    # CAN is between them, after which a stream starts afresh
    for name, is_long in ("vectors", False), ("long vectors", True):
        each = [stream for _, stream in VECTORS if (len(stream) > LIMIT) == is_long]
        yield name, b"\x18".join(each)
    for name, chunks in read_recorded():
        yield name, b"".join(chunks)[:4_000 if option.short else None]
    count = option.streams or (400 if option.short else 20_000)
    for at in range(0, count, 200):
        group = (b"".join(make_hostile_stream(option.seed, number, OF_TEXT))
                 for number in range(at, min(at + 200, count)))
        yield f"random streams {at // 200}", b"\x18".join(group)


def build_vtlog(option):
    """Builds the proved vtlog, or, with --short, cargo's."""
    if not option.short:
        return builder.build_proved_program("vtlog")
    words = ["build", "--release", "--offline", "--manifest-path", TOP / "rust/vtlog/Cargo.toml"]
    return builder.run([builder.CARGO_PRODUCT, *words], "vtlog").decode().rstrip("\n")


def test_all_programs_write_what_vtlog_does(library, request):
    """All programs write, in all ways, what vtlog does. With --short, stops are after one kind of
    event."""
    option = request.config.option
    vtlog = build_vtlog(option)

    def check_stream(numbered):
        number, (name, stream) = numbered
        stops = STOPS_WAYS[:2] if name.startswith("random") else STOPS_WAYS
        stops = [STOPS_WAYS[number % 9]] if option.short else stops
        compare_lines(library, name, stream, output_of([vtlog], stream), WAYS + stops)
        compare(library, name, stream, output_of([vtlog, "text"], stream), STRIP_WAYS)
        compare_losses(library, name, stream)

    run_at_once(check_stream, enumerate(make_streams(option)))
