"""The kinds of benchmarks, and the programs and streams that they take.

Each kind yields rows: what was measured, and the nanoseconds per byte of each side, per round."""
import functools
import random
import subprocess
from concurrent.futures import ThreadPoolExecutor
from pathlib import Path

from lib.building import builder
from lib.files import TOP
from lib.generating import streams

# The sides: ours as rt proves and builds it (rattle), the same text in the crates of rust/, and the
# crate `vte`, these two in the best build (fat link-time optimization) and in cargo's default
# release profile.
IN_RUST = {"ours_best": "fat", "ours_release": "release", "vte_best": "fat",
           "vte_release": "release"}
OURS_IN_RUST = ("ours_best", "ours_release")
# the kinds of bench/peer that put text into memory: in runs, and character by character, both by
# ours in the best build, and those that do a part of it
REFERENCES = {"`from_utf8`": "utf8", "a copy": "copy"}
STRIPPERS = {"ours_best": "strip_runs", "`advance`": "strip", **REFERENCES}
# the kinds of bench/calls.c: each function of the C library, and the parser of libvterm
IN_C = ("vte_feed", "vte_long_feed", "vte_processor")
THEIRS_IN_C = "libvterm"
# the minimum time of a side in a round
SECONDS = 0.05

STREAMS = ["ascii", "prose", "cjk", "latin1", "ls_color", "coloured", "dense_cells", "random",
           "bad_ff", "bad_trunc4", "bad_alternate", "lead_esc", "osc_title", "osc_clipboard",
           "sixel", "updates"]
# streams with something to show on a screen
SCREEN_STREAMS = [*STREAMS, "emoji", "cursor"]
# streams to strip of sequences
STRIPPED = ["ascii", "prose", "cjk", "cyrillic", "emoji", "ls_color", "coloured", "latin1",
            "random"]
# those that std would not check to their end
MALFORMED = ["latin1", "random"]
# the streams of each kind, by the bytes of a call
STREAMS_OF = {
    "parser": {4096: [*STREAMS, "emoji", "esc_flood", "ignored", "sos_open"],
               65536: STREAMS, 1: ["ascii", "cjk", "dense_cells", "random"]},
    "screen": {4096: SCREEN_STREAMS},
    "processor": {4096: [*STREAMS, "cursor", "update_open"]},
    "terminal": {4096: SCREEN_STREAMS},
    "strip": {4096: STRIPPED},
    "calls": dict.fromkeys((1, 64, 4096), ["ascii", "ls_color", "coloured"])}
# streams of commands with more than the 1,024 bytes that Rattle's parser and processor keep
BEYOND_THE_LIMIT = ["osc_clipboard"]
# the streams that a side isn't measured with
LEFT_OUT = {"rattle": BEYOND_THE_LIMIT, "`from_utf8`": MALFORMED}
# the bytes of a stream whose checksums are compared: the crate takes quadratic time for malformed
# text in one call
CHECKED = 50_000


class Programs:
    """The programs, those in Rust in `placements` of their code, and a folder for streams."""

    def __init__(self, folder, placements=1):
        self.folder = Path(folder)
        self.placements = placements

    @functools.cache
    def build_peers(self, side):
        """Builds the program of a side of IN_RUST, once for each placement of its code. It has the
        default features of the crate, and so of rust/vte: commands have no limit."""
        return builder.build_peers(side in OURS_IN_RUST, self.folder / side, IN_RUST[side],
                                   self.placements)

    @functools.cached_property
    def c_program(self):
        """bench/calls.c with cargo's C library, and with libvterm if it is here."""
        return builder.build_c_program(TOP / "bench/calls.c", self.folder / "c")

    @functools.cached_property
    def proved_program(self):
        return builder.build_proved_program("benchmark", ["parser", "1", "1"])

    def build_commands(self, kind):
        """Builds the commands of each side: one for each placement of its code. Rattle's build has
        one."""
        if kind == "calls":
            sides = [*IN_C, *[THEIRS_IN_C] * builder.has_libvterm()]
            return {side: [[self.c_program, side]] for side in sides}
        if kind == "strip":
            return {side: [[program, name] for program in self.build_peers("ours_best")]
                    for side, name in STRIPPERS.items()}
        sides = {**{side: self.build_peers(side) for side in IN_RUST},
                 "rattle": [self.proved_program] * self.placements}
        return {side: [[program, kind] for program in of_side] for side, of_side in sides.items()}

    def build(self, kinds):
        """Builds every program that these kinds run, before one is measured."""
        sides = {"ours_best"} if "strip" in kinds else set()
        if "calls" in kinds:
            _ = self.c_program
        if set(kinds) - {"strip", "calls"}:
            sides = IN_RUST
            _ = self.proved_program
        with ThreadPoolExecutor() as pool:
            list(pool.map(self.build_peers, sides))

    def write_stream(self, name, size):
        """Writes a prefix of a stream, and returns its file."""
        path = self.folder / f"{name}_{size}"
        if not path.exists():
            path.write_bytes(streams.generate(name, size))
        return path


def run(words, path):
    """Returns the standard output and standard error of a program for the stream in a file."""
    with open(path, "rb") as stream:
        done = subprocess.run(words, stdin=stream, capture_output=True, text=True)
    if done.returncode != 0:
        builder.stop(f"{' '.join(map(str, words))}: status {done.returncode}: {done.stderr}")
    return done.stdout, done.stderr


def run_in_rounds(rounds, sides):
    """Times each side, round by round: a list, with the seconds of each of its programs, of which
    each has a timer.

    A round runs the first program of each side, one right after the other, then the second of
    each, and so on, in an order of its own."""
    times = {name: [[] for _ in range(rounds)] for name in sides}
    for count in range(rounds):
        order = random.sample([*sides], len(sides))
        for timers in zip(*(sides[name] for name in order)):
            for name, timer in zip(order, timers):
                times[name][count].append(timer())
    return times


def make_timer(words, path, chunk):
    """Makes a function that runs a program over a stream, and returns the seconds of its fastest
    pass."""
    def time_passes(passes):
        return int(run([*words, str(chunk), str(passes)], path)[1]) / 1e9

    passes = max(1, round(SECONDS / time_passes(1)))
    return lambda: time_passes(passes)


def compare_checksums(name, sides, path):
    """Stops if the sides' checksums of a stream differ. They get it in one call, because the
    crate's events can be wrong in chunks."""
    size = str(path.stat().st_size)
    checksums = {side: run([*commands[0], size, "1"], path)[0] for side, commands in sides.items()
                 if side not in REFERENCES}
    if len(set(checksums.values())) > 1:
        builder.stop(f"the checksums of {name} differ: {checksums}")


def measure_streams(kind, programs, options):
    """Measures each side over each stream: nanoseconds per byte, a number for each round and
    placement."""
    sides = programs.build_commands(kind)
    asked = {4096: options.streams} if options.streams else STREAMS_OF[kind]
    for name, chunk in ((name, chunk) for chunk, names in asked.items() for name in names):
        commands = {side: of_side for side, of_side in sides.items()
                    if name not in LEFT_OUT.get(side, [])}
        if kind != "calls":
            compare_checksums(name, commands, programs.write_stream(name, CHECKED))
        path = programs.write_stream(name, options.bytes)
        timers = {side: [make_timer(words, path, chunk) for words in of_side]
                  for side, of_side in commands.items()}
        times = run_in_rounds(options.rounds, timers)
        found = {side: [[time / options.bytes * 1e9 for time in seconds] for seconds in of_side]
                 for side, of_side in times.items()}
        yield {"kind": kind, "stream": name, "chunk": chunk, "nanoseconds": found}
