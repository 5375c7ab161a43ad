"""The test vectors of vectors/, and private ones of the same form. docs/TESTING.md says how one is
added."""
import json
import re
from pathlib import Path

from lib.files import TOP


def read_vectors():
    for name in ("events", "calls"):
        file = json.loads((TOP / "vectors" / f"{name}.json").read_text())
        yield from file["vectors"] + file["long"]


def read_all_vectors():
    private = Path(__file__).with_name("private_vectors.json")
    return [*read_vectors(), *json.loads(private.read_text())]


def chunks_of(vector):
    """Returns the stream of a vector, in chunks; a text alone has none."""
    steps = [step.get("advance", step.get("bytes", "")) for step in vector.get("steps", [])]
    chunks = [*vector.get("chunks", []), vector.get("before", ""), *steps]
    return [bytes_of(chunk) for chunk in chunks if chunk] or [b""]


def parts_of(value):
    """Returns the (text, times) parts of bytes in hex, of a line, or of lists of these."""
    if isinstance(value, str):
        return [(value, 1)]
    if isinstance(value, dict):
        return parts_of(value["line"]) if "line" in value else [(value["repeat"], value["times"])]
    return [part for item in value for part in parts_of(item)]


def bytes_of(value):
    return b"".join(bytes.fromhex(text) * times for text, times in parts_of(value))


def expand_lines(values):
    """Returns the lines of an answer, with repetitions written out."""
    lines = []
    for value in values:
        if isinstance(value, dict) and "repeat" in value:
            lines += [value["repeat"]] * value["times"]
        else:
            lines.append("".join(text * times for text, times in parts_of(value)))
    return lines


def split_repeated(text):
    """(front, unit, times, back): the text about its longest run of one short unit."""
    best, half = (text, text[:0], 0, text[:0]), text[len(text) // 2:]
    # a run of more than half is in the middle, and ends the search
    for width in sorted(range(1, 61), key=lambda size: half[:size] != half[size:2 * size]):
        run = rf"(.{{{width}}})\1+"
        run, at = re.compile(run if isinstance(text, str) else run.encode(), re.S), 0
        while found := run.search(text, at):
            start, end = found.span()
            if end - start > best[2] * len(best[1]):
                best = (text[:start], found[1], (end - start) // width, text[end:])
            at = end - width + 1
        if 2 * best[2] * len(best[1]) > len(text):
            break
    return best
