"""The streams on which a parser is judged: vectors, recorded, random and hostile ones, in chunks.
"""
import random
from typing import NamedTuple

from lib.generating.hostile_streams import OF_TEXT, make_hostile_stream
from lib.generating.random_text import cut_at_random
from lib.generating.vectors import chunks_of, read_vectors
from lib.generating.streams import read_recorded

SOURCES = ("vectors", "random", "recorded")


class Case(NamedTuple):
    """A stream in chunks, and where it comes from."""

    name: str
    chunks: list


def read_vector_cases():
    """Yields the streams of all vectors but those of texts, which are no streams."""
    for vector in read_vectors():
        if "text" not in vector or "chunks" in vector:
            yield Case(f"vector {vector['id']}", chunks_of(vector))


def read_recorded_cases(seed):
    """Yields recorded streams: as they came, and in random chunks."""
    for name, chunks in read_recorded():
        yield Case(f"recorded stream {name}", chunks)
        chance = random.Random(f"recorded/{seed}/{name}")
        share = chance.choice([0.003, 0.03, 0.3])
        cut = cut_at_random(chance, b"".join(chunks), share)
        yield Case(f"recorded stream {name} in random chunks", cut)


def make_random_cases(seed, count):
    """Yields hostile streams, of all and mostly of text, in turn. One depends on the seed and its
    number."""
    for number in range(count):
        if number % 2:
            yield Case(f"stream {number} of seed {seed}, mostly text",
                       make_hostile_stream(f"text/{seed}", number, OF_TEXT))
        else:
            yield Case(f"stream {number} of seed {seed}", make_hostile_stream(seed, number))


def make_cases(sources, seed, count):
    """Yields the cases of these sources, the short ones first."""
    if "vectors" in sources:
        yield from read_vector_cases()
    if "random" in sources:
        yield from make_random_cases(seed, count)
    if "recorded" in sources:
        yield from read_recorded_cases(seed)
