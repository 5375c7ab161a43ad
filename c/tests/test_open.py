"""What is open, at each byte of vectors and of hostile streams."""
from lib.generating.hostile_streams import make_hostile_stream
from lib.generating.vectors import bytes_of, read_vectors
from lib.judging.open_ends import open_at_end

from calling import OSC, make_parsers
from library import run_at_once


def test_each_prefix_is_open_as_the_grammar_says(library):
    """Each prefix is read byte by byte, and whole, if what is no command may be skipped."""
    def check_prefixes(stream):
        slow_parsers = make_parsers(library)
        for end in range(len(stream) + 1):
            for slow, fast in zip(slow_parsers, make_parsers(library)):
                rest = stream[:end]
                while rest:
                    rest = rest[fast.feed(rest, kinds=1 << OSC)[0]:]
                wanted = open_at_end(stream[:end])
                assert slow.find_open() == fast.find_open() == wanted, stream[:end]
                slow.feed(stream[end:end + 1], kinds=0)

    by_hand = [bytes_of(vector["chunks"]) for vector in read_vectors()
               if vector["kind"] == "events"]
    hostile = [b"".join(make_hostile_stream(52, number)) for number in range(100)]
    run_at_once(check_prefixes, [stream for stream in by_hand + hostile if len(stream) < 300])
