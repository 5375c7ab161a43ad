#!/usr/bin/env python3
"""Tries a parser on events.json: run.py [WORD ..]

Import it here as `parse_chunks`, a function from chunks to event lines. Each vector of the kind
events is tried as it is, in one chunk, and byte by byte. A word is a level, a rule, a house rule,
or strongest=LEVEL (docs/JUDGE.md): vectors that have it are left out. The status is 0 if all are
right, and 1 if not or if none is left.
"""
import json
import sys
from pathlib import Path

sys.path.insert(0, str(Path.cwd()))
from my_parser import parse_chunks


def expand(value, end=""):
    """The text of bytes in hex or, with a line feed as the end, of lines."""
    if isinstance(value, list):
        return "".join(expand(item, end) for item in value)
    if isinstance(value, dict):
        is_line = "line" in value
        text = expand(value["line"]) if is_line else value["repeat"]
        return (text + end) * value.get("times", 1)
    return value + end


def answer(chunks):
    try:
        return "".join(f"{line}\n" for line in parse_chunks(chunks))
    except Exception as error:
        return repr(error)


def is_left_out(vector, words):
    """Whether a vector is none of those to try, or has one of the words."""
    if vector["kind"] != "events" or vector["limit"] != 1024:
        return True
    own = {vector["level"], f"strongest={vector['strongest']}", *vector["rules"], *vector["house"]}
    return not own.isdisjoint(words)


def try_vector(vector):
    """Returns whether a vector is right in each way, and prints the first in which it is wrong."""
    chunks = [bytes.fromhex(expand(chunk)) for chunk in vector["chunks"]]
    stream, wanted = b"".join(chunks), expand(vector["events"], "\n")
    for cut in chunks, [stream], [bytes([byte]) for byte in stream]:
        got = answer(cut)
        if got != wanted:
            shown = " ".join(chunk.hex() for chunk in cut)
            print(f"{vector['id']}: {shown[:300]} gives {json.dumps(got[:300])}, "
                  f"not {json.dumps(wanted[:300])} "
                  f"({vector['level']}: {', '.join(vector['rules'])})")
            return False
    return True


def main():
    file = json.loads((Path(__file__).parent / "events.json").read_text())
    tried = [vector for vector in file["vectors"] + file["long"]
             if not is_left_out(vector, sys.argv[1:])]
    wrong = sum(not try_vector(vector) for vector in tried)
    print(f"{wrong} of {len(tried)} wrong")
    return wrong > 0 or not tried


if __name__ == "__main__":
    sys.exit(main())
