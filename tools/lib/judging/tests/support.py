"""What the tests of the judge and of the vectors share."""
import json
import subprocess
from pathlib import Path
from types import SimpleNamespace

from lib.judging import definition, house, views
from lib.judging.judgement import Judge
from lib.testing.support import TOOLS

VECTORS = TOOLS.parent / "vectors"
TOY = Path(__file__).with_name("toy.py")
NAMES = ["events", "calls"]
FILES = [json.loads((VECTORS / f"{name}.json").read_text()) for name in NAMES]
EVENTS = [vector for vector in FILES[0]["vectors"] + FILES[0]["long"]
          if vector["kind"] == "events"]


def run(*words, **how):
    """Returns the status and the output of a program."""
    done = subprocess.run(list(map(str, words)), stdout=subprocess.PIPE, stderr=subprocess.STDOUT,
                          text=True, **how)
    return done.returncode, done.stdout


def answer_rightly(chunks, _=()):
    return definition.lines_of(b"".join(chunks))


class Side:
    """A function of the chunks of a stream, and of the streams before it, as a program."""

    takes_chunks, batch, at_once, deadline = True, 50, 1, None

    def __init__(self, answer):
        self.answer = answer

    def answer_all(self, streams):
        return [self.answer(chunks, streams[:index]) for index, chunks in enumerate(streams)]

    def answer_aloud(self, chunks):
        self.answer_all([chunks])


def judge_of(answer, **options):
    """Returns a judge of a function, or of a side. The definition is the reference."""
    defined = SimpleNamespace(answer_all=lambda streams: [*map(definition.lines_of, streams)])
    side = answer if isinstance(answer, Side) else Side(answer)
    return Judge(defined, side, views.View(), house.DEFAULT, **options)
