"""Tests of the options of tools/test_c_library."""
from argparse import ArgumentParser
from types import SimpleNamespace

import pytest
from lib.testing.support import run_here, write_program

import conftest
import test_streams


# words for pytest, and the random streams that they ask for
@pytest.mark.parametrize("words, count, seed", [
    ("", 20_000, 1), ("--short", 400, 1), ("--streams 250", 250, 1), ("--seed 7", 20_000, 7)])
def test_options_choose_the_streams(tmp_path, monkeypatch, words, count, seed):
    monkeypatch.chdir(tmp_path)
    write_program("tools/run_pytest", "shift; echo $*")
    assert run_here("test_c_library", *words.split()) == (0, [words])
    parser = ArgumentParser()
    conftest.pytest_addoption(SimpleNamespace(addoption=parser.add_argument))
    monkeypatch.setattr(test_streams, "make_hostile_stream",
                        lambda seed, index, *_: [b"%d %d" % (seed, index)])
    monkeypatch.setattr(test_streams, "read_recorded", lambda: [("long", [b"a" * 20_000])])
    streams = dict(test_streams.make_streams(parser.parse_args(words.split())))
    assert len(streams["long"]) == (4_000 if words == "--short" else 20_000)
    found = b"\x18".join(streams[name] for name in streams if name.startswith("random"))
    assert found.split(b"\x18") == [b"%d %d" % (seed, number) for number in range(count)]
