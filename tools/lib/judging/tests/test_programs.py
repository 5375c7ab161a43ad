"""Tests of tools/judge on programs."""
import json
import os
import re
import shlex
import subprocess
import sys

import pytest
from lib.judging import candidate
from lib.judging.cases import read_recorded_cases
from lib.testing.support import wait_until, write_program
from support import TOOLS, TOY, run


def make_toy_words(fault=None, chunks=True, once=False):
    """Returns the arguments for the toy parser: those of the judge, and its command."""
    framed = ["--chunks"] * chunks
    command = [sys.executable, TOY, *framed, *["--once"] * once, *[fault] * bool(fault)]
    return [*framed, *command]


@pytest.fixture
def judge_toy(judge):
    """Runs tools/judge on the toy parser, and on forty streams if no other words say so."""
    def run_judge(wanted, *words, **how):
        few = ["--timeout", 120, "--streams", "random", "--count", 40]
        return judge(wanted, *few, *words, *make_toy_words(**how))
    return run_judge


def find_processes(word):
    """Finds the processes that have a word among their arguments, without tools/judge."""
    _, shown = run("ps", "-ww", "-eo", "args")
    return [line for line in shown.splitlines() if line.endswith(word)
            and "tools/judge " not in line]


@pytest.mark.parametrize("words, fault", [
    ("--house delete=drop --house bell=drop", "largest=9999"),
    ("--leave-out largest,delete --unreported ignore,bell --memory 999", "colon=separates"),
    ("", "stateful")])
def test_a_finding_can_be_shown_again(judge, judge_toy, words, fault):
    output = judge_toy(1, "--seconds", 600, *words.split(), fault=fault)
    name = re.search(r"^NEW +(\S+):", output, re.M)[1]
    again = shlex.split(re.search(r"^  again +tools/judge (.*)$", output, re.M)[1])
    assert {"--chunks", "--vtlog", "--timeout", "120.0", *words.split()} <= {*again}
    assert f"NEW   {name}:" in judge(1, *again)


RIGHT, NUMBER = "40 streams, 0 differ; 0 classes", "--case '1b 5b 39 31*4 61'"
# the status, words of the judge, faults and ways of the toy, and what is reported
OPTIONS = {
    "none": (0, "", {}, RIGHT),
    "of a program that reads one stream": (0, "", {"once": True}, RIGHT),
    "of a program that reads no chunks": (0, "", {"chunks": False}, RIGHT),
    "no streams": (1, "--count 0", {}, "0 streams"),
    "house rules that matter nowhere": (0, "--house delete=drop --house bell=drop", {}, ""),
    "a class that is left out": (0, "--leave-out delete", {"fault": "delete=drop"}, "0 differ"),
    "a case of a class that is left out": (
        0, "--leave-out delete --case '61 7f'", {"fault": "delete=drop"},
        "no difference: print 0061"),
    "a case": (0, NUMBER, {"fault": None, "chunks": False}, "csi [65535]"),
    "a case with a fault": (1, NUMBER, {"fault": "largest=9999", "chunks": False}, "csi [9999]"),
    "a case in chunks": (1, "--case 'c3 | a9'", {"fault": "divided"}, "NEW   cut:text/"),
    "a case after another": (1, "--case '62 / 0e / 61'", {"fault": "stateful"}, "NEW   kept-state"),
    "a case alone": (0, "--case 61", {"fault": "stateful"}, "no difference"),
    "json": (0, "--format json --case 61", {}, '"different": 0'),
    "junit": (0, "--format junit", {}, '<testsuite name="judge, seed 1"'),
    "a seed": (0, "--seed 7", {}, "; seed 7"),
    "a seed of a finding": (1, "--seed 7", {"fault": "largest=9"}, "of seed 7"),
    "recorded streams": (
        0, "--streams recorded", {}, f"{len([*read_recorded_cases('1')])} streams, 0 differ"),
    "a long timeout": (0, "--timeout 99.5", {}, "0 differ"),
    "no time": (1, "--timeout 0 --case 61", {}, "/hang:"),
    # it would end before its memory is measured
    "no memory": (1, "--memory 0 --case 61", {"fault": "idle"}, "(memory: more than 0 MiB)")}


@pytest.mark.parametrize("status, words, how, reported", OPTIONS.values(), ids=OPTIONS)
def test_options_decide_what_is_found(judge_toy, status, words, how, reported):
    assert reported in judge_toy(status, *shlex.split(words), **how)


def test_nothing_but_json_is_printed(judge_toy):
    words = ["--format", "json", "--case", "1b 5b 39 31*4 61"]
    reported = json.loads(judge_toy(1, *words, fault="largest=9999"))
    assert [finding["class"] for finding in reported["findings"]] == ["largest/numbers"]


ALLOCATE = "a = b'a' * (99 << 20); import time; time.sleep(60)"
# a command of the shell, what it may take, and how its answer ends
FAILURES = {
    "status": ("exit 3", {}, "(crash: status 3)"),
    "signal": ("kill -9 $$", {}, "(crash: signal 9)"),
    "too slow": ("sleep 9", {"timeout": 0.5}, candidate.HANG),
    "too much output": ("yes", {}, "(output: more than 32 MiB)"),
    "no memory": ("sleep 60", {"memory": 0}, "(memory: more than 0 MiB)"),
    "too much memory": (f'exec {sys.executable} -c "{ALLOCATE}"', {"memory": 50},
                        "(memory: more than 50 MiB)")}
# the same of one that reads framed chunks
FRAMED_FAILURES = {
    "no end": ("echo print 0061", candidate.EXIT),
    "no line feed": ("printf end", candidate.NO_LINE_FEED),
    "line ends of Windows": ("printf 'end\\r\\n'", "(protocol: its lines end in CR LF)"),
    "ends all the time": ("yes end", "(protocol: it prints more than it was asked for)"),
    "more than an end": ("echo end; echo execute 07",
                         "(protocol: it prints more than it was asked for)")}


def last_line_of(line, takes_chunks, **limits):
    """Returns the end of what a command answers to a long stream, of which the front is kept."""
    side = candidate.Program(["sh", "-c", line], takes_chunks, **{"timeout": 600, **limits})
    [answer] = side.answer_all([[b"a" * 100000]])
    side.close()
    assert len(answer) < 10000
    return answer[-1]


@pytest.mark.parametrize("takes_chunks", [False, True], ids=["whole", "framed"])
@pytest.mark.parametrize("line, limits, failure", FAILURES.values(), ids=FAILURES)
def test_how_a_program_failed_is_its_last_line(line, takes_chunks, limits, failure):
    assert last_line_of(line, takes_chunks, **limits) == failure


@pytest.mark.parametrize("line, failure", FRAMED_FAILURES.values(), ids=FRAMED_FAILURES)
def test_how_a_program_framed_wrongly_is_its_last_line(line, failure):
    assert last_line_of(line, takes_chunks=True) == failure


# of one case, and of the first stream, which ends the judge if it has no answer
@pytest.mark.parametrize("words, first, is_shown", [
    ("--case 61", "b", True), ("--streams random", "b", True),
    ("--streams random --count 2", "a", False)])
def test_where_standard_error_is_shown(judge, words, first, is_shown):
    said = judge(1, *words.split(), "sh", "-c",
                 f'echo wh""y >&2; [ "$(cat)" = {first} ] && echo print 0061 || exit 3')
    assert "(crash: status 3)" in said and ("why" in said) == is_shown


def test_a_program_that_does_not_answer_at_all(judge):
    said = judge(1, "echo", "hello")
    assert "NEW   protocol:" in said and "ended early: the program doesn't answer" in said
    assert "1 streams, 1 differ; 1 classes, 1 of them new" in said
    said = judge(1, "--chunks", "--seconds", 0.5, "sleep", "9")
    assert "ended early: the time was over" in said and "0 streams, 0 differ" in said


def test_nothing_survives_the_judge(vtlog):
    mark = f"sleep 7532.{os.getpid()}"
    # it hangs once most of what it prints was read, so that the guard knows of it
    words = ["--vtlog", vtlog, "--timeout", "600", "sh", "-c", "yes | head -c 200000; exec $MARK"]
    running = subprocess.Popen([sys.executable, TOOLS / "judge", *words],
                               stdout=subprocess.DEVNULL, env={**os.environ, "MARK": mark})
    try:
        wait_until(lambda: find_processes(mark) and running.poll() is None)
    finally:
        running.kill()
        running.wait()
    wait_until(lambda: not find_processes(mark), "the program has outlived the judge")


@pytest.mark.parametrize("takes_chunks", [True, False])
def test_the_children_of_a_program_are_ended(takes_chunks):
    mark = f"sleep 7531.{os.getpid()}"
    side = candidate.Program(["sh", "-c", f"{mark} & echo end; read line"], takes_chunks, 600)
    side.answer_all([[b"a"]])
    wait_until(lambda: not find_processes(mark))
    side.close()


def test_the_time_is_over_for_a_reference_too(judge, tmp_path):
    """The reference wakes up long after the end, also if the machine is busy."""
    vtlog = write_program(tmp_path / "vtlog", f"sleep 100; touch {tmp_path}/awake; sleep 3600")
    said = judge(1, "--vtlog", vtlog, "--seconds", 1, *make_toy_words())
    assert "ended early: the time was over" in said and not (tmp_path / "awake").exists()


def test_a_closed_standard_output_is_no_crash(vtlog):
    words = ["--vtlog", vtlog, "--count", 4, "--streams", "random", *make_toy_words(chunks=False)]
    reading, writing = os.pipe()
    os.close(reading)
    done = subprocess.run([sys.executable, TOOLS / "judge", *map(str, words)], stdout=writing,
                          stderr=subprocess.PIPE)
    os.close(writing)
    assert (done.returncode, done.stderr) == (1, b"")


def test_known_differences_are_passed(judge_toy, tmp_path):
    known, of_case = tmp_path / "known", ["--case", "1b 5b 39 31*4 61"]
    known.write_text("largest  # as our screen does\n")
    judge_toy(0, "--known", known, *of_case, fault="largest=9999")
    for status, words in (1, []), (0, ["--known", known]):
        judge_toy(status, *words, "--write-known", known, *of_case, fault="largest=9999")
        assert known.read_text() == "largest/numbers\n"


@pytest.mark.parametrize("words, message", [
    ("", "COMMAND is missing"), ("no-such-program", "not a program"),
    ("--house bell=x cat", "bell is one of"), ("--house limit=x cat", "limit is a number"),
    ("--house pieces=0 cat", "pieces is a number from 1"), ("--house numbers=0 cat", "numbers is"),
    ("--house x=1 cat", "unknown house"), ("--leave-out x cat", "unknown class"),
    ("--leave-out largest/numbers cat", "unknown class"), ("--unreported x cat", "unknown word"),
    ("--streams x cat", "unknown kind"), ("--known /no/file cat", "No such file"),
    ("--case 6 cat", "invalid case: '6'"), ("--vtlog /no/vtlog cat", "judge: not a program"),
    ("--vtlog /usr/bin/cat cat", "judge: /usr/bin/cat isn't vtlog"),
    ("--write-known /no/file cat", "No such file")])
def test_a_wrong_word_is_reported(judge, words, message):
    assert message in judge(2, *words.split())
