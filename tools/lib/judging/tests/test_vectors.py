"""Tests of vectors/: the files, and the runners in each language."""
import hashlib
import json
import os
import re
import shutil
import sys

import my_parser
import pytest
from heads import head_of
from lib.generating.vectors import bytes_of, expand_lines
from lib.judging import definition
from lib.judging.house import House
from lib.testing.missing import miss, need
from support import EVENTS, FILES, NAMES, VECTORS, run

each_file = pytest.mark.parametrize("file", FILES, ids=NAMES)
# how many vectors of each list are in place, with ids that stay, and a sum of these ids: new ones
# stand at its end
IN_PLACE = [(213, "7d85a43d030b2875"), (6, "ba7ddb15de71999a"),
            (621, "abe71ec905946e15"), (1, "a188b83b953547bb")]


def test_ids_stay_and_differ():
    ids = [[vector["id"] for vector in file[name]]
           for file in FILES for name in ("vectors", "long")]
    sums = [hashlib.sha256(" ".join(some[:count]).encode()).hexdigest()[:16]
            for some, (count, _) in zip(ids, IN_PLACE)]
    assert sums == [wanted for _, wanted in IN_PLACE]
    assert len({*sum(ids, [])}) == sum(map(len, ids))


@each_file
def test_heads_follow_from_vectors(file):
    """If a head is wrong, this prints the right one."""
    for vector in file["vectors"] + file["long"]:
        head = head_of(vector, file["rules"])
        assert {name: vector.get(name) for name in head} == head, (
            f"{vector['id']}: {json.dumps(head)}")


@each_file
def test_rules_are_those_of_the_vectors(file):
    used = {name for vector in file["vectors"] + file["long"] for name in vector["rules"]}
    assert used == file["rules"].keys()
    events = FILES[0]["rules"]
    assert all(rule == events.get(name, rule) for name, rule in file["rules"].items())


@pytest.mark.parametrize("name, file", zip(NAMES, FILES), ids=NAMES)
def test_a_vector_is_a_line(name, file):
    lines = (VECTORS / f"{name}.json").read_text().splitlines()
    wanted = [json.dumps(vector) for vector in file["vectors"] + file["long"]]
    assert [line.rstrip(",") for line in lines if line.startswith('{"id": ')] == wanted


def test_vectors_have_the_order_of_keys_that_run_c_relies_on():
    """It reads no JSON: it looks for texts in a vector's line, such as of a limit before chunks."""
    order = "id name kind level rules house limit chunks events strongest".split()
    assert all([*vector][:len(order)] == order for vector in EVENTS)


@each_file
def test_files_match_the_schema(file):
    try:
        import jsonschema
    except ImportError:
        miss("there is no python3-jsonschema")
    jsonschema.validate(file, json.loads((VECTORS / "schema.json").read_text()))


@pytest.mark.parametrize("vector", EVENTS, ids=lambda vector: vector["id"])
def test_definition_gives_the_vectors(vector):
    stream = b"".join(map(bytes_of, vector["chunks"]))
    lines = definition.lines_of(stream, House(limit=vector["limit"]))
    assert "\n".join(lines) == "\n".join(expand_lines(vector["events"]))


# in each language what builds the runner and what runs it, and how the example ignores chunks that
# are as long as $SKIP, and fails without $SKIP
RUNNERS = {
    "py": ("", f"{sys.executable} -B run.py",
           [('b"".join(chunks)',
             'b"".join(chunk for chunk in chunks'
             ' if len(chunk) != len(__import__("os").environ["SKIP"]))')]),
    "c": ("cc -Wall -Wextra -Werror run.c my_parser.c", "./a.out",
          [("#include <stdio.h>", "#include <stdio.h>\n#include <stdlib.h>\n#include <string.h>"),
           ("i < length;", 'i < length && length != strlen(getenv("SKIP"));')]),
    "js": ("", "node run.js my_parser.js",
           [("Buffer.concat(chunks)",
             "Buffer.concat(chunks.filter((chunk) => chunk.length != process.env.SKIP.length))")]),
    "go": ("go build -o runner run.go my_parser.go", "./runner",
           [('import "fmt"', 'import ("fmt"; "os")'),
            ("range chunks {",
             'range chunks { if skip, is := os.LookupEnv("SKIP"); !is { panic(is) }'
             " else if len(chunk) == len(skip) { continue }")])}


@pytest.fixture(params=RUNNERS)
def language(request):
    command = next(filter(None, RUNNERS[request.param][:2])).split()[0]
    need(command, f"vectors/run.{request.param} was not tried")
    return request.param


def build_example(folder, suffix, changes=()):
    """Builds a runner and its example in a folder, with some texts replaced."""
    for name in (f"run.{suffix}", "events.json"):
        shutil.copy(VECTORS / name, folder)
    example = (VECTORS / "examples" / f"my_parser.{suffix}").read_text()
    for old, new in changes:
        assert example.count(old) == 1
        example = example.replace(old, new)
    (folder / f"my_parser.{suffix}").write_text(example)
    status, output = run("sh", "-c", RUNNERS[suffix][0], cwd=folder)
    assert status == 0, output


def test_a_runner_tries_each_way(language, tmp_path):
    """A vector as it is, in one chunk and byte by byte: it is wrong if chunks of one of these
    lengths are ignored, and this cut is printed. One that fails is named."""
    build_example(tmp_path, language, RUNNERS[language][2])
    vector = dict(EVENTS[0], id="abcd", chunks=["6162", [{"repeat": "63", "times": 2}]],
                  events=["print 0061", "print 0062", {"repeat": "print 0063", "times": 2}])
    text = '{"vectors": [\n],\n"long": [\n' + json.dumps(vector) + "\n]}\n"
    (tmp_path / "events.json").write_text(text)
    for skip, cut in (("aaa", None), ("aa", "6162.*6363"), ("aaaa", "61626363"),
                      ("a", "61.*62.*63.*63"), (None, "")):
        variables = os.environ | ({} if skip is None else {"SKIP": skip})
        command = f"{RUNNERS[language][1]} <events.json"
        status, output = run("sh", "-c", command, cwd=tmp_path, env=variables)
        assert status == int(cut is not None), output
        assert re.search("^0 of 1" if cut is None else f"abcd.*{cut}", output), output


LEFT_OUT = {"py": "delete", "c": "differs", "js": "colon", "go": "should"}


def test_a_runner_counts_what_is_wrong(language, tmp_path):
    """The example gets all vectors wrong but those of text and C0. It fails if none is tried."""
    build_example(tmp_path, language)
    levels = {name: rule["level"] for name, rule in FILES[0]["rules"].items()}

    def words_of(vector):
        own = {levels[rule] for rule in vector["rules"]}
        strongest = next((level for level in ("must", "should", "differs") if level in own), "must")
        return {vector["level"], f"strongest={strongest}", *vector["rules"], *vector["house"]}

    for left_out in LEFT_OUT[language], "strongest=should strongest=differs":
        status, output = run("sh", "-c", f"{RUNNERS[language][1]} {left_out} <events.json",
                             cwd=tmp_path)
        some = [vector for vector in EVENTS if vector["limit"] == 1024
                and not words_of(vector) & {*left_out.split()}]
        wrong = sum("\n".join(my_parser.parse_chunks(map(bytes_of, vector["chunks"])))
                    != "\n".join(expand_lines(vector["events"])) for vector in some)
        assert 1 < len(some) < len(EVENTS)
        assert status == 1 and re.search(rf"(?m)^{wrong} of {len(some)} wrong$", output), output
    none = run("sh", "-c", f"{RUNNERS[language][1]} must should differs <events.json", cwd=tmp_path)
    assert none[0] == 1 and none[1].startswith("0 of 0 wrong\n")
    wrong_use = {"js": "node run.js", "go": "./runner <run.go"}.get(language, "exit 2")
    assert run("sh", "-c", wrong_use, cwd=tmp_path)[0] == 2
