"""Tests of examples/strip_on_dask.py: a scheduler and three workers, each a process of its own."""
import json
import re
import resource
import subprocess
import sys

import pytest
from common import EXAMPLES, LONG, STREAMS, VTLOG, run_vtlog, until

import vte

pytest.importorskip("distributed", reason="no python3-distributed")
pytest.importorskip("fsspec", reason="no python3-fsspec")
import cloudpickle  # noqa: E402
import strip_on_dask  # noqa: E402

# workers can't import it, as they couldn't what is run as a program
cloudpickle.register_pickle_by_value(strip_on_dask)
pytestmark = pytest.mark.filterwarnings("ignore::DeprecationWarning")
MANY = b"".join(b"text %d \x1b[%dm\xc3" % (it, it) for it in range(10_000))


class Cluster:
    """A scheduler and three workers, which aren't started again."""

    def __init__(self, folder):
        self.processes, self.file = [], folder / "scheduler.json"
        self.start("scheduler", "--port", "0")
        until(lambda: self.file.is_file() and self.file.read_text().endswith("}"))
        self.address = json.loads(self.file.read_text())["address"]
        for _ in range(3):
            self.start("worker", "--no-nanny", "--nthreads", "1", "--local-directory", folder)

    def __enter__(self):
        return self

    def __exit__(self, *_):
        for process in self.processes:
            process.kill()
            process.wait()

    def start(self, kind, *words):
        command = [sys.executable, "-m", f"distributed.cli.dask_{kind}", "--scheduler-file",
                   self.file, "--no-dashboard", "--host", "127.0.0.1", *words]
        self.processes.append(subprocess.Popen(command, stdout=subprocess.DEVNULL,
                                               stderr=subprocess.DEVNULL))

    def strip(self, *words):
        strip_on_dask.main(["--scheduler", self.address, *map(str, words)])

    def begin(self, out, *words):
        """Starts the program as a process of its own, and returns it when there are 20 pieces."""
        command = [sys.executable, EXAMPLES / "strip_on_dask.py", "--scheduler", self.address]
        begun = subprocess.Popen([*command, *words], stdout=subprocess.DEVNULL,
                                 stderr=subprocess.PIPE, text=True)
        until(lambda: len(pieces_of(out)) > 20)
        return begun


@pytest.fixture(scope="module")
def cluster(tmp_path_factory):
    with Cluster(tmp_path_factory.mktemp("cluster")) as made:
        yield made


@pytest.fixture
def file(tmp_path):
    path = tmp_path / "many"
    path.write_bytes(MANY)
    return path


@pytest.fixture
def out(tmp_path):
    """The folder of the pieces of this file."""
    return tmp_path / "out" / "many"


def pieces_of(folder):
    return sorted(folder.iterdir()) if folder.is_dir() else []


def assert_joined(folder, stream):
    """The pieces are the text, and nothing else is there, not even what is hidden."""
    pieces = pieces_of(folder)
    assert [int(piece.name[:8]) for piece in pieces] == [*range(len(pieces))]
    text = run_vtlog(stream, "text") if VTLOG else vte.strip(stream)
    assert b"".join(piece.read_bytes() for piece in pieces) == text


@pytest.mark.parametrize("size", [1, 100, 1 << 30])
def test_pieces_are_the_text(cluster, tmp_path, size):
    # the vectors would have 930 parts
    files = [tmp_path / name for name in STREAMS if size > 1 or name != "vectors"]
    for path in files:
        path.write_bytes(STREAMS[path.name])
    cluster.strip(*files, "--out", tmp_path / "out", "--size", size)
    for path in files:
        assert_joined(tmp_path / "out" / path.name, STREAMS[path.name])


def test_a_worker_that_is_killed_costs_nothing(cluster, file, out):
    begun = cluster.begin(out, file, "--out", out.parent, "--size", "500")
    cluster.processes[1].kill()
    there, said = len(pieces_of(out)), begun.communicate(timeout=LONG)[1]
    assert begun.returncode == 0, said
    assert there < len(pieces_of(out))
    assert_joined(out, MANY)


def test_a_second_run_does_what_is_missing(cluster, file, out, capsys):
    words = [file, "--out", out.parent, "--size", "500"]
    begun = cluster.begin(out, *words)
    begun.kill()
    begun.communicate()
    (out / ".unfinished").write_bytes(b"of a worker that has died")
    cluster.strip(*words)
    assert_joined(out, MANY)
    total = len(pieces_of(out))
    for piece in pieces_of(out)[::50]:
        piece.unlink()
    before = {piece: piece.stat().st_mtime_ns for piece in pieces_of(out)}
    capsys.readouterr()
    for missing in total - len(before), 0:
        cluster.strip(*words)
        assert capsys.readouterr().out.splitlines()[0] == f"missing pieces: {missing}"
        assert_joined(out, MANY)
    assert before == {piece: piece.stat().st_mtime_ns for piece in before}


def limit_files(cluster, size):
    for process in cluster.processes[1:]:
        if process.poll() is None:
            resource.prlimit(process.pid, resource.RLIMIT_FSIZE, (size, -1))


def assert_says(cluster, words, said):
    with pytest.raises(SystemExit, match=re.escape(f"strip_on_dask: {said}")):
        cluster.strip(*words)


def test_no_half_piece_is_written(cluster, file, out):
    words = [file, "--out", out.parent, "--size", "50000"]
    limit_files(cluster, 4096)
    assert_says(cluster, words, f"[Errno 27] File too large: '{out}/0000000")
    # the other workers may still be at a piece, which they can't write either
    until(lambda: not pieces_of(out))
    limit_files(cluster, -1)
    # if there is room, the same command goes on
    cluster.strip(*words)
    assert_joined(out, MANY)


def test_what_can_not_be_read_or_written_is_named(cluster, tmp_path, file, out):
    out.mkdir(parents=True)
    (out / "other").touch()
    for words, said in [
            ([file, "--out", file], f"[Errno 20] Not a directory: '{file}/many'"),
            ([file, "--out", "/proc"], "[Errno 2] No such file or directory: '/proc/many'"),
            ([out / "none", "--out", tmp_path],
             f"[Errno 2] No such file or directory: '{out}/none'"),
            ([file, file, "--out", tmp_path], "two files have the same name"),
            ([file, "--out", tmp_path, "--size", "0"], "size must be at least 1, not 0"),
            ([file, "--out", out.parent, "--size", "500"],
             f"{out}: other is no piece of {file} with --size 500")]:
        assert_says(cluster, words, said)
    assert pieces_of(out) == [out / "other"]


def test_a_lost_scheduler_is_named(tmp_path, file, out):
    with Cluster(tmp_path) as cluster:
        begun = cluster.begin(out, file, "--out", out.parent, "--size", "100")
        cluster.processes[0].kill()
        said = begun.communicate(timeout=LONG)[1]
    assert said.endswith("strip_on_dask: the scheduler was lost\n")
    assert begun.returncode == 1
