"""The program that is judged: it reads streams, whole or in framed chunks (docs/JUDGE.md), and
prints the lines of events.

If the program doesn't answer as it should, the last line of its answer is its failure, such as
`(crash: signal 11)`.
"""
import concurrent.futures
import os
import re
import select
import signal
import subprocess
import sys
import tempfile
import threading
import time
from contextlib import contextmanager, suppress

END_OF_STREAM = b"\xff\xff\xff\xff"
FAILURE = re.compile(r"\((crash|hang|memory|output|protocol): .*\)")
HEX = r"(-|([0-9a-f]{2})+)"
IGNORE = "(-|true|false)"
LINE = re.compile(rf"print [0-9a-f]{{4,6}}|(execute|put) [0-9a-f]{{2}}|unhook"
                  rf"|(csi|hook) \[[0-9:;]*\] {HEX} {IGNORE} [0-9a-f]{{2}}"
                  rf"|esc {HEX} {IGNORE} [0-9a-f]{{2}}|osc {IGNORE} \d+( {HEX})*")
HANG = "(hang: no answer in time)"
EXIT = "(protocol: it ended without a line `end`)"
NO_LINE_FEED = "(protocol: no line feed after `end`)"
# the most bytes of an answer, and how many are kept of a longer one
MAX_OUTPUT, KEPT_OUTPUT = 1 << 25, 1 << 14
# a process that ends all groups of processes that were reported to it, once the judge is gone
GUARD = """
import contextlib, os, signal, sys
groups = set()
for line in sys.stdin:
    (groups.add if line[0] == "+" else groups.discard)(int(line[1:]))
for group in groups:
    with contextlib.suppress(OSError):
        os.killpg(group, signal.SIGKILL)
"""


class OutOfTime(Exception):
    """The time of the run is over."""


class Broken(Exception):
    """The program passed a limit or broke the protocol, in the words of the failure."""


def frame(chunks):
    """Returns a stream in chunks, as the program reads it."""
    return b"".join(len(chunk).to_bytes(4, "little") + chunk for chunk in chunks) + END_OF_STREAM


def escape_controls(text):
    """Returns a text without control characters, such as a terminal or a file of text can take."""
    return re.sub(r"[^ -~]", lambda found: found[0].encode("unicode_escape").decode(), text)


def answer_of(output, failure=""):
    """The lines of an output and a failure. Without one, each must be the line of an event."""
    kept = bytes(output[:KEPT_OUTPUT] if failure.startswith("(output") else output)
    lines = kept.decode("ascii", "backslashreplace").removesuffix("\n").split("\n") if kept else []
    wrong = None if failure else next((line for line in lines if not LINE.fullmatch(line)), None)
    if wrong is not None:
        lines = lines[:lines.index(wrong)]
        failure = f"(protocol: this is no event line: '{escape_controls(wrong[:60])}')"
    return [escape_controls(line) for line in lines] + [failure] * bool(failure)


def failure_of(lines):
    """Returns the kind of the failure that ends an answer, or None."""
    failure = FAILURE.fullmatch(lines[-1]) if lines else None
    return failure and failure[1]


class Program:
    """A command, which finds the rules of its house in the environment variable JUDGE_HOUSE."""

    # how many cases can be tried at once, each by a process of its own
    at_once = os.cpu_count() or 1

    def __init__(self, command, takes_chunks, timeout, house=(), errors=subprocess.DEVNULL,
                 memory=2048):
        self.command, self.takes_chunks = command, takes_chunks
        self.timeout, self.memory = timeout, memory
        # the number of streams that it is judged on before what differs is examined
        self.batch = self.for_one_process = 200 if takes_chunks else 40
        # the time at which the run is over
        self.deadline = None
        self.process_options = {
            "stdout": subprocess.PIPE, "stderr": errors, "start_new_session": True,
            "env": {**os.environ, "JUDGE_HOUSE": ",".join(house)}}
        self.guard = subprocess.Popen([sys.executable, "-S", "-c", GUARD], stdin=subprocess.PIPE,
                                      start_new_session=True)
        self.lock = threading.Lock()
        self.threads = concurrent.futures.ThreadPoolExecutor(self.at_once)

    def close(self):
        """Ends the guard, and with it all that is left."""
        self.guard.stdin.close()
        self.guard.wait()

    def answer_all(self, cases):
        """Returns the lines for each case, a list of chunks. New processes get them: one each, or
        all if they are framed."""
        if not self.takes_chunks:
            return list(self.threads.map(self.answer, cases))
        answers = []
        while len(answers) < len(cases):
            batch = cases[len(answers):len(answers) + self.for_one_process]
            answers += self.answer_in_process(batch)
        return answers

    def answer_aloud(self, chunks):
        """Gives a stream to a process whose standard error is shown."""
        self.process_options["stderr"] = None
        self.answer_all([chunks])

    def answer(self, chunks):
        """Returns what a process prints until it ends."""
        output, until, failure = bytearray(), time.monotonic() + self.timeout, ""
        with self.run_process(b"".join(chunks)) as process:
            try:
                while self.read_some(process, output, until):
                    pass
                self.check_status(process, until)
            except Broken as broken:
                failure = str(broken)
        return answer_of(output, failure)

    def answer_in_process(self, cases):
        """Returns the answers up to the one at which a process ends or stops, if it does."""
        # it begins with the line feed before the next answer
        answers, output = [], bytearray(b"\n")
        with self.run_process(b"".join(map(frame, cases))) as process:
            try:
                while len(answers) < len(cases):
                    until = time.monotonic() + self.timeout
                    answers.append(self.read_answer(process, output, until))
            except Broken as broken:
                failure = str(broken)
                if failure == EXIT and output == b"\n" and answers:
                    # it exited after an answer: from now on each process gets one stream
                    self.for_one_process = 1
                    return answers
                is_end = output.endswith(b"\nend")
                return [*answers, answer_of(output[1:], NO_LINE_FEED if is_end else failure)]
            if self.prints_more(process, output):
                answers[-1].append("(protocol: it prints more than it was asked for)")
        return answers

    def read_answer(self, process, output, until):
        searched = 0
        while True:
            position = output.find(b"\nend\n", searched)
            if position >= 0:
                answer, output[:] = output[1:position + 1], output[position + 4:]
                return answer_of(answer)
            if output.find(b"\nend\r\n", searched) >= 0:
                raise Broken("(protocol: its lines end in CR LF)")
            searched = max(0, len(output) - 6)
            if not self.read_some(process, output, until):
                self.check_status(process, until)
                raise Broken(EXIT)

    def prints_more(self, process, output):
        """Whether something follows the last answer, within a second."""
        until = time.monotonic() + 1
        with suppress(Broken):
            while output == b"\n" and self.read_some(process, output, until):
                pass
        return output != b"\n"

    # ---- a process

    @contextmanager
    def run_process(self, data):
        """A process that reads some bytes. In the end it is killed, and what it started too."""
        with tempfile.TemporaryFile() as file:
            file.write(data)
            file.seek(0)
            process = subprocess.Popen(self.command, stdin=file, **self.process_options)
        self.report_to_guard(b"+", process)
        try:
            yield process
        finally:
            with suppress(OSError):
                os.killpg(process.pid, signal.SIGKILL)
            process.wait()
            self.report_to_guard(b"-", process)
            process.stdout.close()

    def report_to_guard(self, sign, process):
        with self.lock:
            self.guard.stdin.write(b"%s%d\n" % (sign, process.pid))
            self.guard.stdin.flush()

    def read_some(self, process, output, until):
        """Reads what comes next. Returns False at the end of the output."""
        pipe = process.stdout.fileno()
        while True:
            now = time.monotonic()
            if self.deadline is not None and now >= self.deadline:
                raise OutOfTime
            if now >= until:
                raise Broken(HANG)
            if measure_memory(process) > self.memory << 20:
                raise Broken(f"(memory: more than {self.memory} MiB)")
            if len(output) > MAX_OUTPUT:
                raise Broken(f"(output: more than {MAX_OUTPUT >> 20} MiB)")
            has_ended = process.poll() is not None
            if select.select([pipe], [], [], 0 if has_ended else 0.1)[0]:
                read = os.read(pipe, 1 << 20)
                output += read
                return bool(read)
            if has_ended:
                return False

    def check_status(self, process, until):
        """Raises Broken for a process that closed its output, and fails or doesn't end in time."""
        try:
            status = process.wait(max(0, until - time.monotonic()))
        except subprocess.TimeoutExpired:
            raise Broken(HANG) from None
        if status:
            raise Broken(f"(crash: signal {-status})" if status < 0
                         else f"(crash: status {status})")


def measure_memory(process):
    """Measures the bytes of memory that a process uses, if the system shows them in /proc."""
    try:
        with open(f"/proc/{process.pid}/statm", "rb") as file:
            return int(file.read().split()[1]) * os.sysconf("SC_PAGE_SIZE")
    except (OSError, IndexError):
        return 0
