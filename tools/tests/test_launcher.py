"""Tests of the launcher `vtlog`, with an `rt` and a `cargo` that only say what they are asked."""
import os
import re
import shutil
import signal
import subprocess
import time
from pathlib import Path

import pytest
from lib.files import TOP
from lib.testing.missing import need
from lib.testing.support import wait_until, write, write_program

WHOLE_PATH = os.environ["PATH"]
# what the launcher may use
USED = ("bash cat chmod dirname env find grep iconv mkdir mktemp readlink rm sed sh tail "
        "touch").split()
BEGINS = "vtlog: proving and building the program, at first in 4 to 7 minutes on 4 quiet cores\n"
BUILT = f"{BEGINS}vtlog: built in N s\n"
FAILED = "vtlog: the program could not be built; above are the last lines of the log\n"
UNPROVED = "vtlog: there is no rt of a Rattle kit; cargo built the same text, unproved\n"
UNEXPECTED = ('vtlog: unexpected argument\nvtlog: "{}": it reads standard input, as in vtlog text '
              "<FILE; see vtlog --help\n")
ALL = "vte_core lib\nevent_log lib\nvtlog run\n"

# They note their folder, their words and what they read, and make a program that prints its own.
# Files beside the launcher say what else happens to a build: `fails`, `idles` and `unstamped` let
# it fail, make nothing, and no stamp; it waits while `hangs` is there. It prints `log`.
RT = r"""
echo "${PWD##*/} $*" >>"$TOP/asked"
cat >>"$TOP/asked"
[ -e "$TOP/fails" ] && { cat "$TOP/log"; echo "no proof"; exit 1; }
[ "$1" = run ] && [ ! -e "$TOP/idles" ] || exit 0
if [ -e "$TOP/hangs" ]; then
    cat "$TOP/log"
    echo $$ >"$TOP/hangs"
    while [ -e "$TOP/hangs" ]; do /bin/sleep 0.01; done
fi
[ -e "$TOP/edited" ] && { /bin/sleep 0.02; rm "$TOP/edited"; touch src/edited.rt; /bin/sleep 0.02; }
mkdir -p out
printf "#!/bin/sh\necho ran \"\$@\"\nexit 7\n" >out/vtlog
chmod +x out/vtlog
[ -e "$TOP/unstamped" ] || touch out/vtlog.stamp"""
CARGO = r"""
echo "cargo $*" >>"$TOP/asked"
[ ! -e "$TOP/fails" ] || { echo "no crate" >&2; exit 101; }
made=$TOP/built/$CARGO_BUILD_TARGET
mkdir -p "$made"
[ -e "$made/vtlog" ] || printf "#!/bin/sh\necho ran \"\$@\"; cat; exit 5\n" >"$made/vtlog"
chmod +x "$made/vtlog"
echo '{"reason":"compiler-artifact","filenames":["/of/another/crate"],"fresh":true}'
echo '{"reason":"compiler-artifact","filenames":["'"$made/vtlog"'"],"executable":null}'
echo '{"reason":"build-finished","success":true}'"""


@pytest.fixture(autouse=True)
def checkout(folder, monkeypatch):
    """The launcher in a folder, with what it reads, a link to it, and the tools that it may use."""
    top = folder / "a folder"
    for path in ("bin", "temporary", "crates/vtlog/src", "crates/vtlog/proofs",
                  "crates/vte_core/src", "crates/vte_core/specs", "crates/event_log/src"):
        (top / path).mkdir(parents=True)
    for path in "vtlog", "crates/vtlog/src/main.rt", "tools/lib/building/cargo_product":
        (top / path).parent.mkdir(parents=True, exist_ok=True)
        shutil.copy(TOP / path, top / path)
    for tool in USED:
        (top / "bin" / tool).symlink_to(shutil.which(tool))
    (top / "bin/linked").symlink_to("../vtlog")
    monkeypatch.chdir(top)
    for name, path in ("TOP", ""), ("PATH", "bin"), ("TMPDIR", "temporary"):
        monkeypatch.setenv(name, str(top / path))
    write("crates.txt", "vte_core: std\nevent_log: std vte_core\nvtlog: std event_log\n")
    write("log", "")
    write_program("bin/rt", RT)
    write_program("bin/sleep", 'exec /bin/sleep "$@"')
    yield top
    # a build that was left ends
    (top / "hangs").unlink(missing_ok=True)


def run_launcher(*words):
    """Runs the launcher by the link: its status, output and errors, and what was asked for. Its
    input is for the program alone, and it leaves nothing."""
    write("asked", "")
    done = subprocess.run(["bin/linked", *words], input=b"input\n", capture_output=True)
    assert not any(Path("temporary").iterdir())
    errors = re.sub(r" \d+ s$", " N s", done.stderr.decode(), flags=re.M)
    return done.returncode, done.stdout.decode(), errors, Path("asked").read_text()


def start():
    """Starts the launcher, which ignores no signal."""
    with open("errors", "w") as errors:
        return subprocess.Popen(["env", "--default-signal", "./vtlog"], stderr=errors,
                                stdout=subprocess.DEVNULL)


def test_help_and_wrong_words_build_nothing():
    text = Path("crates/vtlog/src/main.rt").read_text()
    shown = re.search(r'^const HELP:.*\n((?s:.*?))^";', text, re.M)[1]
    manifest = (TOP / "rust/vtlog/Cargo.toml").read_text()
    version = f"vtlog {re.search('^version = .(.*).$', manifest, re.M)[1]}\n"
    for word, answer in ("--help", shown), ("-h", shown), ("--version", version):
        assert run_launcher(word) == (0, answer, "", "")
    for words, shown in ((["Text"], "Text"), ([""], ""), (["a\x1b[m"], "a?[m"), (["a", "b"], "a"),
                         (["text", "b"], "b"), (["--help", "b c"], "b c")):
        assert run_launcher(*words) == (2, "", UNEXPECTED.format(shown), "")
    assert run_launcher("text", b"\xff") == (3, "", "vtlog: no arguments read\n", "")


@pytest.mark.parametrize("target", ["", "a b"])
def test_cargo_builds_the_program_without_rt(checkout, monkeypatch, target):
    """It says what it runs if cargo has built it, wherever that put it."""
    monkeypatch.setenv("CARGO_BUILD_TARGET", target)
    Path("bin/rt").unlink()
    cargo = write_program("bin/cargo", CARGO)
    asked = ("cargo build --message-format=json-render-diagnostics --quiet --release "
             f"--manifest-path {checkout}/rust/vtlog/Cargo.toml\n")
    assert run_launcher("text") == (5, "ran text\ninput\n", UNPROVED, asked)
    time.sleep(0.05)
    assert run_launcher() == (5, "ran\ninput\n", "", asked)
    write(f"built/{target}/vtlog", "\x7fELF of another machine", 0o755)
    status, _, errors, _ = run_launcher()
    assert status == 70 and errors.endswith("vtlog: what cargo built is for another machine\n")
    write("fails", "")
    errors = "no crate\nvtlog: cargo could not build the program, as above\n"
    assert run_launcher("text") == (70, "", errors, asked)
    cargo.unlink()
    errors = "vtlog: building the program takes cargo, or rt of a Rattle kit\n"
    assert run_launcher("text") == (70, "", errors, "")


@pytest.mark.parametrize("path, variables", [
    ("p/target/", {}), ("p/target/HOST/", {"CARGO_BUILD_TARGET": "HOST"}),
    ('a "b" \\é/', {"CARGO_TARGET_DIR": 'a "b" \\é'}),
    ("c/HOST/", {"CARGO_BUILD_TARGET": "HOST", "CARGO_TARGET_DIR": "c"})])
def test_where_cargo_puts_what_it_makes(checkout, monkeypatch, path, variables):
    monkeypatch.setenv("PATH", WHOLE_PATH)
    need("cargo", "it was not asked where it puts what it makes")
    host = re.search(r"^host: (.*)", subprocess.check_output(["rustc", "-vV"], text=True), re.M)[1]
    for name in "CARGO_BUILD_TARGET", "CARGO_TARGET_DIR":
        monkeypatch.delenv(name, raising=False)
    for name, value in variables.items():
        monkeypatch.setenv(name, value.replace("HOST", host))
    write("p/Cargo.toml", '[package]\nname = "p"\nversion = "0.0.0"\n[workspace]\n')
    write("p/src/main.rs", "fn main() {}\n")
    words = "rustc --quiet --offline --manifest-path p/Cargo.toml -- -Copt-level=0"
    made = subprocess.check_output(["tools/lib/building/cargo_product", *words.split()], text=True)
    assert made == f"{checkout}/{path.replace('HOST', host)}debug/p\n"
    assert subprocess.run([made[:-1]]).returncode == 0


def test_each_change_is_built_once():
    """It is built once after each of these, and not again. However long it takes, no progress is
    shown: `sleep` fails."""
    write_program("bin/sleep", "exit 1")
    for change in ("true", "touch crates/vte_core/src/lib.rt", "touch crates/vte_core/specs/A.antt",
                   "touch crates/event_log/src/lib.rt", "touch crates/vtlog/proofs/Lib.antt",
                   "touch crates/vtlog/src/main.rt", "sed -i 's/std$/std memchr/' crates.txt",
                   *(f"rm crates/vtlog/out/vtlog{end}" for end in ("", ".stamp", ".crates"))):
        time.sleep(0.02)
        subprocess.run(["sh", "-c", change], check=True)
        assert run_launcher("text") == (7, "ran text\n", BUILT, ALL), change
        assert run_launcher("a  b") == (7, "ran a  b\n", "", ""), change
    # an edit while it is built
    Path("crates/vtlog/src/main.rt").touch()
    write("edited", "")
    for errors, asked in (BUILT, ALL), (BUILT, ALL), ("", ""):
        assert run_launcher("text") == (7, "ran text\n", errors, asked)


# of the log its end is shown alone
@pytest.mark.parametrize("file, errors, asked", [
    ("fails", "line\n" * 19 + "no proof\n", "vte_core lib\n"), ("idles", "", ALL),
    ("unstamped", "", ALL)])
def test_a_failed_build_shows_the_end_of_its_log(file, errors, asked):
    write(file, "")
    write("log", "line\n" * 30)
    assert run_launcher("text") == (70, "", f"{BEGINS}{errors}{FAILED}", asked)


def test_without_a_folder_for_its_log_nothing_is_built(monkeypatch):
    monkeypatch.setenv("TMPDIR", "log")
    errors = f"{BEGINS}.*\nvtlog: cannot create a folder for the log of the build\n"
    assert start().wait() == 70 and re.fullmatch(errors, Path("errors").read_text())


@pytest.mark.parametrize("name, status", [("HUP", 129), ("INT", 130), ("TERM", 143)])
def test_a_signal_ends_the_build_too(name, status):
    hangs = write("hangs", "")
    launcher = start()
    wait_until(hangs.read_text)
    launcher.send_signal(signal.Signals[f"SIG{name}"])
    assert launcher.wait() == status and os.listdir("temporary") == []
    # its process is gone, or ended and not yet taken note of
    process = Path("/proc", hangs.read_text().strip(), "stat")
    wait_until(lambda: not process.exists() or ") Z " in process.read_text())


def test_a_long_build_shows_its_progress():
    """20 seconds are over at once, once the build hangs, or has ended."""
    hangs = write("hangs", "")
    write("log", "begun\nso far: 3 of 12 functions\n")
    write_program("bin/sleep", "/bin/sleep 0.1\n"
                  'while [ -e "$TOP/hangs" ] && [ ! -s "$TOP/hangs" ]; do /bin/sleep 0.01; done')
    launcher = start()
    wait_until(lambda: " s: " in Path("errors").read_text())
    hangs.unlink()
    assert launcher.wait() == 7
    lines = re.findall(r"^vtlog: \d+ s: (.*)", Path("errors").read_text(), re.M)
    assert {*lines} == {"so far: 3 of 12 functions"}
