"""The targets of rust/vte/fuzz: how they are built, and the streams that each begins with."""
import hashlib
import os
import shutil
import subprocess
from pathlib import Path

from lib.building import builder
from lib.files import TOP
from lib.generating.streams import read_recorded
from lib.generating.vectors import chunks_of, read_all_vectors

FUZZ = TOP / "rust/vte/fuzz"
FOLDER = TOP / "rust/target/fuzz"
BUILT = FOLDER / "x86_64-unknown-linux-gnu"
# where the targets are built over the stand-in, in whose manifest this is as far from rust/vte
DIFFERENT, STAND_IN = TOP / "rust/target/different", TOP / "tools/stand_ins/vte"
CONFIGURATION = ["--config", "tools/stand_ins/fuzz.toml"]
# how many bytes at the front of an input aren't the stream
TARGETS = {"readings": 2, "beside_vte": 2, "c_library": 3}
LONGEST, CHUNK = 1000, 250

# Streams for what no vector reaches: a text so long that the next ESC is searched, and a head that
# goes on after it is malformed.
MORE = [b"a" * 2200 + b"\x1b[m" + b"a" * 5000, b"\x1b[1 1<! m"]


def run(*words, **environment):
    """Runs a command, and returns what it prints. If it fails, the program ends."""
    output = builder.run(words, "a target", {**os.environ, **environment}, TOP)
    return output.decode(errors="replace")


# ---- streams

def list_streams():
    """Yields MORE, those of all vectors that aren't too long, and first chunks of recorded ones."""
    yield from MORE
    of_vectors = (b"".join(chunks_of(vector)) for vector in read_all_vectors())
    yield from (stream for stream in of_vectors if len(stream) <= LONGEST)
    for _, chunks in read_recorded():
        stream = b"".join(chunks)[:4 * CHUNK]
        yield from (stream[at:at + CHUNK] for at in range(0, len(stream), CHUNK))


def write_corpus(target):
    """Writes the streams as inputs of a target, and returns their folder."""
    folder = FOLDER / "streams" / target
    shutil.rmtree(folder, ignore_errors=True)
    folder.mkdir(parents=True)
    for stream in list_streams():
        digest = hashlib.sha256(stream)
        front = digest.digest()[:TARGETS[target]]
        (folder / digest.hexdigest()[:16]).write_bytes(front + stream)
    return folder


# ---- building

def find_missing():
    """Finds what isn't here that all targets need."""
    if not Path(run("clang", "-print-file-name=libclang_rt.fuzzer-x86_64.a").strip()).is_absolute():
        yield "libFuzzer (Debian: libclang-rt-14-dev)"
    fetch = ["cargo", "fetch", *CONFIGURATION, "--manifest-path", FUZZ / "Cargo.toml"]
    if subprocess.run(fetch, cwd=TOP, capture_output=True).returncode != 0:
        yield "the crates of rust/vte/fuzz, which has `vte` 0.15 too"


def run_cargo(command, manifest, *words, **environment):
    run("cargo", command, "--quiet", *CONFIGURATION, "--manifest-path", manifest, *words,
        **environment)


def build(target, seconds):
    """Builds a target with counters of what was run, and returns the program."""
    # a short run isn't worth a long build
    release = ["--release", "--config", f"profile.release.opt-level={3 if seconds > 30 else 1}"]
    if target != "c_library":
        run_cargo("build", FUZZ / "Cargo.toml", "--bin", target, *release)
        return BUILT / "release" / target
    # rustc has the address sanitizer if it thinks that it is nightly
    run_cargo("rustc", "rust/vte_c/Cargo.toml", "--crate-type", "staticlib", *release,
              "--config", 'build.rustflags=["-Zsanitizer=address"]', RUSTC_BOOTSTRAP="1")
    return link(BUILT / "c_library")


def link(program, *words):
    """Links the target of the C library, whose address sanitizer is clang's."""
    # nothing unwinds, but Rust's standard library names the function for it
    run("clang", "-g", "-O1", "-fsanitize=fuzzer,address,undefined", "-fno-sanitize-recover=all",
        "-Ic/include", FUZZ / "fuzz_targets/c_library.c", *words,
        BUILT / "release/libvte_c.a", "-Wl,--defsym=rust_eh_personality=0", "-o", program)
    return program


def build_different(target):
    """Builds a target over the stand-in, and returns the program."""
    if target == "c_library":
        return link(BUILT / "different", STAND_IN / "library.c",
                    "-Wl,--wrap=vte_feed,--wrap=vte_strip")
    shutil.rmtree(DIFFERENT, ignore_errors=True)
    shutil.copytree(STAND_IN, DIFFERENT)
    for path in "fuzz", "tests":
        shutil.copytree(FUZZ.parent / path, DIFFERENT / path,
                        ignore=shutil.ignore_patterns("target", "Cargo.lock"))
    run_cargo("build", DIFFERENT / "fuzz/Cargo.toml", "--bin", target, "--release",
              "--config", "profile.release.opt-level=1", "--target-dir", FOLDER / "different")
    return FOLDER / "different" / BUILT.name / "release" / target
