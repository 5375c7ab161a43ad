"""Builds programs to measure or compare: by rt those of crates/, by cargo programs over the crate
`vte` 0.15.0, or over ours in rust/vte.

Crates come from Debian's next release, by tools/next_release. The profile `fat` is what terminals
ship with, `release` is cargo's default, and `checked` compiles fast and has assertions.
"""
import functools
import shutil
import subprocess
import sys
from pathlib import Path

from lib.testing.machine import read_variables, wrap_in_bash

TOOLS = Path(__file__).resolve().parents[2]
OURS, KEPT = TOOLS.parent / "rust/vte", TOOLS.parent / "rust/target"
CARGO_PRODUCT = TOOLS / "lib/building/cargo_product"
PROFILES = {
    "fat": {"LTO": "fat", "CODEGEN_UNITS": "1"},
    "release": {"LTO": "false", "CODEGEN_UNITS": "16"},
    "checked": {"OPT_LEVEL": "1", "DEBUG_ASSERTIONS": "true"},
}
MANIFEST = """\
[package]
name = "peer"
version = "0.0.0"
edition = "2024"
[[bin]]
name = "peer"
path = "MAIN"
[workspace]
[dependencies]
arrayvec = "*"
vte = { SOURCE, default-features = false, features = ["ansi", "std"] }
"""
# where the code of a placed program begins, and the bytes that its functions are aligned to
CODE_START, ALIGNMENT = 0x200000, 16


def stop(message):
    sys.exit(f"{Path(sys.argv[0]).name}: {message}")


def is_current(program, top):
    """Whether a program of crates/ is newer than all sources there, as after `rt ci`."""
    sources = [top / "crates.txt", *(file for part in ("src", "specs", "proofs")
                                     for file in top.glob(f"crates/*/{part}/**/*"))]
    return (program.exists()
            and program.stat().st_mtime > max(file.stat().st_mtime for file in sources))


def build_proved_program(crate, words=()):
    """Proves and builds a program of crates/, which runs it with these words, unless it is current.
    Returns its path."""
    folder = TOOLS.parent / "crates" / crate
    program = folder / "out" / crate
    if not is_current(program, TOOLS.parent):
        print(f"proving and building {crate} (a first build takes minutes) ..", file=sys.stderr)
        run(["rt", "run", *["--"] * bool(words), *words], crate, folder=folder)
    return program


@functools.cache
def find_crates():
    """Returns the environment in which cargo finds crates."""
    words = wrap_in_bash(". lib/shell.sh; use_next_release; env -0")
    return read_variables(run(words, "crates of Debian's next release", folder=TOOLS))


def make_environment(folder, profile):
    """Returns the environment in which cargo builds into a folder."""
    return {**find_crates(), "CARGO_TARGET_DIR": str(folder / "target"),
            **{f"CARGO_PROFILE_RELEASE_{name}": value for name, value in PROFILES[profile].items()}}


def build_peers(is_ours, folder, profile, count):
    """Builds bench/peer over the crate, or over ours, into a folder, without warnings: `count`
    times, each with its code at another place."""
    folder, crate = Path(folder), KEPT / f"peer_{profile}{'_ours' * is_ours}"
    source = f'path = "{OURS}"' if is_ours else 'version = "=0.15.0"'
    main = TOOLS.parent / "bench/peer/src/main.rs"
    manifest = MANIFEST.replace("SOURCE", source).replace("MAIN", str(main))
    for path in folder, crate:
        path.mkdir(parents=True, exist_ok=True)
    (crate / "Cargo.toml").write_text(manifest)
    # only ours has runs of text
    flags = ["--cap-lints", "allow", *["--cfg", "runs"] * is_ours]
    programs = []
    # four places take each function once to each part of a line of 64 bytes that it can begin at
    for number in range(count):
        start = f"link-arg=-Wl,-Ttext={CODE_START + ALIGNMENT * number:#x}"
        words = ["rustc", "--release", "--manifest-path", crate / "Cargo.toml", "--", *flags]
        made = run([CARGO_PRODUCT, *words, "-C", start], "bench/peer",
                   make_environment(crate, profile))
        programs.append(shutil.copy(made.decode().rstrip("\n"), folder / f"peer_{number}"))
    return programs


def build_c_program(source, folder):
    """Builds a program in C with cargo's C library, and with libvterm if it is here."""
    run([TOOLS / "build_c_library", "--cargo", folder], "the C library")
    words = ["cc", "-O2", "-std=c99", "-pedantic-errors", f"-I{TOOLS.parent / 'c/include'}", source,
             folder / "libvte_c.a"]
    if has_libvterm():
        words += ["-DLIBVTERM", "-lvterm"]
    run([*words, "-o", folder / source.stem], source.name)
    return folder / source.stem


def has_libvterm():
    """Whether Debian's package libvterm-dev is here."""
    return Path("/usr/include/vterm.h").exists()


def run(words, product, environment=None, folder=None):
    """Runs a command for a product, and returns what it prints. If it fails, the program ends."""
    try:
        done = subprocess.run(words, cwd=folder, stdin=subprocess.DEVNULL, capture_output=True,
                              env=environment)
    except FileNotFoundError:
        stop(f"{words[0]} isn't installed, or isn't in the PATH")
    if done.returncode != 0:
        sys.stderr.buffer.write(done.stderr[-6000:])
        sys.stderr.buffer.write(done.stdout[-6000:])
        stop(f"{product}: {words[0]} failed with status {done.returncode}")
    return done.stdout
