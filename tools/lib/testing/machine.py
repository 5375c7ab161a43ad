"""What this machine has of what the parts of tools/test need."""
import os
import re
import shutil
import subprocess

# the packages of programs that have another name, or none
PACKAGES = {"apt-get": None, "c++": "g++", "cargo": "cargo-web", "cc": "gcc",
            "clang": "clang libclang-rt-14-dev", "dpkg-shlibdeps": "dpkg-dev", "go": "golang-go",
            "node": "nodejs", "objdump": "binutils", "ps": "procps", "rt": None,
            "rustfmt": "rustfmt-web"}
METADATA = "cargo metadata --format-version 1 --manifest-path"
# cargo finds its crates
HAS_CRATES = f"{METADATA} rust/vte/Cargo.toml"
# the same, with packages of Debian's next release, and the variables that let it find them
NEXT_RELEASE = f". tools/lib/shell.sh; use_next_release; {HAS_CRATES} >&2; env -0"
# pip finds what builds ./python, cargo its crates, and venv what it puts into each environment
HAS_PIP = f"""{METADATA} python/Cargo.toml
python3 -c 'import ensurepip'
python3 -m pip install --dry-run --no-deps --target "$SCRATCH/pip" ./python"""


def wrap_in_bash(command):
    return ["bash", "-euo", "pipefail", "-c", command]


def ask_bash(command):
    """Returns what a command prints, if it succeeds."""
    done = subprocess.run(wrap_in_bash(command), stdin=subprocess.DEVNULL, capture_output=True)
    return done.stdout if done.returncode == 0 else None


def read_variables(words):
    """Reads what `env -0` prints."""
    return dict(word.split("=", 1) for word in words.decode().split("\0") if word)


def ask_version(rustc):
    return (ask_bash(f"{rustc} --version") or b"").decode().partition(" ")[2].partition(" ")[0]


def numbers_of(version):
    return [int(number) for number in re.findall(r"\d+", version)]


def has_modules(*names):
    """Whether Debian's Python has these modules."""
    has_all = "all(map(importlib.util.find_spec, sys.argv[1:]))"
    return ask_bash(f"/usr/bin/python3 -c 'import importlib.util, sys; sys.exit(not {has_all})' "
                    + " ".join(names)) is not None


# What parts need, by patterns of names: whether a machine has it, what is missing if not, and the
# packages of Debian 12 that bring it, if they do. Any other need is a program.
NEEDS = {
    "crates": (lambda machine: machine.has_crates, "what cargo gets from a network", None),
    "pip": (lambda machine: machine.has_pip, "what pip and cargo get from a network", None),
    "pytest": (lambda _: has_modules("pip", "pytest"), "pytest", "python3-pip python3-pytest"),
    "python3-(.*)": (lambda _, name: has_modules(name), r"python3-\1", r"python3-\1"),
    "old-rust": (lambda machine: machine.has_old_rust(),
                 "Debian 12's rustc 1.63 beside another", None),
    "rust=(.*)": (lambda machine, wanted: machine.rust.startswith(f"{wanted}."), r"rustc \1", None),
    "rust-(.*)": (lambda machine, least: numbers_of(machine.rust) >= numbers_of(least),
                  r"rustc \1 or later", "cargo-web")}


class Machine:
    """This machine: the version of its rustc, and whether cargo and pip find what they need."""

    def __init__(self):
        self.rust = ask_version("rustc")
        self.has_crates = self.has_pip = False

    def find_crates(self):
        """Finds crates: where cargo looks by itself or, failing that, in packages of Debian's next
        release."""
        self.has_crates = ask_bash(HAS_CRATES) is not None
        if not self.has_crates and (words := ask_bash(NEXT_RELEASE)):
            os.environ.update(read_variables(words))
            self.has_crates = True
        os.environ["HAS_CRATES"] = "yes" if self.has_crates else "no"

    def find_pip(self, is_needed):
        """Finds what pip gets from a network, if it is needed."""
        self.has_pip = is_needed and self.has_crates and ask_bash(HAS_PIP) is not None
        os.environ["HAS_PIP"] = "yes" if self.has_pip else "no"

    def has_old_rust(self):
        """Whether Debian 12's rustc is there, and isn't the one that is used."""
        return (not self.rust.startswith("1.63.")
                and ask_version("/usr/bin/rustc").startswith("1.63."))

    def find_missing(self, need):
        """Finds what is missing for a need, and the packages that bring it; None if nothing is."""
        for pattern, (is_met, missing, packages) in NEEDS.items():
            if match := re.fullmatch(pattern, need):
                if is_met(self, *match.groups()):
                    return None
                return match.expand(missing), packages and match.expand(packages)
        return None if shutil.which(need) else (need, PACKAGES.get(need, need))

    def list_missing(self, needs):
        return [missing for need in needs.split() if (missing := self.find_missing(need))]
