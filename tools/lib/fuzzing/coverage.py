"""Which lines of the proved sources the streams of the target `readings` run."""
import fnmatch
import re
from collections import defaultdict
from pathlib import Path

from lib.files import TOP
from lib.fuzzing.targets import BUILT, FOLDER, FUZZ, run, run_cargo, write_corpus

PROVED = "src/proved/"
# the lines that none of these streams runs, without the reasons above them
UNREACHED = re.findall("^    (.*)", Path(TOP, "tools/lib/fuzzing/unreached.txt").read_text(), re.M)


def list_lines_with_code(program):
    """Returns the numbers of lines of each file of PROVED that have code."""
    # or else long paths lose their front
    table = run("objdump", "--wide", "--dwarf=decodedline", program)
    lines = defaultdict(set)
    # valgrind sees a line by its statements, which have an x
    for file, number in re.findall(rf"{PROVED}(\S+)\s+([1-9]\d*)\s+0x.*x$", table, re.M):
        lines[file].add(int(number))
    return lines


def list_lines_run(program):
    """Returns the numbers of lines of each file of PROVED that are run by the streams."""
    counts = FOLDER / "callgrind"
    run("valgrind", "--quiet", "--tool=callgrind", "--dump-line=yes", "--compress-strings=no",
        "--compress-pos=no", f"--callgrind-out-file={counts}", program,
        *sorted(write_corpus("readings").iterdir()))
    lines, file = defaultdict(set), ""
    for line in counts.read_text(errors="replace").splitlines():
        if line.startswith(("fl=", "fi=", "fe=")):
            file = line.partition(PROVED)[2]
        elif file and line[:1].isdigit():
            lines[file].add(int(line.split()[0]))
    return lines


def list_lines_not_run(with_code, were_run):
    """Yields each line of code that wasn't run, and where it is, as in UNREACHED."""
    for file in sorted(with_code):
        source = (FUZZ.parent / PROVED / file).read_text().splitlines()
        for number in sorted(with_code[file] - were_run[file]):
            text = source[number - 1].strip()
            # heads and ends of functions that are inlined, and of what `derive` writes
            if not re.match(r"(pub(\(crate\))? )?(unsafe )?fn |}$|#\[derive|pub \w+: ", text):
                function = ["", *re.findall(r"\bfn (\w+)", "\n".join(source[:number]))][-1]
                yield f"{file}:{number}: {text}", f"{file.removesuffix('.rs')} {function}: {text}"


def check_coverage():
    """Prints the lines that weren't run, and returns whether UNREACHED has them all."""
    run_cargo("build", FUZZ / "Cargo.toml", "--bin", "readings",
              RUSTFLAGS="-Cdwarf-version=4 -Clink-dead-code -Ccodegen-units=1 -Clinker=clang "
              "-Clink-arg=-fsanitize=fuzzer")
    program = BUILT / "debug/readings"
    with_code, left, needed = list_lines_with_code(program), [], set()
    for line, where in list_lines_not_run(with_code, list_lines_run(program)):
        patterns = {pattern for pattern in UNREACHED if fnmatch.fnmatchcase(where, pattern)}
        needed |= patterns
        left += [] if patterns else [line]
    left += [f"is run, or isn't there: {pattern}" for pattern in UNREACHED if pattern not in needed]
    print(*left, f"{len(left)} of {sum(map(len, with_code.values()))} lines aren't run", sep="\n")
    return not left
