"""Handler calls and what is held of updates are those of the vectors, from C and C++."""
import re
from functools import cache
from itertools import islice

import pytest
from lib.files import TOP
from lib.generating.calls import TRAIT, calls_of
from lib.generating.vectors import bytes_of, expand_lines, read_all_vectors
from lib.testing.missing import miss, need

from calling import FUNCTIONS
from library import PROGRAMS, SANITIZERS, output_of
from test_numbers import read_enums

# a timeout that is set, which calls.c writes, and one that is cleared
SET = "set_timeout 150"
TIMEOUTS = SET, "clear_timeout"
PARAMETER = re.compile(r"const uint8_t \*(?P<text>\w+),\s+size_t \w+|vte_color (?P<color>\w+)"
                       r"|\w+ (?P<number>\w+)")
# a stream of more bytes isn't cut byte by byte
MAX_CUT = 50_000


# ---- the lines of vectors for what calls.c wrote


def value_of(word):
    """Returns a number, the bytes of a text, None, or the five numbers of a colour."""
    if word[0] == "t":
        return bytes.fromhex(word[1:])
    if word[0] == "c":
        return [*map(int, word[1:].split(","))]
    return None if word == "-" else int(word)


@cache
def names_of(kind):
    """Returns the names of one of Rust's enums by their numbers."""
    return {number: name for name, number in read_enums()[kind].items()}


def show_optional(shown):
    return "None" if shown is None else f"Some({shown})"


def quote(text, mark='"'):
    """Returns a text in quotes, or None."""
    if text is None:
        return None
    shown = (f"\\{c}" if c in ("\\", mark) else c if " " <= c <= "~" else f"\\u{{{ord(c):x}}}"
             for c in text.decode())
    return f"{mark}{''.join(shown)}{mark}"


def show_rgb(color):
    return "Rgb {{ r: {1}, g: {2}, b: {3} }}".format(*color)


def show_attribute(number, color):
    name, (kind, *_, index) = names_of("Attr")[number], color
    shown = [None, f"Named({names_of('NamedColor').get(index)})", f"Spec({show_rgb(color)})",
             f"Indexed({index})"][kind]
    if name == "UnderlineColor":
        return f"{name}({show_optional(shown)})"
    return name if shown is None else f"{name}({shown})"


def show_style(shape, blinks):
    shown = f"shape: {names_of('CursorShape').get(shape)}, blinking: {['false', 'true'][blinks]}"
    return show_optional(None if shape == -1 else f"CursorStyle {{ {shown} }}")


def show_link(name, uri):
    shown = f"Hyperlink {{ id: {show_optional(quote(name))}, uri: {quote(uri)} }}"
    return show_optional(None if uri is None else shown)


def make_show_mode(kind):
    return lambda number: (f"Named({names_of(kind)[number]})" if number in names_of(kind) else
                           f"Unknown({number})")


# how an argument is written in the vectors, by its type in Rust; the first three have two values
SHOWN = {"Attr": show_attribute, "Option<CursorStyle>": show_style,
         "Option<Hyperlink<'_>>": show_link, "Rgb": show_rgb,
         "u8": "{:02x}".format, "&str": quote, "&[u8]": lambda data: data.hex() or "-",
         "Option<char>": lambda code: show_optional(quote(b"%c" % code, "'") if code else None),
         "Option<&str>": lambda title: show_optional(quote(title)),
         "Option<usize>": lambda number: show_optional(number or None),
         "CursorIcon": lambda keyword: keyword.decode().title().replace("-", ""),
         "CharsetIndex": "G{}".format, "Mode": make_show_mode("NamedMode"),
         "PrivateMode": make_show_mode("NamedPrivateMode")}
OF_TWO = [*SHOWN][:3]
CALLS = calls_of((TOP / TRAIT).read_text())


def show(kind, *values):
    if kind in SHOWN:
        return SHOWN[kind](*values)
    return names_of(kind)[values[0]] if kind in read_enums() else str(values[0])


@cache
def lines_of_call(line):
    """Returns the lines of the vectors for a line that calls.c wrote."""
    name, *words = line.split()
    if line == SET:
        return [line]
    values = iter(map(value_of, words))
    if name == "input":
        return [f"input {ord(c):04x}" for c in next(values).decode()]
    name = name.replace("go_to", "goto")
    kinds = CALLS[name].arguments.values()
    line = [name, *(show(kind, *islice(values, 1 + (kind in OF_TWO))) for kind in kinds)]
    assert [*values] == []
    return [" ".join(line)]


def make_scripts():
    """The name of each, its steps with a new processor, and whether these set the timeout."""
    for vector in read_all_vectors():
        if vector["kind"] == "calls":
            chunks = [*map(bytes_of, vector["chunks"])]
            stream = b"".join(chunks)
            by_bytes = [stream[start:start + 1] for start in range(len(stream))]
            for cut in (chunks, [stream], by_bytes)[:3 if len(stream) < MAX_CUT else 2]:
                acts = [f"advance {chunk.hex()}" for chunk in cut]
                step = acts, expand_lines(vector["calls"]), (None, None, None)
                yield f"{vector['name']}, in {len(cut)}", [step], "timeouts" in vector
        elif vector["kind"] == "updates" and vector["timeout"] in ("counting", "expiring"):
            yield vector["name"], [*map(step_of, vector["steps"])], False


def step_of(step):
    """The acts of a vector's step, their calls, and if it is known what they leave: how many bytes
    are held, whether an update is pending, how often one began. One that expires is stopped."""
    if step.get("act") == "expire":
        return ["stop_sync"], expand_lines(step["calls"]), (0, 0, None)
    sets = step["timeouts"].count("set") if "timeouts" in step else None
    is_pending = min(1, step["count"]) if "count" in step else None
    act = f"advance {bytes_of(step['advance']).hex()}" if "advance" in step else "stop_sync"
    return [act], expand_lines(step["calls"]), (step.get("held"), is_pending, sets)


SCRIPTS = list(make_scripts())


def write_functions():
    """Returns the functions of calls.c, in its macros: each writes what it was passed."""
    written = []
    for name, text in FUNCTIONS:
        parameters = [*PARAMETER.finditer(text)]
        words = [f"TEXT({part['text']})" if part["text"] else part[0] for part in parameters]
        writes = "".join(f"write_{part.lastgroup}({part[part.lastgroup]}); " for part in parameters)
        head = f"SOME({name}, {', '.join(words)})" if words else f"NONE({name})"
        # one call is enough to see that the processor is busy
        check = "must_be_busy(); " if name == "bell" else ""
        written.append(f'{head} {{ {check}BEGIN("{name}"); {writes}puts(""); }}\n')
    listed = "".join(f" EACH({name})" for name, _ in FUNCTIONS)
    return f"{''.join(written)}#define CALLS(EACH){listed}\n"


def run_scripts(library, suffix, *words):
    """Returns what the program in C or C++ writes for each script."""
    compiler = {"c": "cc", "cpp": "c++"}[suffix]
    need(compiler, f"calls.{suffix} was not built")
    (library.folder / "calls.inc").write_text(write_functions())
    made = library.compile(PROGRAMS / f"calls.{suffix}", "-Wl,--wrap=clock_gettime",
                           f"-I{library.folder}", *words, compiler=compiler, optional=words)
    if made is None:
        miss(f"the sanitizers of {compiler}, so calls.{suffix} was not run under them")
    acts = [act for _, steps, _ in SCRIPTS
            for act in ["new", *(act for acts, *_ in steps for act in acts)]]
    said = output_of([made], "\n".join([*acts, ""]).encode()).decode()
    outputs = said.split("new\nheld 0 0\n")[1:]
    assert len(outputs) == len(SCRIPTS) > 1600
    return outputs


@pytest.fixture(scope="module")
def outputs(cargo_build):
    return run_scripts(cargo_build, "c")


def test_calls_are_those_of_the_vectors(outputs):
    for (name, steps, is_order), output in zip(SCRIPTS, outputs):
        # what is written after each act: calls, and what is held
        after = re.findall(r"((?:.*\n)*?)held (\d+) (\d)\n", output)
        made, wanted = [], []
        for acts, calls, known in steps:
            of_step, after = after[:len(acts)], after[len(acts):]
            found = [call for lines, *_ in of_step for line in lines.splitlines()
                     for call in lines_of_call(line)]
            left = *map(int, of_step[-1][1:]), found.count(SET)
            assert all(want in (None, it) for it, want in zip(left, known)), (name, acts, left)
            made += [call for call in found if is_order or call != SET]
            wanted += [call for call in calls if call not in TIMEOUTS or is_order and call == SET]
        # the calls of an update that expires come with the next step
        assert made == wanted and not after, name


def test_an_unknown_act_ends_the_program(cargo_build, outputs):
    assert b"CHECK" in output_of([cargo_build.folder / "calls_c"], b"stop\n")


@pytest.mark.parametrize("suffix", ["c", "cpp"])
def test_calls_are_the_same_under_sanitizers(cargo_build, outputs, suffix):
    others = run_scripts(cargo_build, suffix, *SANITIZERS)
    for (name, *_), output, wanted in zip(SCRIPTS, others, outputs):
        assert output == wanted, name


def test_each_call_has_a_vector():
    """No sequence gives `newline`."""
    made = set().union(*(calls for _, steps, _ in SCRIPTS for _, calls, _ in steps))
    assert CALLS.keys() - {call.split()[0] for call in made} == {"newline"}
