"""The numbers that cross the border, which Rust's types and the headers each name."""
import re
from functools import cache

from lib.testing.missing import need

from library import INCLUDE, PROGRAMS, TOOLS, output_of

RUST = TOOLS.parent / "rust"
TYPES = [*sorted((RUST / "vte/src/proved/vte_types").glob("*.rs")),
         RUST / "vte_c/src/processor/values.rs"]
# Rust's type, and how the names of C begin, or those that C has
ENUMS = {
    "Attr": "VTE_", "NamedColor": {}, "LineClearMode": "VTE_LINE_", "ClearMode": "VTE_SCREEN_",
    "TabulationClearMode": "VTE_TAB_", "CursorShape": "VTE_SHAPE_",
    "StandardCharset": {"Ascii": "VTE_CHARSET_ASCII",
                        "SpecialCharacterAndLineDrawing": "VTE_CHARSET_LINE_DRAWING"},
    "ScpCharPath": {"Default": "VTE_PATH_DEFAULT", "LTR": "VTE_PATH_LEFT_TO_RIGHT",
                    "RTL": "VTE_PATH_RIGHT_TO_LEFT"},
    "ScpUpdateMode": {"ImplementationDependant": "VTE_UPDATE_DEFAULT",
                      "DataToPresentation": "VTE_UPDATE_DATA_TO_PRESENTATION",
                      "PresentationToData": "VTE_UPDATE_PRESENTATION_TO_DATA"},
    "KeyboardModesApplyBehavior": {"Replace": "VTE_KEYBOARD_REPLACE", "Union": "VTE_KEYBOARD_ADD",
                                   "Difference": "VTE_KEYBOARD_REMOVE"},
    "ModifyOtherKeys": {"Reset": "VTE_OTHER_KEYS_RESET", "EnableAll": "VTE_OTHER_KEYS_ALL",
                        "EnableExceptWellDefined": "VTE_OTHER_KEYS_EXCEPT_WELL_DEFINED"},
    "ColorKind": "VTE_COLOR_", "NamedMode": {}, "NamedPrivateMode": {}}
# what only C has, each from 0 on
OF_C = ["TEXT EXECUTE HOOK DATA UNHOOK OSC CSI ESC", "OK NO_MEMORY BUSY",
        "OPEN_NOTHING OPEN_CHARACTER OPEN_ESC OPEN_CSI OPEN_DCS OPEN_OSC OPEN_IGNORED"]
# an enum of the declarations of C or Rust, and its names
LIST = r"\benum{} {{([^}}]*)}}"
NAME = re.compile(r"^\s*(\w+)(?:\([^)]*\))?(?: = (-?\d+))?,?\s*$", re.M)


def number_names(text):
    """Returns the names of an enum, with their numbers."""
    numbers, next_number = {}, 0
    for name, number in NAME.findall(re.sub(r"//.*|#\[.*?\]", "", text)):
        numbers[name] = int(number or next_number)
        next_number = numbers[name] + 1
    return numbers


@cache
def read_enums():
    text = "".join(file.read_text() for file in TYPES)
    return {name: number_names(re.search(LIST.format(f" {name}"), text)[1]) for name in ENUMS}


def test_headers_have_the_numbers_of_rust():
    wanted = {"VTE_SHAPE_OWN": -1, "VTE_BELL": 1, "VTE_TRUNCATED": 2}
    wanted |= {f"VTE_{name}": at for names in OF_C for at, name in enumerate(names.split())}
    for kind, names in ENUMS.items():
        for one, number in read_enums()[kind].items():
            snake = re.sub("(?<!^)(?=[A-Z])", "_", one).upper()
            wanted[names + snake if isinstance(names, str) else names.get(one)] = number
    headers = INCLUDE / "vte.h", INCLUDE / "vte_handler.h"
    text = re.sub(r"/\*.*?\*/", "", "".join(it.read_text() for it in headers), flags=re.S)
    found = [number_names(listed.replace(",", "\n"))
             for listed in re.findall(LIST.format(""), text)]
    assert {name: number for one in found for name, number in one.items()} == {
        name: number for name, number in wanted.items() if name}


def test_handlers_of_cpp_may_throw_and_move(cargo_build):
    need("c++", "vte.hpp was not tested")
    words = ["-std=c++17", "-Wl,--wrap=malloc", "-Wl,--wrap=realloc"]
    assert output_of([cargo_build.compile(PROGRAMS / "handler.cpp", *words, compiler="c++")]) == b""
