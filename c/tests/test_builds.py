"""The symbols of the library, and programs that refuse memory and use threads."""
import re

from lib.testing.missing import miss, need

from library import INCLUDE, PROGRAMS, SANITIZERS, TOOLS, VERSION, output_of, try_compiler

# the only functions that the library of each build may need
NEEDED = {"rt": {"memcpy", "memmove", "memset"},
          "cargo": {"abort", "clock_gettime", "free", "malloc", "memchr", "memcpy", "memmove",
                    "memrchr", "memset", "realloc"}}
# what is in the names of Rust's functions that panic, and of those for an index, which rustc checks
# if it can't see the proof, and the handler that they call
OF_PANICS = re.compile(r"panic|begin_unwind|_fail\b|_failed|unwrap|expect")
OF_INDICES = re.compile(r"panicking\d+panic_(bounds_check|fmt|nounwind_fmt)|slice_\w*index\w*_fail|"
                        r"len_mismatch_fail|rust_begin_unwind")


def list_declared(library):
    """Returns the functions that the library's headers declare and don't define."""
    headers = INCLUDE.glob("*.h" if library.is_complete else "vte.h")
    text = "".join(header.read_text() for header in headers)
    function = r"^(?!static|typedef|#| \*)\w[\w ]*[ *](vte_\w+)\([^;{]*\);"
    return set(re.findall(function, text, re.M | re.S))


def list_symbols(library, *options):
    """Returns the names that nm lists with their letters."""
    listed = output_of(["nm", *options, library]).decode().splitlines()
    return [(words[-2], words[-1]) for words in map(str.split, listed) if len(words) > 1]


def test_a_library_has_and_needs_no_other_symbols(library):
    """It has the functions of its headers and needs few of C. rt's has no panic, and cargo's none
    but those of an index and of memory."""
    need("nm", "the library's symbols were not checked")
    wanted = list_declared(library)
    assert {name for _, name in list_symbols(library.archive, "-g", "--defined-only")} == wanted
    assert {name for _, name in list_symbols(library.shared, "-D", "--defined-only")} == wanted
    soname = f"soname: [libvte_c.so.{VERSION}]".encode()
    assert soname in output_of(["readelf", "-d", library.shared])
    all_names = list_symbols(library.archive)
    assert {name for letter, name in all_names if letter == "U"} <= NEEDED[library.build]
    panics = [name for _, name in all_names if OF_PANICS.search(name)]
    assert [name for name in panics if library.build == "rt" or not OF_INDICES.search(name)] == []


def test_random_bytes_are_safe_as_a_parser(library):
    if library.sanitized is None:
        miss("the address and undefined-behaviour sanitizers of cc")
    assert output_of([library.compile(PROGRAMS / "any_parser.c", *SANITIZERS)]) == b""


def test_a_stream_goes_on_after_refused_memory(cargo_build):
    words = [f"-Wl,--wrap={name}" for name in ("malloc", "realloc", "free")]
    program = cargo_build.compile(PROGRAMS / "refused.c", *words)
    # pieces without a byte take eight each
    empty, groups = b"\x1b]" + b";" * 15 + b"\a", b"\x1b[" + b"1;" * 31 + b"1m"
    stream = empty + groups + empty * 5000 + b"text\x1b]52;c;" + b"Q" * 100_000 + b"\x1b\\more"
    stream += b"\x1b]2;" + b"t" * 200_000 + b"\a\x1b[1mend"
    for most, kinds, size, least in [
            (999, 255, None, 5), (400_000, 255, None, 5), (400_000, 96, None, 5), (1, 255, 300, 1)]:
        counts = output_of([program, str(most), str(kinds)], stream[:size])
        assert min(map(int, counts.split())) > least


def test_a_processor_in_use_is_busy_for_other_threads(cargo_build):
    """Also with the library and the program under the thread sanitizer."""
    assert output_of([cargo_build.compile(PROGRAMS / "threads.c", "-pthread")]) == b"busy\n"
    folder = cargo_build.folder / "for_threads"
    environment = {"RUSTC_BOOTSTRAP": "1",
                   "CARGO_TARGET_DIR": f"{TOOLS.parent}/rust/target/for_threads",
                   "RUSTFLAGS": "-Zsanitizer=thread -Cunsafe-allow-abi-mismatch=sanitizer"}
    build = [TOOLS / "build_c_library", "--cargo", folder]
    words = ["cc", "-O1", "-g", "-fsanitize=thread", "-pthread", f"-I{INCLUDE}",
             PROGRAMS / "threads.c", folder / "libvte_c.a", "-o", folder / "threads"]
    if not try_compiler(build, **environment)[0] or not try_compiler(words)[0]:
        miss("the thread sanitizer of rustc and cc, so threads were tested without it")
    assert output_of([folder / "threads"]) == b"busy\n"
