"""Tests of tools/install, build_c_library and uninstall, and programs over what is installed."""
import os
import re
import shutil
import subprocess
from pathlib import Path

import pytest
from lib.testing.missing import need
from lib.testing.support import write_program

from library import EXAMPLES, PROGRAMS, TOOLS, VERSION, output_of
from test_examples import STREAM, TEXT

# the files of an installed library
HEADERS = "vte.h", "vte_long.h", "vte_handler.h", "vte.hpp"
OF_LIBRARY = {
    *(f"include/{name}" for name in HEADERS), "lib/libvte_c.a", "lib/libvte_c.so",
    f"lib/libvte_c.so.{VERSION}", "lib/pkgconfig/libvte_c.pc", "lib/cmake/vte_c/vte_c-config.cmake",
    "lib/cmake/vte_c/vte_c-config-version.cmake", "share/man/man3/vte.3",
    *(f"share/doc/libvte_c/{name}" for name in ("LICENSE-APACHE", "LICENSE-MIT", "NOTICE"))}
OF_VTLOG = {"bin/vtlog", "share/man/man1/vtlog.1"}


class Site:
    """A folder that things are installed in, below `prefix` unless the variables say otherwise."""

    def __init__(self, library, folder):
        self.library, self.folder = library, folder
        (folder / "temporary").mkdir()
        self.environment = {**os.environ, "PREFIX": "prefix", "VTE_ARCHIVE": str(library.archive),
                            "VTLOG": "/bin/true", "TMPDIR": str(folder / "temporary"),
                            "PKG_CONFIG_PATH": "prefix/lib/pkgconfig",
                            "LD_LIBRARY_PATH": str(folder / "prefix/lib")}
        others = () if library.is_complete else HEADERS[1:]
        self.wanted = OF_LIBRARY - {f"include/{name}" for name in others}

    def run(self, *words, status=0, says="", **variables):
        """Returns the output of a program, or of one of tools/, which leaves no temporary files."""
        if (TOOLS / words[0]).is_file():
            words = (TOOLS / words[0], *words[1:])
        done = subprocess.run(words, cwd=self.folder, env={**self.environment, **variables},
                              capture_output=True, text=True)
        assert done.returncode == status and says in done.stderr, done
        assert not any((self.folder / "temporary").iterdir())
        return done.stdout

    def list_installed(self, folder):
        top = self.folder / folder
        return {str(file.relative_to(top)) for file in top.rglob("*") if not file.is_dir()}

    def uninstall(self, folder, **variables):
        """Removes what is below a folder, which all could use, and leaves what is another's."""
        top, files = self.folder / folder, self.list_installed(folder)
        for file in files:
            mode = 0o755 if "bin/" in file or ".so" in file else 0o644
            assert (top / file).stat().st_mode & 0o777 == mode, file
        others = {str(Path(file).with_name("another's")) for file in files
                  if "/vte_c/" not in file and "/libvte_c/" not in file}
        for file in others:
            (top / file).touch()
        output = self.run("uninstall", **variables)
        assert self.list_installed(folder) == others
        assert set(output.splitlines()) == {f"{top}/{file}" for file in files}
        assert not [file for file in top.rglob("vte*") if file.is_dir()]
        for file in others:
            (top / file).unlink()
        assert self.run("uninstall", **variables) == "" and not [*top.rglob("*")]

    def assert_strips(self, program):
        libraries = self.environment["LD_LIBRARY_PATH"]
        assert output_of([self.folder / program], STREAM, LD_LIBRARY_PATH=libraries) == TEXT


@pytest.fixture
def site(library, tmp_path):
    return Site(library, tmp_path)


@pytest.fixture
def prefix(site):
    """A site with the library alone, below a relative prefix."""
    # cargo has built the library by now
    archive = {"VTE_ARCHIVE": ""} if site.library.is_complete else {}
    output = site.run("install", f"--{site.library.build}", "--library", **archive)
    assert site.list_installed("prefix") == site.wanted
    assert set(output.split()) == {f"{site.folder}/prefix/{name}" for name in site.wanted}
    yield site
    site.uninstall("prefix")


@pytest.mark.parametrize("tool, words", [
    ("install", " [--cargo | --rt]"), ("build_c_library", " [--cargo | --rt]"), ("uninstall", "")])
def test_wrong_arguments_are_refused(site, tool, words):
    for word in "-h", "--help":
        output = site.run(tool, word)
        assert f"tools/{tool}{words}" in output and "#" not in output
    for wrong in (["--librari"], ["a", "b"]):
        site.run(tool, *wrong, status=2)
    site.run("build_c_library", status=2)


def test_a_folder_may_have_a_blank(site):
    output = site.run("build_c_library", f"--{site.library.build}", "a folder")
    assert site.list_installed("a folder") == {"libvte_c.a", "libvte_c.so"}
    assert re.fullmatch(rf"built .* {site.library.build}: .*\n", output)


def test_pkg_config_finds_the_library(prefix):
    need("pkg-config", "the installed library was not looked for by it")
    described = prefix.run("readelf", "-d", "prefix/lib/libvte_c.so")
    assert f"soname: [libvte_c.so.{VERSION}]" in described
    # what the pages and the file itself say to ask for: each other version is incompatible
    for version, status in ("= ", 0), ("< ", 1), ("> ", 1):
        prefix.run("pkg-config", "--exists", f"libvte_c {version}{VERSION}", status=status)
    for file in prefix.folder / "prefix/lib/pkgconfig/libvte_c.pc", TOOLS.parent / "docs/C.md":
        page = file.read_text()
        assert f"`libvte_c = {VERSION}`" in page and "libvte_c >= " not in page
    build = "cargo" if prefix.library.is_complete else "given"
    assert prefix.run("pkg-config", "--variable=build", "libvte_c") == f"{build}\n"
    flags = prefix.run("pkg-config", "--cflags", "--libs", "libvte_c").split()
    prefix.run("cc", EXAMPLES / "c/stripper.c", *flags, "-o", "stripper")
    prefix.assert_strips("stripper")
    if prefix.library.is_complete:
        prefix.run("cc", EXAMPLES / "c/clipboards.c", *flags, "-o", "clipboards")
        if shutil.which("c++"):
            outline = ["c++", EXAMPLES / "cpp/outline.cpp", *flags, "-o", "outline"]
            prefix.run(*outline, "-std=c++17")
            prefix.run(*outline, "-std=c++14", status=1, says="vte.hpp needs C++17")


def run_cmake(site, *words, **how):
    need("cmake", "the installed library was not looked for by it")
    source = f"-DSOURCE={EXAMPLES / 'c/stripper.c'}"
    site.run("cmake", source, *words, "-S", PROGRAMS, "-B", "built", **how)


def test_cmake_finds_the_library(prefix):
    for version, status in (VERSION - 1, 1), (VERSION + 1, 1), (VERSION, 0), ("", 0):
        run_cmake(prefix, f"-DCMAKE_PREFIX_PATH={prefix.folder / 'prefix'}", f"-DVERSION={version}",
                  status=status)
    prefix.run("cmake", "--build", "built")
    prefix.assert_strips("built/vte_c")
    prefix.assert_strips("built/static")
    assert "libvte_c" not in prefix.run("readelf", "-d", "built/static")


def test_a_package_is_used_where_it_is(site):
    """Everything for a package, with libraries in a folder of their machine, is used where it is,
    and removed. What a given archive has says which headers it gets, whatever was asked for."""
    staged, machine = site.folder / "staged here", "usr/lib/x86_64-linux-gnu"
    package = {"PREFIX": "/usr", "LIBDIR": f"/{machine}", "DESTDIR": str(staged)}
    for build in "--rt", "--cargo":
        site.run("install", build, says="library is given", **package)
    assert site.list_installed(staged) == {f"usr/{name}".replace("usr/lib", machine)
                                       for name in site.wanted | OF_VTLOG}
    assert os.readlink(staged / machine / "libvte_c.so") == f"libvte_c.so.{VERSION}"
    described = (staged / machine / "pkgconfig/libvte_c.pc").read_text().splitlines()
    assert {"prefix=/usr", f"libdir=/{machine}", "build=given"} <= {*described}
    if shutil.which("man"):
        page = site.run("man", staged / "usr/share/man/man3/vte.3", MANWIDTH="160")
        assert re.search(r"vte_feed\(vte_parser.*vte_long_feed.*vte_processor_new", page, re.S)
    assert (staged / "usr/bin/vtlog").read_bytes() == Path("/bin/true").read_bytes()
    run_cmake(site, f"-DCMAKE_PREFIX_PATH={staged / 'usr'}",
              "-DCMAKE_LIBRARY_ARCHITECTURE=x86_64-linux-gnu", f"-DVERSION={VERSION}")
    site.run("cmake", "--build", "built")
    site.uninstall("staged here", **package)


def test_installing_needs_no_compiler(site):
    """All is installed below the usual prefix without a C compiler, or a cargo that can build."""
    tools = site.folder / "cc"
    tools.mkdir()
    for folder in os.environ["PATH"].split(os.pathsep):
        for file in Path(folder).glob("*"):
            if file.name not in ("cc", "cargo") and not (tools / file.name).is_symlink():
                (tools / file.name).symlink_to(file)
    variables = {"PATH": str(tools), "DESTDIR": str(site.folder / "without_cc"), "PREFIX": ""}
    site.run("install", "--cargo", says="there is no cc: the ", **variables)
    wanted = {f"usr/local/{file}" for file in site.wanted | OF_VTLOG if ".so" not in file}
    assert site.list_installed("without_cc") == wanted
    site.uninstall("without_cc", **variables)
    build = "build_c_library", "--cargo", site.folder / "none"
    site.run(*build, status=70, says="cargo isn't installed", **variables)
    write_program(tools / "cargo", "echo it is too old >&2; exit 1")
    site.run(*build, status=70, **variables,
              says="it is too old\nbuild_c_library: the library could not be built")
    site.run("install", "--cargo", **{**variables, "VTLOG": ""}, says=(
        "it is too old\ninstall: cargo could not build vtlog, as above: the program was left out\n"
        "install: the library is given as "))
    assert not {name for name in site.list_installed("without_cc") if "vtlog" in name}
    # cargo builds for the machine that is named to it, in another folder
    other = site.folder / "other.a"
    site.run("objcopy", "--redefine-sym", "vte_version=vte_other", site.library.archive, other)
    write_program(tools / "cargo", f"made={other}; case $* in *vtlog*) made=/bin/true; esac\n"
                  """echo '{"reason":"compiler-artifact","filenames":["'"$made"'"]}'""")
    site.run("install", "--cargo", **{**variables, "VTLOG": "", "VTE_ARCHIVE": ""})
    assert site.list_installed("without_cc") == wanted
    installed = site.folder / "without_cc/usr/local"
    assert (installed / "bin/vtlog").read_bytes() == Path("/bin/true").read_bytes()
    assert " T vte_other" in site.run("nm", installed / "lib/libvte_c.a")
