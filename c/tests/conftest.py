"""The builds of the C library, and options, for its tests and for those of what installs it:
tools/install, tools/uninstall and tools/build_c_library."""
from functools import cache

import pytest
from lib.testing.missing import need

from library import Library


def pytest_addoption(parser):
    parser.addoption("--short", action="store_true",
                     help="test only cargo's build, on fewer streams, in fewer ways")
    parser.addoption("--streams", type=int,
                     help="how many random streams (default: 20,000, with --short 400)")
    parser.addoption("--seed", type=int, default=1, help="of random streams")


def pytest_generate_tests(metafunc):
    if "library" in metafunc.fixturenames:
        builds = ["cargo"] if metafunc.config.option.short else ["cargo", "rt"]
        metafunc.parametrize("library", builds, indirect=True, scope="session")


@pytest.fixture(scope="session")
def built(tmp_path_factory, pytestconfig):
    """Builds the library, once in each way."""
    @cache
    def build_by(build):
        for command in "cc", build:
            need(command, "the C library was not tested")
        return Library(build, tmp_path_factory.mktemp(build), pytestconfig.option.short)
    return build_by


@pytest.fixture(scope="session")
def library(request, built):
    """Each build in turn."""
    return built(request.param)


@pytest.fixture(scope="session")
def cargo_build(built):
    """The build that has what allocates memory."""
    return built("cargo")
