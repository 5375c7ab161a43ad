import sys

import pytest
from lib.judging.reference import NoReference, find_vtlog
from lib.testing.missing import miss
from support import TOOLS, run


@pytest.fixture(scope="session")
def vtlog():
    try:
        return find_vtlog()
    except NoReference as error:
        miss(str(error))


@pytest.fixture(scope="session")
def judge(vtlog):
    """Runs tools/judge, whose status must be the wanted one. Returns its output."""
    def run_judge(wanted, *words):
        status, output = run(sys.executable, TOOLS / "judge", "--vtlog", vtlog, *words)
        assert status == wanted, output
        return output
    return run_judge
