"""What may be missing on a machine: tests fail without it, or are skipped, which tools/test lists.
tools/run_pytest has this as a plugin."""
import os
import shutil


def may_miss():
    """Whether it is no fault that something isn't here, as `miss` of lib/shell.sh asks, too."""
    return os.environ.get("NAQSHUVE_ALLOW_MISSING") == "1"


def miss(message):
    """Fails for something that isn't there, or says so and skips what needs it."""
    # tools that test by themselves do without
    import pytest
    if not may_miss():
        pytest.fail(f"{message}. NAQSHUVE_ALLOW_MISSING=1 lets it pass")
    pytest.skip(message)


def need(command, consequence):
    """Misses a command if it isn't there, with what comes of that."""
    if shutil.which(command) is None:
        miss(f"{command}, so {consequence}")


def pytest_terminal_summary(terminalreporter):
    for report in terminalreporter.stats.get("skipped", []):
        why = report.longrepr[2].replace("Skipped: ", "")
        terminalreporter.write_line(f"missing: {report.nodeid.partition('::')[0]}: {why}")
