import pytest


@pytest.fixture(autouse=True)
def folder(tmp_path, monkeypatch):
    """Each test stands in a folder of its own."""
    monkeypatch.chdir(tmp_path)
    return tmp_path
