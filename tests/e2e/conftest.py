"""Fixtures of the built program's tests: a store that is filled once, a copy of it for each test, a desk over that."""

import shutil

import pytest
from support import clients, samples

INPUTS = ("web", "images", "crates/rd_trials/data")
DRAWS = True

@pytest.fixture
def ends(desk, tmp_path):
    """Runs a command in the test's folder, and gives how it ends: its status, and what it writes."""

    def run(*words, **how):
        ran = desk(*words, cwd=tmp_path, **how)
        return ran.returncode, ran.stdout.decode(), ran.stderr.decode()

    return run

def fill(program, store, cases):
    """Has a desk answer these, and end, so that the store is one file."""
    with clients.Serving(program, store, len(cases)) as served:
        served.listens()
        for label, asked, due in cases:
            assert clients.by_client(served.port, asked) == due, label
        assert served.end() == (0, f"served {len(cases)}\n", "")
    return store

@pytest.fixture(scope="session")
def filled(desk, program, tmp_path_factory):
    """A store with all that the samples speak of."""
    store = tmp_path_factory.mktemp("filled") / "desk.sqlite"
    assert desk("init", "--store", store, "--key", samples.STAFF).stdout == b"done\n"
    return fill(program, store, [*samples.FIRST, *samples.MORE])

@pytest.fixture(scope="session")
def long_filled(filled, program, tmp_path_factory):
    """The filled store with a disk that is full of one file."""
    return fill(program, shutil.copy(filled, tmp_path_factory.mktemp("long") / "desk.sqlite"), samples.LONG)

@pytest.fixture
def store(filled, tmp_path):
    return shutil.copy(filled, tmp_path / "desk.sqlite")

@pytest.fixture
def long_store(long_filled, tmp_path):
    return shutil.copy(long_filled, tmp_path / "desk.sqlite")

@pytest.fixture
def server(serving, store):
    """A desk that serves the copy at a port, and may open few files: a connection that stays open is one too many."""
    with serving(store, few_files=clients.OPEN_FILES) as served:
        yield served

@pytest.fixture
def long_server(serving, long_store):
    with serving(long_store) as served:
        yield served
