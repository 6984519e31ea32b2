"""Fixtures that every suite shares: the program under test, its commands, and a desk that serves."""

import contextlib
import os
import pathlib
import subprocess

import pytest
from support import server

def pytest_addoption(parser):
    parser.addoption("--desk", help="the program under test; the one that ./desk or .ci/run built by default")
    parser.addoption("--seed", type=int, default=1, help="what drawn cases begin with")
    parser.addoption("--headed", action="store_true", help="show the browser")
    parser.addoption("--release", action="store_true", help="wants each wrong body tried on the text as it is")

def pytest_report_header(config):
    return f"desk: {program_path(config)}, seed: {config.getoption('--seed')}"

def program_path(config):
    return pathlib.Path(config.getoption("--desk") or f"{server.ROOT}/crates/rd_main/out/rd_main").resolve()

@pytest.fixture(scope="session")
def program(request):
    """The program under test. A test that needs it fails where it is missing: nothing is skipped."""
    path = program_path(request.config)
    if not os.access(path, os.X_OK):
        pytest.fail(f"not built: {path}", pytrace=False)
    return str(path)

@pytest.fixture(scope="session")
def seed(request):
    return request.config.getoption("--seed")

@pytest.fixture(scope="session")
def desk(program):
    """Runs one command of the program, and gives its status and outputs."""

    def run(*words, **how):
        given = {} if "input" in how else {"stdin": subprocess.DEVNULL}
        how = {"capture_output": True, "timeout": server.LIMIT, **given, **how}
        return subprocess.run([program, *map(str, words)], **how)

    return run

@pytest.fixture(scope="session")
def serving(program):
    """A context manager: `with serving(store) as served`. A desk that has died meanwhile fails the test."""

    @contextlib.contextmanager
    def begin(store, *words, **how):
        with server.Serving(program, store, words=words, **how) as served:
            served.listens()
            yield served
            assert served.process.poll() is None, served.end()

    return begin
