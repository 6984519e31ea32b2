"""The gate itself: what it leaves out as unchanged, what it takes first, what it installs, and what it counts."""

import os
import re
import runpy
import types

import pytest
import unchanged
from static.rattle import ROOT

gate = types.SimpleNamespace(**runpy.run_path(str(ROOT / "tests/run")))
PROGRAM = gate.PROGRAM.relative_to(ROOT)
SUITES = [suite for suite in gate.SUITES if gate.files_of([suite])]
SHARED = "conftest.py pytest.ini unchanged.py run support/server.py".split()
OF_SUITE = "test_one.py test_two.py conftest.py helpers.py refuse.c".split()
of_each_suite = pytest.mark.parametrize("suite", SUITES)

@pytest.fixture
def tree(tmp_path):
    """A small tree with a file in the place of each suite, and with the program."""
    for name in (*SHARED, *(f"{suite}/test_one.py" for suite in SUITES), f"../{PROGRAM}"):
        touch(tmp_path / "tests" / name)
    for suite in SUITES:
        conftest = ROOT / "tests" / suite / "conftest.py"
        (tmp_path / "tests" / suite / "conftest.py").write_text(conftest.read_text() if conftest.exists() else "")
    return tmp_path

def touch(path):
    path.parent.mkdir(parents=True, exist_ok=True)
    with open(path, "a") as file:
        file.write("\n")

def key(tree, suite, versions="one 1", seed=1):
    return unchanged.key_of(tree, f"tests/{suite}/test_one.py", tree / PROGRAM, versions, seed)

@of_each_suite
def test_change_of_a_declared_input_or_of_what_tests_share_runs_the_file_again(tree, suite):
    shared = [f"tests/{name}" for name in (*SHARED, *(f"{suite}/{name}" for name in OF_SUITE))]
    for path in (*unchanged.inputs_of(ROOT, suite), *shared):
        before = key(tree, suite)
        touch(tree / path / "inside" if (ROOT / path).is_dir() else tree / path)
        assert key(tree, suite) != before and (path in shared or (ROOT / path).exists()), path
    assert key(tree, suite, "one 2") != key(tree, suite)

@of_each_suite
def test_another_program_or_seed_runs_the_file_again_where_it_counts(tree, suite):
    texts = [file.read_text() for file in (ROOT / "tests" / suite).glob("*.py")]
    draws = any(re.search(r"^ *def \w+\([^)]*\bseed\b(?!=)", text, re.M) for text in texts)
    before = key(tree, suite)
    assert (key(tree, suite, seed=2) != before) == draws
    touch(tree / PROGRAM)
    assert (key(tree, suite) != before) == (suite in gate.AFTER)

def test_file_of_another_suite_leaves_the_key(tree):
    before = key(tree, "pages")
    touch(tree / "tests" / "e2e" / "test_two.py")
    touch(tree / "tests" / "pages" / "out" / "built")
    assert key(tree, "pages") == before

def test_what_was_left_out_comes_first_and_as_much_runs_as_fits():
    times = {"a": 10.0, "b": 10.0, "c": 5.0}
    assert gate.chosen(["a", "b", "c"], 100, times, []) == ["a", "b", "c"]
    assert gate.chosen(["a", "b", "c"], 15, times, ["c"]) == ["c", "a"]
    assert gate.chosen(["new", "a"], gate.GUESS, times, []) == ["new"]
    assert gate.chosen(["a"], -1, times, []) == []

def test_missing_package_is_named_in_the_line_that_installs_it(monkeypatch, capsys):
    monkeypatch.setattr(os, "geteuid", lambda: 1000)
    assert not gate.install(("no-such-package", "python3-pytest"))
    line = "missing: run as root: apt-get install -y --no-install-recommends no-such-package\n"
    assert capsys.readouterr().out == line

@pytest.mark.parametrize("last, status, counts", [("5 passed, 0 failed", 0, (5, 0)), ("5 passed, 2 failed", 1, (5, 2)),
    ("5 passed, 0 failed", 1, (5, 1)), ("killed", 1, (0, 1)), ("", 0, (0, 1))])
def test_proofs_are_counted_by_their_last_line(monkeypatch, tmp_path, last, status, counts):
    (tmp_path / "rt").write_text(f"#!/bin/sh\necho 'one proof'\necho '{last}'\nexit {status}\n")
    (tmp_path / "rt").chmod(0o755)
    monkeypatch.setenv("PATH", f"{tmp_path}:{os.environ['PATH']}")
    run = types.SimpleNamespace(passed=0, failed=0)
    gate.Gate.prove(run)
    assert (run.passed, run.failed) == counts

CASE = '<testcase classname="e2e.test_x{}" name="a" file="e2e/test_x.py" time="{}">{}</testcase>'
CASES = CASE.format(".TestUpload", 1, "") + CASE.format("", 2, "<skipped/>")
# A file that breaks before it has a test.
BROKEN = '<testcase classname="" name="e2e.test_x" file="e2e/test_x.py" time="0.0"><error/></testcase>'

@pytest.mark.parametrize("status, table, counts", [(0, f"<suite>{CASES}</suite>", [1, 1, 3.0]),
    (2, f"<suite>{CASES}</suite>", [1, 2, 3.0]), (2, "", [0, 1, 0.0]), (-9, "", [0, 1, 0.0]), (0, "", [0, 1, 0.0]),
    (0, "<suite><case", [0, 1, 0.0]), (1, f"<suite>{BROKEN}</suite>", [0, 1, 0.0])], ids=str)
def test_skipped_test_broken_file_and_run_without_a_whole_table_have_failed(tmp_path, status, table, counts):
    (tmp_path / "one.log").write_text("")
    (tmp_path / "one.xml").write_text(table)
    run = types.SimpleNamespace(name="one", files=["tests/e2e/test_x.py"], log=tmp_path / "one.log")
    run.table, run.process = tmp_path / "one.xml", types.SimpleNamespace(wait=lambda: status)
    found, passed, failed = gate.Run.end(run)
    assert found == {"tests/e2e/test_x.py": counts} and passed == counts[0] and failed >= 1

def test_what_breaks_is_told_in_the_last_line(monkeypatch, capsys):
    monkeypatch.setitem(gate.end.__globals__, "main", lambda words: 1 / 0)
    assert gate.end(["ci"]) == 1
    assert capsys.readouterr().out == "0 passed, 1 failed\n"
