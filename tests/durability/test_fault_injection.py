"""A growth of memory is refused to a command, or the disk fails from a call on: it does its work, or says what failed
and leaves its store whole, and a second run does the work. The tests of crates pass with each growth refused."""

import concurrent.futures
import os
import pathlib
import re
import subprocess

import pytest
import refusals
from refused_commands import OVER_STORES, WITHOUT_STORE
from support.server import ROOT

COMMANDS = OVER_STORES | WITHOUT_STORE
PROGRAM = "crates/rd_main/out/rd_main"

@refusals.MOST
@pytest.mark.parametrize("name", COMMANDS)
def test_command_loses_nothing_where_a_growth_of_memory_is_refused(name, most, place, memory, chance):
    refusals.Sweep(place, COMMANDS[name], memory).refuse(chance, most)

@refusals.MOST
@pytest.mark.parametrize("name", OVER_STORES)
def test_command_loses_nothing_where_the_disk_fails(name, most, place, tmp_path, chance):
    refusals.Sweep(place, OVER_STORES[name], refusals.Disk(tmp_path / "calls")).refuse(chance, most)

def ran(words, **settings):
    how = {"stdin": subprocess.DEVNULL, "capture_output": True, "text": True}
    return subprocess.run(words, **how, env={**os.environ, **settings})

def plans_of(tests, name):
    """The variables that name each plan of a test, one after the other until it says that it has no more."""
    if "::plans_" not in name:
        return [{}]
    plans = [{"REFUSED_PLAN": f"{number:02}"} for number in range(100)]
    return plans[: next(at for at, plan in enumerate(plans) if "no plan has" in str(ran([tests, name], **plan)))]

def fault_of(memory, folder, tests, name, plan):
    """What is wrong with a test, or a plan of it, of which each growth is refused in a child of its own."""
    own = refusals.Memory(memory.library, folder / "-".join([tests.name, name.replace(":", "-"), *plan.values()]))
    ended = ran([*own.words(None), tests, name], **plan, REFUSE_EACH="1")
    calls, refused, failed = own.counted()
    if ended.returncode == 0 and calls == refused > 0 and not failed:
        return None
    again = ran([*own.words(None, failed), tests, name], **plan)
    return f"{name} {plan}: {refused} of {calls} refused; growth {failed}: {(again.stdout + again.stderr)[-500:]}"

@pytest.mark.long
@pytest.mark.timeout(3 * 3600)
@pytest.mark.parametrize("crate", ["rd_disk_tests", "rd_tests"])
def test_tests_of_a_crate_pass_with_each_growth_of_memory_refused(crate, program, memory, memory_folder):
    """The tests are those that were built with the program, or in this repository where it lies by itself."""
    tree = program.removesuffix(PROGRAM) if program.endswith(f"/{PROGRAM}") else ROOT
    tests = pathlib.Path(tree, "crates", crate, "out", f"{crate}_tests")
    names = re.findall(r"^(tests::.*_when_memory_is_refused): test$", ran([tests, "--list"]).stdout, re.M)
    plans = [(name, plan) for name in names for plan in plans_of(tests, name)]
    assert plans and {name for name, _ in plans} == set(names)
    with concurrent.futures.ThreadPoolExecutor(os.cpu_count()) as pool:
        faults = list(pool.map(lambda one: fault_of(memory, memory_folder, tests, *one), plans))
    assert not [fault for fault in faults if fault]
