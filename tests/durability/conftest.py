"""What the tests of durability share: folders in the system's memory, chance, and a place where commands run."""

import os
import pathlib
import random
import subprocess
import tempfile

import pytest
import refusals

INPUTS = ("crates/rd_trials/data", "images")
DRAWS = True
# Has glibc take memory in large pages, which the system makes in much less time than small ones.
LARGE_PAGES = "glibc.malloc.hugetlb=1:glibc.malloc.mmap_threshold=100000000:glibc.malloc.top_pad=16777216"

@pytest.fixture(scope="session")
def memory_folder():
    """A folder in the system's memory, if it has one: stores there are written thousands of times."""
    room = "/dev/shm" if os.access("/dev/shm", os.W_OK) else None
    with tempfile.TemporaryDirectory(dir=room) as name, pytest.MonkeyPatch.context() as patch:
        patch.setenv("GLIBC_TUNABLES", LARGE_PAGES)
        yield pathlib.Path(name)

@pytest.fixture
def chance(request, seed):
    return random.Random(f"{seed} {request.node.name}")

@pytest.fixture(scope="session")
def place(program, memory_folder):
    return refusals.Place(program, memory_folder)

@pytest.fixture(scope="session")
def memory(memory_folder):
    """What refuses growths of memory."""
    library, source = memory_folder / "refuse.so", pathlib.Path(__file__).with_name("refuse.c")
    subprocess.run(["gcc", "-O2", "-shared", "-fPIC", "-o", library, source, "-ldl"], check=True)
    return refusals.Memory(library, memory_folder / "counts")
