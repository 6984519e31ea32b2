"""Ratios of times, taken in turn so that the load of the machine is the same; only long tests bound them."""

import functools

import pytest
from large_museums import Museum

INPUTS = ("operate", "web", "images", "crates/rd_trials/data")

@pytest.fixture(scope="module")
def museums(program, tmp_path_factory):
    """Museums by the number of their disks."""
    folder = tmp_path_factory.mktemp("museums")
    return functools.cache(lambda disks: Museum(program, str(folder / f"{disks}.sqlite"), disks))

@pytest.fixture
def bounded(request):
    """Reports a ratio; a long test fails where it is more than it may be."""

    def see(what, came, most):
        print(f"{what}: {came:.2f} times (at most {most})", flush=True)
        assert came <= most or not request.node.get_closest_marker("long"), f"{what}: {came:.2f} times"

    return see
