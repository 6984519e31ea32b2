"""A browser for each worker, the stand-in that serves the pages, and the pages of readers and of the staff in it."""

import pytest
from support import museums, stand_in
from support.browser import TODAY, ReadersPage, StaffPage, chromium

INPUTS = ("web", "images", "operate/nginx", "crates/rd_trials/data")
NEEDS_PROGRAM = False

@pytest.fixture(scope="session")
def driver(request, tmp_path_factory):
    begun = chromium(tmp_path_factory.mktemp("downloads"), request.config.getoption("--headed"))
    yield begun
    begun.quit()

@pytest.fixture
def museum():
    """Six disks under three deeds; a test changes it as it likes."""
    return museums.small(TODAY)

@pytest.fixture
def staff(driver, museum, tmp_path):
    """The staff's page, with the key of the staff, a name and a reason; the museum's own files are in tmp_path."""
    with stand_in.Door(museum, folder=tmp_path) as door:
        page = StaffPage(driver, door).begin()
        door.visits.clear()
        yield page

@pytest.fixture
def reader(driver, museum, tmp_path):
    with stand_in.Door(museum, outside=True, folder=tmp_path) as door:
        yield ReadersPage(driver, door)
