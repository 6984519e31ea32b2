"""What the staff's page reads on a dump, before it is sent, beside what `desk list` prints of the same file."""

import base64
import itertools
import random

import pytest
from support import damaged, server
from support.browser import chromium

# A script: what a module of the page reads on a dump, as `list` has its fields but the size, of which it says whether.
READ = """const [module, kind, dump, done] = arguments;
const bytes = Uint8Array.from(atob(dump), (letter) => letter.charCodeAt(0));
const fields = (file) => [file.slot, file.user ?? "", file.type, file.isServed, file.faults.join(" "), file.name];
import(`data:text/javascript,${encodeURIComponent(module)}`)
  .then(({ readDump }) => done(readDump(kind, bytes).files.map((file) => fields(file).map(String))));"""

@pytest.fixture(scope="module")
def read(request, tmp_path_factory):
    """Gives what the page reads on a dump of a kind."""
    driver, module = chromium(tmp_path_factory.mktemp("downloads")), server.bytes_of("web", "dump.js").decode()
    yield lambda kind, dump: driver.execute_async_script(READ, module, kind, base64.b64encode(dump).decode())
    driver.quit()

@pytest.fixture
def listed(desk, tmp_path):
    """Gives what `list` prints of a dump of a kind."""

    def fields(kind, dump):
        (tmp_path / "dump").write_bytes(dump)
        ran = desk("list", kind, tmp_path / "dump")
        assert ran.returncode == 0, ran.stderr
        lines = [line.split("\t") for line in ran.stdout.decode().splitlines()[:-1]]
        return [[slot, user, type_, str(size != "").lower(), *more] for slot, user, type_, size, *more in lines]

    return fields

def test_page_reads_each_image_of_the_repository_as_list_does(read, listed):
    images = damaged.of_repository()
    assert {kind for kind, _ in images.values()} == {*damaged.BASES} and len(images) > 15
    for name, (kind, dump) in images.items():
        assert read(kind, dump) == listed(kind, dump), name

@pytest.mark.parametrize("count", [20, pytest.param(500, marks=[pytest.mark.long, pytest.mark.timeout(1800)])])
def test_page_reads_drawn_dumps_as_list_does(read, listed, seed, count):
    one, found = random.Random(f"{seed} dumps {count}").choice, set()
    for number, kind in itertools.product(range(count), damaged.BASES):
        dump = damaged.drawn(one, kind)
        due = listed(kind, dump)
        assert read(kind, dump) == due, f"dump {number} of kind {kind}"
        found |= {fault for *_, faults, _ in due for fault in faults.split()}
    assert count < 500 or len(found) == 10, f"not each fault was drawn, only {sorted(found)}"
