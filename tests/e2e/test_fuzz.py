"""Mutated visits beside a desk of plain functions: each reply has to be the one due, and only what is done stays."""

import collections
import contextlib
import datetime
import json
import shutil
import sqlite3
import tempfile

import hypothesis
import pytest
from hypothesis import stateful
from support import clients, model, model_requests, mutations, samples

# The names of refusals, and the sorts of answers, that have to come at least once.
NAMES = set(
    "bad-head framing no-route method unknown-key staff-only bad-body no-accession no-file no-deed denied listed-only "
    "faulty wrong-size digest-differs conflict images files directory text/csv application/octet-stream sound changed "
    "done".split())
# The image of accession 12 with another byte of its file.
CHANGED = samples.PROGRAM_DISK[:86018] + b"B" + samples.PROGRAM_DISK[86019:]
# Visits at the end of each story, so that each name comes whatever is drawn.
LAST = [*(samples.get(path) for path in ("/catalogue", "/images/16/files/1", "/images/14/files/0")), samples.check(12),
    *(samples.put_image(12, "d64", 7, data, samples.digest(b"another")) for data in (samples.PROGRAM_DISK, b""))]

def name_of(reply):
    """What a reply is called: the name of the refusal or of the outcome, or the sort of the answer."""
    first, _, body = reply.partition(b"\r\n\r\n")
    kind = first.split(b"\r\n")[1].decode().removeprefix("Content-Type: ")
    keys = json.loads(body) if kind == "application/json" else {kind: True}
    sorts = (sort for sort in ("done", "images", "directory", "files", kind) if sort in keys)
    return keys.get("error") or keys.get("outcome") or next(sorts)

def send(port, visit):
    """The bytes that come, and how they end. Where the desk waits for more, the sending is ended."""
    step = -(-len(visit.data) // visit.parts) or 1
    parts = [visit.data[at : at + step] for at in range(0, len(visit.data), step)]
    return clients.by_socket(port, parts, model_requests.is_waited_for(visit.data), pause=0)

def rows_of(store):
    with contextlib.closing(sqlite3.connect(store)) as connection:
        assert connection.execute("PRAGMA integrity_check").fetchall() == [("ok",)]
        return list(connection.iterdump())

class Story(stateful.RuleBasedStateMachine):
    """Visits to a desk, with its model beside it."""

    def __init__(self):
        super().__init__()
        self.opened, self.done = contextlib.ExitStack(), []
        self.store, serves = self.begun()
        self.served = self.opened.enter_context(serves)
        self.desk = model.Desk(self.disks, self.today)
        for _, asked, _ in (*samples.FIRST, *samples.MORE):
            self.desk.due(samples.raw(asked)).change()
        self.desk.images[12] = self.desk.images[12]._replace(bytes=CHANGED)

    @stateful.rule(visit=mutations.visits())
    def visit(self, visit):
        due, came = self.desk.due(visit.data), send(self.served.port, visit)
        assert came == (due.reply, "an end")
        self.names[name_of(due.reply)] += 1
        if due.change:
            due.change()
            self.done.append(visit)

    def teardown(self):
        """The commands alone that were done make the same rows in another desk."""
        with self.opened:
            for asked in LAST + [samples.survey(acc) for acc in self.desk.images]:
                self.visit(mutations.Visit(samples.raw(asked)))
        store, serves = self.begun()
        with serves as served:
            for visit in self.done:
                send(served.port, visit)
        assert rows_of(self.store) == rows_of(store)

@pytest.fixture
def machine(serving, store, tmp_path):
    """Stories over copies of the filled store in which a byte of an image is changed. All have the same day."""
    zone, today = clients.noon_zone(), datetime.datetime.now(datetime.timezone.utc).date().isoformat()
    with contextlib.closing(sqlite3.connect(store)) as connection, connection:
        connection.execute("UPDATE image SET bytes = ? WHERE acc = 12", [CHANGED])

    def begun():
        copy = shutil.copy(store, tempfile.mkdtemp(dir=tmp_path))
        return copy, serving(copy, "--zone", zone, few_files=clients.OPEN_FILES)

    shared = {"names": collections.Counter(), "disks": model.Disks(), "begun": staticmethod(begun), "today": today}
    return type("Machine", (Story,), shared)

@pytest.mark.parametrize("stories", [40, pytest.param(2000, marks=pytest.mark.long)])
@pytest.mark.timeout(3600)
def test_mutated_visits_have_the_replies_that_are_due(machine, seed, stories):
    how = {"suppress_health_check": list(hypothesis.HealthCheck), "deadline": None, "database": None}
    checks = hypothesis.settings(max_examples=stories, stateful_step_count=80, print_blob=False, **how)
    stateful.run_state_machine_as_test(hypothesis.seed(seed)(machine), settings=checks)
    assert set(machine.names) == NAMES
