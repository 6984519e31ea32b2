"""When a day begins in ten places: `export --at MOMENT --zone RULE` beside what the C library makes of the rule.

Each rule is the last line of the place's file in /usr/share/zoneinfo, as Debian's tzdata 2025b has it. The GNU C
library follows a rule from 1970 on."""

import csv
import os
import time

import pytest
from support import cpm_image
from support.clients import by_client
from support.samples import ALL, DONE, EVERY, STAFF, put, put_image, put_rule

HOUR = 3600
# Days of each place, and those of two of its changes, on some of which the day begins at one, or has midnight twice.
DAYS = ["1970-07-01", "2008-02-29", "2100-01-01"]
PLACES = {"Asia/Kathmandu": ("<+0545>-5:45", "1989-03-26", "2026-10-25"),
    "Europe/Prague": ("CET-1CEST,M3.5.0,M10.5.0/3", "1989-03-26", "2026-10-25"),
    "Europe/Dublin": ("IST-1GMT0,M10.5.0,M3.5.0/1", "1989-03-26", "2026-10-25"),
    "Atlantic/Azores": ("<-01>1<+00>,M3.5.0/0,M10.5.0/1", "1989-03-26", "2026-10-25"),
    "America/Nuuk": ("<-02>2<-01>,M3.5.0/-1,M10.5.0/0", "1989-03-26", "2026-10-25"),
    "America/Havana": ("CST5CDT,M3.2.0/0,M11.1.0/1", "1989-03-12", "2026-11-01"),
    "America/Santiago": ("<-04>4<-03>,M9.1.6/24,M4.1.6/24", "1989-04-02", "2026-09-06"),
    "Africa/Cairo": ("EET-2EEST,M4.5.5/0,M10.5.4/24", "1989-04-28", "2026-10-30"),
    "Asia/Jerusalem": ("IST-2IDT,M3.4.4/26,M10.5.0", "1989-03-24", "2026-10-25"),
    "Australia/Lord_Howe": ("<+1030>-10:30<+11>-11,M10.1.0,M4.1.0", "1989-04-02", "2026-10-04")}

def date_at(moment):
    return time.strftime("%Y-%m-%d", time.localtime(moment))

def first_of(date):
    """The first moment of a day, which is near the C library's midnight. No rule changes a clock within a minute."""
    about = int(time.mktime(time.strptime(date, "%Y-%m-%d")))
    return next(moment for moment in range(about - 4 * HOUR, about + 4 * HOUR, 60) if date_at(moment) >= date)

@pytest.fixture(params=PLACES.values(), ids=PLACES)
def place(request, monkeypatch):
    """The rule of a place, which the C library follows during the test, and the first moments of five days there."""
    rule, *changes = request.param
    monkeypatch.setenv("TZ", rule)
    time.tzset()
    assert all(name in rule for name in time.tzname), "the C library does not take the rule"
    yield rule, {date: first_of(date) for date in (*DAYS, *changes)}
    monkeypatch.undo()
    time.tzset()

def commands(dates):
    """What brings in a disk with a file for each date, which the public may read from that date on."""
    yield put("/deeds/7", {"donor": "A. Curator", "signed": "1969-05-04"})
    yield put_image(12, "cpm8", 7, cpm_image.filled((f"DAY{slot:<5}TXT".encode(), b"") for slot in range(len(dates))))
    for slot, date in enumerate(dates):
        yield put_rule(f"/deeds/7/rules/{slot + 1}", "deny", {"slot": slot}, "public", until=date)
    yield put_rule("/deeds/7/rules/9999", "read", EVERY, *ALL)

def test_day_begins_when_the_c_library_says(place, desk, serving, tmp_path):
    """An hour and a second before a day begins, at that moment and an hour later: the public finds the days that have
    begun. The program has the rule by its option alone."""
    (rule, begins), store = place, tmp_path / "store"
    assert desk("init", "--store", store, "--key", STAFF).stdout == b"done\n"
    with serving(store) as served:
        assert {by_client(served.port, asked) for asked in commands(begins)} == {DONE}
    for moment in (begin + after for begin in begins.values() for after in (-HOUR, -1, 0, HOUR)):
        words = ["export", "--store", store, "--at", moment, "--zone", rule]
        rows = csv.DictReader(desk(*words, env={**os.environ, "TZ": "UTC0"}, text=True).stdout.splitlines())
        wanted = [slot for slot, date in enumerate(begins) if date <= date_at(moment)]
        assert [int(row["slot"]) for row in rows] == wanted, f"{date_at(moment)}, at {moment}"
