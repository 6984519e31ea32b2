"""How the page for readers bears ten times as many disks of twenty files, in Chromium over the stand-in: how soon its
list is ready, its longest piece of work, and its memory. What the staff's page costs beside an earlier one."""

import itertools
import statistics
import subprocess

import pytest
from large_museums import LONG
from support import museums, stand_in
from support.browser import TODAY, ReadersPage, chromium
from support.server import ROOT

pytestmark = pytest.mark.alone
# What Chromium tells as long work takes at least so many milliseconds.
LEAST, TIMES = 50, 3
WATCH = """window.longest = 0;
const take = (list) => list.getEntries().forEach((one) => { window.longest = Math.max(window.longest, one.duration); });
new PerformanceObserver(take).observe({ type: "longtask" });"""
# The commit of the earlier page, whose view of the year is the timeline now; a day on which something opens, its eve.
BEFORE, TURN, EVE, ROUNDS = "1cccd23d", "2026-12-01", "2026-11-30", 7
GIVE = "const form = document.forms['key-form']; form.key.value = 'abc'; form.requestSubmit()"
LOOK = """const form = document.querySelector("section:not([hidden]) form"), { day, later } = form.elements;
if (later) { day.value = "%s"; later.click(); } else form.requestSubmit();""" % TODAY
DONE = """const [done] = arguments, isBusy = () => document.querySelector("[aria-busy=true]");
const look = () => isBusy() ? setTimeout(look, 100) : setTimeout(done, 400); setTimeout(look, 50);"""

def metrics(driver):
    return {one["name"]: one["value"] for one in driver.execute_cdp_cmd("Performance.getMetrics", {})["metrics"]}

def measured(driver, disks):
    """When the list is ready, the longest work of a search, each the least of some times; bytes of memory."""
    museum, ready, works = museums.many(disks, 20, day=TODAY), [], []
    lists = {"/images": museum.ask_images("public").reply, "/catalogue": museum.ask_catalogue("public").reply}
    with stand_in.Door(museum, outside=True) as door:
        door.before = lambda method, path: lists.get(path)
        for _ in range(TIMES):
            page = ReadersPage(driver, door)
            page.read(lambda state: state["disks"] and f"{disks - disks // 100:,} disks with " in state["status"])
            ready.append(page.script("return performance.now()"))
            page.script(WATCH)
            page.find("letter 1")
            page.read(lambda state: state["matches"])
            works.append(page.script("return window.longest"))
        page.cdp("HeapProfiler.collectGarbage")
        page.cdp("Performance.enable")
        return min(ready), max(LEAST, min(works)), metrics(driver)["JSHeapUsedSize"]

@pytest.mark.parametrize("disks", [500, pytest.param(10_000, marks=LONG)])
def test_page_bears_ten_times_as_many_disks(disks, tmp_path, bounded, request):
    driver = chromium(tmp_path)
    request.addfinalizer(driver.quit)
    (few_ready, few_work, _), (ready, work, memory) = measured(driver, disks // 10), measured(driver, disks)
    bounded(f"the list of {disks:,} disks is ready, beside a tenth", ready / few_ready, 10)
    bounded(f"the longest work of a search of {disks:,} disks, beside a tenth", work / few_work, 4)
    assert memory < 30e6 + 12_000 * disks

def costs(driver, page, replies, view):
    """Seconds of the processor that the page's thread takes until a view is shown, and to show it again; its memory."""
    looks = [LOOK] * (view in ("eyes", "timeline", "year"))
    def taken(do, *words):
        before = metrics(driver)["TaskDuration"]
        for word in words:
            do(word)
            driver.execute_async_script(DONE)
        return metrics(driver)["TaskDuration"] - before
    with stand_in.Door(museums.empty(TODAY)) as door:
        door.folders, door.before = (page,), lambda method, path: replies.get(path)
        driver.execute_cdp_cmd("Performance.enable", {"timeDomain": "threadTicks"})
        driver.get(f"{door.address}robots.txt")
        first = taken(driver.get, f"{door.address}#/{view}") + taken(driver.execute_script, GIVE, *looks)
        driver.execute_cdp_cmd("HeapProfiler.collectGarbage", {})
        memory = metrics(driver)["JSHeapUsedSize"]
        taken(driver.execute_script, "location.hash = '#/disks'")
        return first, taken(driver.execute_script, f"location.hash = '#/{view}'", *looks), memory

@pytest.mark.long
@pytest.mark.timeout(7200)
def test_no_view_of_the_staff_costs_more_than_before(tmp_path):
    """But for that of the keys, shown again: who put each it asks the journal, which the earlier page does not."""
    subprocess.run(f"git archive {BEFORE} web | tar -x -C {tmp_path}", cwd=ROOT, shell=True, check=True)
    museum, pages, came, worse = museums.many(10_000, 20, day=TODAY), (tmp_path / "web", stand_in.WEB), {}, set()
    museum.rules["T100"][1000]["until"] = TURN
    views = ("deeds", "takedowns", "keys", "checks", "rules", "eyes", "timeline")
    replies = {f"/staff/{name}": getattr(museum, f"show_{name}")(None).reply for name in views[:4]}
    replies |= {f"/staff/verdicts/{day}": museum.show_verdicts(None, day).reply for day in (TODAY, EVE, TURN)}
    for _, view, page in itertools.product(range(ROUNDS), views, pages):
        name = view if page == stand_in.WEB else view.replace("timeline", "year")
        with chromium(tmp_path) as driver:
            came.setdefault((view, page), []).append(costs(driver, page, replies, name))
    for view, kind in itertools.product(views, (min, statistics.median)):
        old, new = ([kind(all_) for all_ in zip(*came[view, page])] for page in pages)
        for what, before, now in zip(("first", "again", "memory"), old, new):
            print(f"{view}, {what}, {kind.__name__}: {now:.3g} beside {before:.3g}, {now / before:.2f} times")
            worse |= {(view, what)} if now > 1.1 * before else set()
    assert worse <= {("keys", "again")}
