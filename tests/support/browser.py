"""Both pages in Chromium by Selenium: what a test does there as a reader or as one of the staff, and what is shown."""

import contextlib
import datetime
import os
import time
import urllib.parse

from selenium import webdriver
from selenium.common.exceptions import WebDriverException
from selenium.webdriver.common.action_chains import ActionChains
from selenium.webdriver.common.by import By
from selenium.webdriver.support.wait import WebDriverWait

# After how many seconds a page that does not come to its end fails the test: a machine that does much else needs them.
LIMIT = 60
STAFF = "abc"
# The day on which every test of the pages happens; the browser's clock begins at its noon.
TODAY = "2026-06-15"
# A script: the page's clock is ahead of the machine's by so many milliseconds.
CLOCK = """Date = class extends Date {
  constructor(...values) { super(...(values.length ? values : [Date.now()])); }
  static now() { return super.now() + (%d); }
};"""
READ = """const texts = (root, selector) => Array.from(root.querySelectorAll(selector), (one) => one.textContent);
const rows = (selector) => Array.from(open.querySelectorAll(selector),
  (row) => Array.from(row.cells, (cell) => cell.querySelector("input")?.value ?? cell.textContent));
const open = Array.from(document.querySelectorAll("section")).find((one) => !one.hidden) ?? document;
const sure = document.getElementById("sure");
return {
  busy: document.querySelector("[aria-busy=true]") !== null, focus: document.activeElement.className,
  heading: texts(document, "h1")[0], title: document.title, status: texts(document, "#status").join(""),
  here: location.hash, caller: texts(document, ":not([open]) > #caller")[0], hint: texts(open, ".hint")[0] ?? "",
  refusal: texts(document, ".refused :is(p, dd)"), result: texts(open, ".result :is(p, dd, li)"),
  stands: texts(open, ".stands > p"), rows: rows(":is(.stands, #view) tbody tr:not(.space)"),
  disks: texts(open, ".disk-title"), matches: texts(open, ".matches a"), chips: texts(open, ".chip"),
  list: rows(".list tbody tr"), links: Array.from(open.querySelectorAll("tbody a"), (one) => one.getAttribute("href")),
  sure: sure?.open ? texts(sure, "h2, #sure-more p, #sure-more h3, #sure-more li") : null,
};"""
# A script: the first control of a role with a name, or else with a longer one.
NAMED = """const [role, name] = arguments;
const tags = { button: "button, summary", link: "a[href]", field: "input, select, textarea", region: "pre, section" };
const words = (of) => Array.from(of.childNodes).filter((node) => !node.matches?.(tags.field))
  .map((node) => node.textContent).join("");
const nameOf = (one) => (one.getAttribute("aria-label") || words(one.labels?.[0] ?? one)).trim();
const all = Array.from((document.querySelector("dialog[open]") ?? document).querySelectorAll(tags[role]))
  .filter((one) => one.checkVisibility() && !one.disabled);
return all.find((one) => nameOf(one) === name) ?? all.find((one) => nameOf(one).includes(name)) ?? null;"""
# A script: goes to a place by its address; the page's own listener, which is older, comes first.
FOLLOW = """const [place, done] = arguments;
window.addEventListener("hashchange", () => setTimeout(done), { once: true });
if (location.hash === place) window.dispatchEvent(new HashChangeEvent("hashchange")); else location.hash = place;"""
# A script: a change that is done has emptied the reason, and each click types it again.
AGAIN = "addEventListener('click', () => { document.forms.who.elements.reason.value ||= 'a letter of today'; }, true)"
# A script: gives a field a value, as somebody who types or chooses it.
SET = """const [field, value] = arguments;
if (field.type === "checkbox") field.checked = value; else field.value = value;
for (const name of ["input", "change"]) field.dispatchEvent(new Event(name, { bubbles: true }));"""

def chromium(downloads, headed=False):
    """Chromium of one's own, which saves files in a folder, and whose clock begins at noon of the day of the tests."""
    options = webdriver.ChromeOptions()
    words = ["disable-dev-shm-usage", "disable-gpu", "lang=en", "hide-scrollbars", "window-size=1100,900"]
    for word in [*words, *["headless=new"] * (not headed), *["no-sandbox"] * (os.geteuid() == 0)]:
        options.add_argument(f"--{word}")
    options.accept_insecure_certs = True
    options.set_capability("goog:loggingPrefs", {"browser": "ALL"})
    options.add_experimental_option("prefs", {"download.default_directory": str(downloads)})
    begun = webdriver.Chrome(options=options)
    begun.set_script_timeout(LIMIT)
    ahead = datetime.datetime.fromisoformat(f"{TODAY}T12:00:00+00:00").timestamp() - time.time()
    begun.execute_cdp_cmd("Page.addScriptToEvaluateOnNewDocument", {"source": CLOCK % round(1000 * ahead)})
    begun.downloads = downloads
    return begun

def wait_for(what, find):
    """What `find` gives, as soon as that is something; a wait that is in vain fails the test."""
    return WebDriverWait(None, LIMIT, 0.03, [WebDriverException]).until(lambda _: find(), what)

class Page:
    """A page of a door, in the browser. Each call waits until the page is done, or asks something."""

    def __init__(self, driver, door):
        self.driver, self.door = driver, door
        driver.get("about:blank")
        driver.get_log("browser")
        driver.get(door.address)
        self.read()

    def script(self, text, *values):
        return self.driver.execute_script(text, *values)

    def cdp(self, name, **values):
        return self.driver.execute_cdp_cmd(name, values)

    def wait(self, holds, what="the state that the test waits for"):
        """What the page shows, once something holds of that; a wait that is in vain says what it shows at last."""
        last = {"awaited": what}
        return wait_for(last, lambda: last.update(self.script(READ)) or holds(last) and dict(last))

    def read(self, holds=lambda state: True):
        return self.wait(lambda state: (not state["busy"] or state["sure"]) and holds(state), "a page that is done")

    def one(self, selector):
        """The first such element, once there is one."""
        return wait_for(selector, lambda: self.driver.find_elements(By.CSS_SELECTOR, selector))[0]

    def named(self, role, name):
        """The first control of a role (button, link, field, region) with a name, or with one that has it in it."""
        return wait_for(f"{role} {name!r}", lambda: self.script(NAMED, role, name))

    def text(self, selector):
        return self.one(selector).get_property("textContent")

    def texts(self, selector):
        return self.script("return [...document.querySelectorAll(arguments[0])].map((at) => at.textContent)", selector)

    def focused(self):
        """The name of what has the focus, as the browser tells it a screen reader."""
        return self.driver.switch_to.active_element.accessible_name

    def harmed(self):
        """What markup in a name has done, and how many elements it has become."""
        return self.script("return [window.harmed ?? null, document.querySelectorAll('img, b, iframe').length]")

    def logs(self):
        """What the browser says of the page since it was asked last."""
        return [line["message"] for line in self.driver.get_log("browser")]

    def saved(self, name):
        """The bytes of a file that the page saved, by a pattern of its name, once none of them are in another file."""
        others = lambda: [one for one in self.driver.downloads.iterdir() if one.suffix in (".crdownload", ".part")]
        found = lambda: [one for one in self.driver.downloads.glob(name) if one.stat().st_size and not others()]
        [path] = wait_for(f"a download with the name {name}", found)
        data = path.read_bytes()
        path.unlink()
        return data

    def load(self):
        self.driver.refresh()
        return self.read()

    def go(self, place):
        """Goes to a place by its address, as a bookmark does, and asks anew where the page is there already."""
        self.driver.execute_async_script(FOLLOW, f"#/{place}")
        return self.read(lambda state: state["here"] == f"#/{place}")

    def click(self, selector):
        self.one(selector).click()
        return self.read()

    def push(self, button):
        """Presses the button with a name."""
        self.named("button", button).click()
        return self.read()

    def type(self, label, *keys):
        """Types into the field with a label, which is empty before."""
        field = self.named("field", label)
        field.clear()
        field.send_keys(*keys)

    def press(self, *keys):
        """Presses keys wherever the focus is."""
        ActionChains(self.driver, duration=0).send_keys(*keys).perform()

    @contextlib.contextmanager
    def phone(self, width=360):
        """While this is entered, the screen has so many by 640 points."""
        self.cdp("Emulation.setDeviceMetricsOverride", width=width, height=640, deviceScaleFactor=1, mobile=True)
        try:
            yield
        finally:
            self.cdp("Emulation.clearDeviceMetricsOverride")

class ReadersPage(Page):
    def find(self, words):
        return self.go(f"?q={urllib.parse.quote_plus(words)}")

    def give(self, key):
        """Gives a key, where it is one."""
        if key is None:
            return self.read()
        self.one("#caller").click()
        self.type("Your key, from the museum's staff", key)
        return self.push("Use it")

class StaffPage(Page):
    """The staff's page."""

    def begin(self):
        """Gives the page the key of the staff, and types who works and why."""
        self.one("#key").send_keys(STAFF)
        self.one("#key-form button").click()
        self.wait(lambda state: not state["busy"] and "takes this key" in state["status"], "a key that is taken")
        self.script(AGAIN)
        return self.fill("who", name="Ada Archivist", reason="a letter of today")

    def set(self, selector, value):
        self.script(SET, self.one(selector), value)

    def fill(self, section, **values):
        for name, value in values.items():
            self.set(f"#{section} [name='{name}']", value)
        return self

    def submit(self, section):
        return self.click(f"#{section} > form [type=submit]")

    def put_rule(self, section, scope, rank, how, what, *audiences, effect="deny", start="", until=""):
        """Types a rule or a takedown and sends it: the page then rehearses it, and asks."""
        for name in ("public", "room", "staff"):
            self.set(f"#{section} [value={name}]", name in audiences)
        self.fill(section, scope=scope, rank=rank, effect=effect, how=how, **{"from": start}, until=until)
        return self.fill(section, **({} if what is None else {"what": what})).submit(section)

    def take_down(self, disk, rank, slot, *audiences, **days):
        return self.put_rule("takedowns", disk, rank, "slot", slot, *audiences, **days)

    def answer(self, yes):
        """Answers what the page asks."""
        self.one(f"#sure [value='{'go' if yes else ''}']").click()
        return self.wait(lambda state: not state["busy"] and not state["sure"], "a page that is done")

    def of_row(self, words, button):
        """Presses a button of the row that it names."""
        return self.click(f"[aria-label='{button} {words}']")
