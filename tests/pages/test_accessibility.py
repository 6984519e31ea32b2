"""Each view of both pages: names of controls, headings, contrast, the Tab key, a phone, titles, what is refused."""

import pathlib

import pytest
from selenium.webdriver.common.keys import Keys
from staff_helpers import journal_lines
from support import museums, stand_in
from support.browser import TODAY, ReadersPage, StaffPage
from support.server import ROOT
from test_reading import FILES

IS_SEEN = """const root = document.querySelector("dialog[open]") ?? document;
const isSeen = (one) => one.checkVisibility({ visibilityProperty: true }) && one.getClientRects().length > 0;"""
# Scripts: the levels of headings; texts without contrast.
HEADINGS = f"{IS_SEEN} return [...root.querySelectorAll('h1, h2, h3, h4')].filter(isSeen).map((one) => +one.tagName[1])"
CONTRAST = IS_SEEN + """const parts = (color) => color.match(/[0-9.]+/g).map(Number);
const linear = (value) => (value <= 0.04045 ? value / 12.92 : ((value + 0.055) / 1.055) ** 2.4);
const light = (color, [red, green, blue] = parts(color).map((value) => linear(value / 255))) =>
  0.2126 * red + 0.7152 * green + 0.0722 * blue;
const canvas = matchMedia("(prefers-color-scheme: dark)").matches ? "rgb(0, 0, 0)" : "rgb(255, 255, 255)";
const behind = (one, color = one === null ? canvas : getComputedStyle(one).backgroundColor) =>
  ((parts(color)[3] ?? 1) === 1 ? color : behind(one.parentElement));
const lights = (one) => [getComputedStyle(one).color, behind(one)].map((color) => light(color));
const ratio = (one) => (Math.max(...lights(one)) + 0.05) / (Math.min(...lights(one)) + 0.05);
const hasText = (one) => Array.from(one.childNodes).some((node) => node.nodeType === 3 && node.textContent.trim());
return Array.from(root.querySelectorAll("body *")).filter((one) => hasText(one) && isSeen(one) && ratio(one) < 4.5)
  .filter((one) => !one.closest(":disabled, option, .skip")).map((one) => `${ratio(one)}: ${one.textContent}`);"""
# Scripts: the colour of the paper; what is wider than the window, or cut off; what is of no use in print, or cut off.
PAPER = "return getComputedStyle(document.body).backgroundColor.match(/\\d+/g).map(Number)"
CUT_OFF = IS_SEEN + """return Array.from(root.querySelectorAll("body *"))
  .filter((one) => isSeen(one) && !one.matches("input, .skip") && (one.getBoundingClientRect().right > innerWidth + 1 ||
    (getComputedStyle(one).overflowX !== "visible" && one.scrollWidth > one.clientWidth + 1)))
  .map((one) => one.outerHTML);"""
IN_PRINT = IS_SEEN + """const useless = "button, input, nav, pre, #work form, [aria-label=files] th:first-child";
return Array.from(root.querySelectorAll(useless)).filter((one) => isSeen(one)
  && (one.tagName !== "PRE" || one.scrollHeight > one.clientHeight + 1)).map((one) => one.outerHTML);"""
# A script: how many controls the Tab key has to reach. Then window.came has those where the focus comes and shows.
DUE = IS_SEEN + """document.activeElement.blur(); window.getSelection().removeAllRanges(); window.scrollTo(0, 0);
const due = Array.from(root.querySelectorAll("a[href], button, input, select, pre[tabindex='0']"))
  .filter((one) => isSeen(one) && one.tabIndex >= 0 && !one.disabled); window.came = [];
document.addEventListener("focusin", ({ target }) => {
  const [at, style] = [due.indexOf(target), getComputedStyle(target)];
  const isShown = style.outlineStyle !== "none" && parseFloat(style.outlineWidth) >= 2;
  if (at >= 0 && isShown && !window.came.includes(at)) window.came.push(at);
});
return due.length;"""
# A script: how a question stands in print, and whether the view behind it is printed, too; null where none is open.
ASKS = """const one = document.querySelector("#sure[open]");
return one && [getComputedStyle(one).position, document.querySelector("main").checkVisibility()];"""
# A script: the rows of tables that may be split between two sheets of paper.
SPLIT = "return [...document.querySelectorAll('tr')].filter((one) => getComputedStyle(one).breakInside !== 'avoid')"
MOST_TABS = 400
# What has to have a name, by the roles that the browser tells a screen reader.
NAMED = {*"link button textbox searchbox spinbutton combobox checkbox Date DisclosureTriangle".split(),
         *"table dialog navigation group heading progressbar figure image".split()}
# Views: whose, where, and the button that leads further there.
READERS = "", "2001", "2001/0", "2001/1", "2001/8", "1001", "1004", "?q=letter&as=screens", "99", "nowhere"
VIEWS = [("reader", place, None) for place in READERS]
VIEWS += [("staff", place, None) for place in ("deeds", "rules", "takedowns", "keys", "journal", "disks")]
VIEWS += [("staff", *more) for more in [
    ("eyes", "Look"), ("timeline", "Change after"), ("checks", "Check disk 1002"), ("disk/1002", "Check it"),
    ("takedowns", "Change takedown 1000 of disk 1003"), ("takedowns", "Drop takedown 1000 of disk 1003")]]

@pytest.fixture(scope="module", params=VIEWS, ids=lambda view: " ".join(filter(None, view)))
def view(request, driver, tmp_path_factory):
    """A view of a page; it stands until all tests of it have ended."""
    whose, place, button = request.param
    museum, folder = museums.small(TODAY), tmp_path_factory.mktemp("own")
    museum.rules["R7"].pop(10)
    museum.rules["T1003"] = {1000: museums.rule(1000, "deny", ["public"], {"slot": 1})}
    museum.latest[1003] = "2026-01-02", "changed"
    museums.put_files(museum, 2001, "d64", 9, FILES)
    (folder / "titles.csv").write_text("accession,title,note\n2001,Letters of a ferryman,from the river\n")
    with stand_in.Door(museum, outside=whose == "reader", folder=folder) as door:
        door.journals = {"/journal": journal_lines(1, 1_800_000_000, "200", "PUT", "/deeds/7")}
        page = ReadersPage(driver, door) if whose == "reader" else StaffPage(driver, door).begin()
        page.go(place)
        if place == "disks":
            page.one("#disks [type=file]").send_keys(str(pathlib.Path(ROOT, "images", "museum.d64")))
            page.read(lambda state: state["list"])
        if button:
            page.push(button)
        yield page

def test_each_control_has_a_name_of_its_own_and_headings_skip_no_level(view):
    nodes = [node for node in view.cdp("Accessibility.getFullAXTree")["nodes"] if not node["ignored"]]
    due = [node for node in nodes if node["role"]["value"] in NAMED]
    assert [node for node in due if not node["name"]["value"].strip()] == []
    ids = view.script("return Array.from(document.querySelectorAll('[id]'), (one) => one.id)")
    assert due and len(set(ids)) == len(ids)
    levels = view.script(HEADINGS)
    assert levels and levels.count(1) <= 1 and levels[0] == min(levels)
    assert all(level <= before + 1 for before, level in zip(levels, levels[1:]))

def test_page_without_javascript_says_what_there_is_and_leads_to_it(reader):
    reader.cdp("Emulation.setScriptExecutionDisabled", value=True)
    try:
        reader.driver.get(reader.door.address)
        links = [link.get_property("href") for link in reader.driver.find_elements("css selector", "noscript a")]
        assert links == [f"{reader.door.address}{name}" for name in ("images", "catalogue", "titles.csv")]
        assert reader.one("main").text.startswith("The reading room\nThis page needs JavaScript.")
        assert not reader.one("#key-box").is_displayed()
    finally:
        reader.cdp("Emulation.setScriptExecutionDisabled", value=False)

def test_text_has_contrast_in_dark_and_light_and_nothing_is_cut_off_on_a_phone_or_at_200_percent(view):
    for scheme in ("dark", "light"):
        view.cdp("Emulation.setEmulatedMedia", features=[{"name": "prefers-color-scheme", "value": scheme}])
        assert view.script(CONTRAST) == [], scheme
        assert {part > 127 for part in view.script(PAPER)} == {scheme == "light"}
    for width in (320, 360, 640):
        with view.phone(width):
            view.wait(lambda state: view.script("return window.innerWidth") == width)
            assert (width, view.script(CUT_OFF)) == (width, [])

def test_tab_comes_to_each_control_in_order_and_shows_where_it_is(view):
    count, came, pressed = view.script(DUE), [], 0
    while len(came) < count and pressed < MOST_TABS:
        view.press(*[Keys.TAB] * 20)
        came, pressed = view.script("return window.came"), pressed + 20
    first = came.index(0) if 0 in came else 0
    assert count and came[first:] + came[:first] == list(range(count))

# A script: what comes of markup and of a script as a text, and of a question to another host.
REFUSED = """const [done] = arguments;
const nameOf = (doing) => { try { doing(); } catch (fault) { return fault.name; } };
const names = [() => { document.body.innerHTML = "<b>x</b>"; }, () => { document.createElement("script").text = "1"; }];
const refused = ({ effectiveDirective: name }) => { if (name === "connect-src") done([...names.map(nameOf), name]); };
document.addEventListener("securitypolicyviolation", refused);
fetch("https://localhost:1/").catch(() => {});"""

def test_browser_refuses_markup_scripts_and_other_hosts(view):
    assert [line for line in view.logs() if "Failed to load resource: the server responded" not in line] == []
    assert view.driver.execute_async_script(REFUSED) == ["TypeError", "TypeError", "connect-src"]
    view.logs()

@pytest.mark.parametrize("whose", ["reader", "staff"])
def test_each_view_has_a_title_of_its_own(whose, request):
    page, places = request.getfixturevalue(whose), {place for one, place, _ in VIEWS if one == whose}
    assert len({page.go(place)["title"] for place in places}) == len(places)

def test_print_is_on_light_paper_and_has_all_that_is_read_and_nothing_to_press(view):
    view.cdp("Emulation.setEmulatedMedia", media="print", features=[{"name": "prefers-color-scheme", "value": "dark"}])
    paper, others, asks, split = (view.script(script) for script in (PAPER, IN_PRINT, ASKS, SPLIT))
    view.cdp("Emulation.setEmulatedMedia", media="", features=[])
    assert min(paper) > 200 and others == split == [] and asks in (None, ["absolute", False])
