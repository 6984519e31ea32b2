// The page for readers: one view at a time, by the address. It sends the desk GET and nothing else.
import { house, readAbout, room } from "./about.js";
import { choicesIn, showHome } from "./room.home.js";
import { allDisks, nameOfDisk } from "./room.lists.js";
import { askAbout, askedWords, link } from "./room.parts.js";
import { Refused, box, button, keyInUse, listenForKey, loaded, part, refusal, useNow } from "./shared.js";
import { readTitles } from "./titles.js";

// How often the view has changed: the page drops a reply to an earlier view.
let turn = 0;
// What stops what a view still asks for once the reader goes on.
let leaving = new AbortController();
// The path of the view that is shown, what draws its choices anew, and what is to be done when the reader leaves it.
let shown = { path: null, change: null, leave: () => {} };
// Of each entry of the browser's history how far it was scrolled, and by which link the reader left it.
const scrolled = new Map();
let entry = null;
const own = Promise.all([readTitles(["titles.csv"]), readAbout()]);
history.scrollRestoration = "manual";

// Where the reader is. An address of an earlier version of this page that finds something leads to the same search.
function place() {
  const old = /^#\/find\/(.+)$/.exec(location.hash);
  if (old) history.replaceState(history.state, "", `#/?q=${old[1].replaceAll("+", "%2B")}`);
  const [path, query = ""] = location.hash.replace(/^#\/?/, "").split("?");
  const [, accession, slot] = /^([1-9][0-9]{0,5})(?:\/(0|[1-9][0-9]{0,3}))?$/.exec(path) ?? [];
  return { path, query, accession, slot };
}

function showPlaces({ path, accession, slot }) {
  const steps = path === "" ? [] : [link("All disks", "")];
  if (slot) steps.push(link(nameOfDisk(Number(accession)), accession));
  part("places").replaceChildren(...steps.flatMap((step, at) => (at ? [" / ", step] : [step])));
  part("places").hidden = steps.length === 0;
}

// What not every reader needs is loaded when it is asked for.
async function asked({ path, query, accession, slot }, progress, signal) {
  if (slot !== undefined) return (await loaded(import("./room.file.js"))).showFile(accession, slot, signal);
  if (accession !== undefined) return (await loaded(import("./room.disk.js"))).showDisk(accession, signal);
  if (path !== "") throw new Refused(404, { error: "no-route" });
  return showHome(choicesIn(query), progress);
}

// A refusal, with the ways on: without a key, to the staff, to the disk, or to all disks.
function refusedView({ path, accession, slot }, fault) {
  if (fault.said?.error === "unknown-key") {
    part("caller").textContent = "This key is unknown";
    const without = button("Go on without a key", () => useKey(""));
    const again = button("Type it again", () => {
      part("key-box").open = true;
      part("key").focus();
    });
    return { heading: "The desk does not know this key", parts: [refusal(fault), box("p", "cluster", without, again)] };
  }
  const disk = accession && nameOfDisk(Number(accession));
  const ways = box("p", "cluster", accession ? askAbout(Number(accession), slot, fault.heading) : null);
  const others = slot ? link("The other files of this disk", accession) : link("All disks", "");
  ways.append(path === "" ? button("Try again", () => show(false)) : others);
  const none = path === "" ? "The list of disks did not come" : "There is no such place here";
  const isName = fault.heading !== undefined;
  const heading = fault.heading ?? (slot ? `${disk}, slot ${slot}` : (disk ?? none));
  const title = isName ? `${heading}, ${disk}` : heading;
  return { heading, title, isName, parts: [fault.why ?? refusal(fault), ways] };
}

// A title for the window; that of the home says what was looked for.
const entitle = (title) => Object.assign(document, { title: [...new Set([title, house()])].join(" \u2013 ") });
const homeTitle = ({ q }) => (q ? `\u201c${q}\u201d` : room());

function display({ heading, title = heading, isName, parts, fill, change = null, leave = () => {} }, { path, query }) {
  shown.leave();
  shown = { path, change, leave };
  entitle(change ? homeTitle(choicesIn(query)) : title);
  part("heading").textContent = heading;
  part("heading").classList.toggle("name", isName === true);
  document.body.classList.toggle("home", change !== null);
  if (!change) [part("status").textContent, part("asked").textContent] = ["", askedWords()];
  part("view").replaceChildren(...parts);
  fill?.();
}

// How the link that has the focus is found where the view is drawn anew.
function focusedLink() {
  const at = document.activeElement;
  const label = at?.closest("nav")?.ariaLabel;
  const link = at?.matches("#view a") && `a[href="${CSS.escape(at.getAttribute("href"))}"]`;
  return link ? `${label ? `nav[aria-label="${label}"] ` : ""}${link}` : null;
}

// Notes how far the reader has scrolled and by which link they leave, and gives both where they come back.
function arrive() {
  if (entry !== null) scrolled.set(entry, { y: window.scrollY, left: focusedLink() });
  entry = history.state?.entry ?? `${Date.now()}-${Math.random()}`;
  history.replaceState({ entry }, "");
  return scrolled.get(entry) ?? { y: 0, left: null };
}

async function show(isMoved) {
  const [here, mine, focused, at] = [place(), ++turn, focusedLink(), arrive()];
  leaving.abort();
  const { signal } = (leaving = new AbortController());
  const progress = (words, asked) => {
    if (shown.path !== here.path && mine !== turn) return;
    part("status").textContent = words;
    if (asked) part("asked").textContent = askedWords(asked);
  };
  const failed = (fault) => {
    progress("");
    part("view").append(refusal(fault));
  };
  part("view").ariaBusy = "true";
  if (isMoved && shown.change && shown.path === here.path) {
    entitle(homeTitle(choicesIn(here.query)));
    part("view").querySelector(":scope > .refused")?.remove();
    await shown.change(choicesIn(here.query)).catch(failed);
    // a choice that was pressed keeps the focus where it is drawn anew
    const isLost = mine === turn && focused !== null && document.activeElement === document.body;
    if (isLost) part("view").querySelector(focused)?.focus();
  } else {
    const came = await own.then(() => asked(here, progress, signal)).catch((fault) => refusedView(here, fault));
    if (mine !== turn) return;
    showPlaces(here);
    display(came, here);
    if (isMoved && at.left === null) part("heading").focus({ preventScroll: true });
    await came.ready?.catch(failed);
    if (mine !== turn) return;
    if (at.left !== null) (part("view").querySelector(at.left) ?? part("heading")).focus({ preventScroll: true });
    window.scrollTo(0, at.y);
  }
  if (mine === turn) part("view").ariaBusy = "false";
}

function useKey(given) {
  // what the view still asks comes into no list of the new key
  shown.leave();
  useNow(given);
  part("forget").hidden = given === "";
  part("caller").textContent = keyInUse() === "" ? "I have a key" : "You read with a key";
  part("key-box").open = false;
  shown.path = null;
  show(false);
}

// The list of disks comes beside the museum's own files.
allDisks().catch(() => {});
listenForKey(useKey);
part("key-box").hidden = false;
window.addEventListener("hashchange", () => show(true));
// a print says where it is from
window.addEventListener("beforeprint", () => (part("asked").dataset.from = `${house()}, ${location.href}`));
show(false);
