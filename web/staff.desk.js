// The staff's side of the desk: what stands there, changes to it, and the work of a section of the page.
import { askObject, box, button, cell, element, fields, grouped, listOf, part, refusal } from "./shared.js";
import { RULES, askToday, momentNow, quoted, whenWords } from "./staff.words.js";
import { withTitle } from "./titles.js";

// After these nobody here knows whether the desk has done what was sent. A command that is sent twice is done once.
const [UNSURE, AGAIN] = [[0, 502, 503, 504], "The desk may have done it all the same. You can safely send it again."];

// Whether a change was sent and nobody here knows what became of it.
export const isUnsure = (fault) => fault.isOfChange === true && UNSURE.includes(fault.status);
export const refusedWork = (fault) => refusal(fault, isUnsure(fault) ? AGAIN : "");

// How many bytes a name or a reason has at most where it is sent.
const LONGEST_WORDS = 1000;
export const ANY_NAME = "Whoever has a key of the staff can write any name.";
export const formOf = (name) => part(name).querySelector("form");

// What the desk holds, as it was when it was read last, and the moment at which the desk was asked for it.
export const held = { deeds: [], takedowns: [], keys: [], checks: [] };

export const readHeld = async (what, signal, moment = momentNow()) =>
  (held[what] = Object.assign(listOf((await askObject(`/staff/${what}`, { signal }))[what]), { moment }));

// The rules of deeds, or the takedowns of disks, that stood when they were read last, of all or of one; and read anew.
export const listName = (name) => (name === "rules" ? "deeds" : name);
export function standing(name, of) {
  const [number, { letter, path }] = [name === "rules" ? "deed" : "accession", RULES[name]];
  const lists = held[listName(name)].filter((one) => of === undefined || one[number] === of);
  const told = (scope, rule) => ({ label: `${letter}${scope}.${rule.rank}`, path: path(scope, rule.rank), rule });
  return lists.flatMap(({ [number]: scope, rules }) => rules.map((rule) => ({ name, scope, ...told(scope, rule) })));
}
export const rulesOf = (name, scope) => standing(name, scope).map(({ rule }) => rule);
export async function readRules(signal) {
  for (const what of ["deeds", "takedowns"]) await readHeld(what, signal);
  return Object.keys(RULES).flatMap((name) => standing(name));
}

const sentWords = (text) => encodeURIComponent(text.trim());

// Marks a name or a reason that is missing or too long, and says whether both can be sent.
export function hasWho() {
  for (const input of [part("who").elements.name, part("who").elements.reason]) {
    const length = sentWords(input.value).length;
    const long = length > LONGEST_WORDS ? "This is too long: it has at most 1,000 bytes as it is sent." : "";
    input.setCustomValidity(length === 0 ? "Type this: the journal keeps it with the change." : long);
  }
  return part("who").reportValidity();
}

export const whoNow = ({ name, reason } = part("who").elements) =>
  ({ name: name.value.trim(), reason: reason.value.trim() });

// Goes up where a change is sent, and where it ends: what was asked for at a lower count may be older than the change.
export let changeCount = 0;

// Whether the reason that stands there has gone out with a change that is done: the next change has one of its own.
let isSpent = false;

// What is not done yet keeps its reason.
export const keepReason = () => (isSpent = false);

export async function changed(method, path, body) {
  const { name, reason } = whoNow();
  const headers = { ...fields(), "Desk-Staff": sentWords(name), "Desk-Note": sentWords(reason) };
  changeCount += 1;
  const sent = askObject(path, { method, body, headers }).finally(() => (changeCount += 1));
  const said = await sent.catch((fault) => Promise.reject(Object.assign(fault, { isOfChange: true })));
  isSpent = true;
  return said;
}

export async function send(method, path, body) {
  if ((await changed(method, path, body)).done !== true) throw new TypeError("it is not done");
}

export const show = (name, ...parts) => part(name).querySelector(".result").replaceChildren(...parts);
export const paragraph = (words) => (words instanceof Node ? words : dated("p", words, { className: "callout" }));

// An element with a text, whose days are not broken at the end of a line, and whose disks lead to their pages.
export function dated(name, text, fields = {}) {
  const made = element(name, null, fields);
  let [from, end, isList] = [0, 0, false];
  for (const { 0: words, index } of text.matchAll(/\b[0-9]+(?:-[0-9]{2}-[0-9]{2})?\b/g)) {
    const gap = text.slice(end, index);
    isList = gap.endsWith("CHANGED: ") || (isList && gap === ", ");
    end = index + words.length;
    const isDisk = (isList || /\bdisk $/.test(gap)) && /^[1-9][0-9]{0,5}$/.test(words);
    if (!isDisk && !/^[0-9]{4}-/.test(words)) continue;
    if (from < index) made.append(text.slice(from, index));
    made.append(isDisk ? diskLink(words) : element("span", words, { className: "date" }));
    from = end;
  }
  if (from < text.length) made.append(text.slice(from));
  return made;
}

const buttonsOf = (words, presses) =>
  Object.entries(presses).map(([text, press]) => button(text, press, { ariaLabel: `${text} ${words}` }));
export const buttonsCell = (words, presses) => cell("", box("div", "choices", ...buttonsOf(words, presses)), "work");

// Shows a form in a dialog, which closes before what is typed there is used.
export function showChange(heading, form, use) {
  const dialog = part("change");
  form.append(button("Leave it as it is", () => dialog.close(), { name: "leave" }));
  form.addEventListener("submit", () => dialog.close());
  form.addEventListener("submit", use);
  part("change-heading").textContent = heading;
  dialog.querySelector("form").replaceWith(form);
  dialog.showModal();
}

const diskLink = (accession) => element("a", String(accession), { href: `#/disk/${accession}` });

// The cell of a disk's number, with its title below.
export const diskCell = (accession, column = "Disk") =>
  cell(column, withTitle(diskLink(accession), Number(accession)), "number");

// How each section shows anew what stands, and how its latest work shows how far it has come.
const [shows, progresses] = [{}, {}];
export const showsAnew = (name, how) => (shows[name] = how);
const again = async (name) => shows[name]?.({ progress: progresses[name] });

// What is said where a section cannot be shown anew after a change.
export const older = (name) =>
  paragraph(`The ${name} could not be read anew after that: the list below may be older. Open this view again.`);

// The words of a change that is done, once its section is shown anew; where that fails, also what was not read and why.
export async function shownAnew(name, words) {
  const fault = await again(name).then(() => null, (came) => came);
  return fault === null ? words : [words, older(name), refusal(fault)];
}

// The latest report of each address: the view has it again when it is opened again.
const reports = new Map();

// What opens the view that is shown: its section, what stops it, and its end; and the other work of each section.
let opened = { stop: () => {} };
const running = {};

// Opens a view. What opened the one before is stopped. Other work of the view itself comes to its end first, and what
// is said of it stays; until then nothing is shown of what stands.
export function open(name, doing) {
  opened.stop();
  const mine = { name, stop: () => (mine.isLeft = true) };
  mine.end = openAfter(opened.name === name ? opened.end : null, mine, doing);
  opened = mine;
  return mine.end;
}

async function openAfter(before, mine, doing) {
  const [stands, result] = [".stands", ".result"].map((at) => part(mine.name).querySelector(at));
  stands.hidden = true;
  await before;
  const isBusy = running[mine.name] !== undefined;
  while (running[mine.name]) await running[mine.name];
  if (mine.isLeft) return;
  const kept = isBusy ? [...result.childNodes] : null;
  const go = (tools) => {
    mine.stop = tools.stop;
    stands.hidden = false;
    return doing(tools);
  };
  const report = reports.get(location.hash);
  await workAlone(mine.name, go);
  if (kept) result.replaceChildren(...kept);
  else if (report) result.append(report);
}

// Does some work of a section, one at a time, shows the outcome there, and says whether it was done. The work gets what
// shows how far it is and a signal that stops it; it gives what to show, words or nodes, or null to keep what is shown.
// A press while a view still reads what it shows waits for that, unless somebody leaves the view meanwhile.
export async function work(name, doing) {
  if (running[name] !== undefined) return false;
  const { end } = opened;
  const go = () => opened.end === end && workAlone(name, doing);
  running[name] = Promise.resolve(end).then(go).finally(() => delete running[name]);
  return running[name];
}

async function workAlone(name, doing) {
  const { hash } = location;
  part(name).setAttribute("aria-busy", "true");
  show(name);
  const stop = new AbortController();
  const tools = { progress: progressOf(name, stop), signal: stop.signal, stop: () => stop.abort() };
  progresses[name] = tools.progress;
  // a change that was sent may be done all the same
  const isStopped = (fault) => stop.signal.aborted && !isUnsure(fault);
  const failed = (came) => ({ outcome: isStopped(came) ? "Stopped." : refusedWork(came), done: false, fault: came });
  // (the journal has days of its own, and needs no today)
  const { outcome, done, fault } = await (name === "journal" ? Promise.resolve() : askToday(stop.signal))
    .then(() => doing(tools))
    .then((made) => ({ outcome: made, done: true }), failed);
  if (outcome !== null && outcome !== undefined) show(name, ...[outcome].flat().map(paragraph));
  const report = part(name).querySelector(".result > .report");
  if (report) reports.set(hash, report);
  if (fault && isUnsure(fault)) await again(name).catch(() => part(name).querySelector(".result").append(older(name)));
  part(name).setAttribute("aria-busy", "false");
  return done;
}

// Work that changes something: only with a name and a reason. Where its outcome is out of sight, or the button that was
// pressed is gone with its line, the outcome comes into view and gets the focus.
export async function change(name, doing) {
  isSpent = false;
  if (!hasWho()) return false;
  const done = await work(name, doing);
  if (done && isSpent) part("who").elements.reason.value = "";
  const [at, result] = [document.activeElement, part(name).querySelector(".result")];
  const { top, bottom } = result.getBoundingClientRect();
  const isSeen = top >= 0 && bottom <= window.innerHeight;
  // a dialog that has just closed may still have the focus
  if (isSeen && at !== document.body && !at.closest("dialog:not([open])")) return done;
  result.focus({ preventScroll: true });
  if (!isSeen) result.scrollIntoView();
  return done;
}

// Shows how far a long work of a section has come, with a button that stops it.
function progressOf(name, stop) {
  const [words, bar] = [element("span", ""), element("progress", null, { ariaLabel: "Progress" })];
  const shown = box("p", "choices", words, bar, button("Stop", () => stop.abort()));
  return (doing, count, all) => {
    words.textContent = `${doing}: ${grouped(count)}${all ? ` of ${grouped(all)}` : ""}.`;
    if (all) Object.assign(bar, { max: all, value: count });
    if (!shown.isConnected) show(name, shown);
  };
}

// Asks once more: the words, who does it and why, more below them, and the buttons for yes and for no.
export function sure({ words, more = [], go, keep }) {
  const [dialog, { name, reason }] = [part("sure"), whoNow()];
  part("sure-words").textContent = words;
  const asks = `The page asks this ${whenWords(momentNow())}.`;
  part("sure-who").textContent = `${asks} By ${quoted(name)}. Reason: ${quoted(reason)}`;
  part("sure-more").replaceChildren(...more);
  const [yes, no] = dialog.querySelectorAll("button[value]");
  // (a save that was under way when an earlier question was left may have shut it)
  [yes.disabled, yes.textContent] = [false, go];
  no.textContent = keep;
  dialog.returnValue = "";
  dialog.showModal();
  const closed = new Promise((close) => dialog.addEventListener("close", close, { once: true }));
  // (a question may stand open over midnight)
  return closed.then(() => dialog.returnValue === "go" && askToday().then(() => true));
}
