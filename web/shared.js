// What both pages share: words for the replies of the desk, the key, requests to the desk, and how a refusal shows. The
// pages show everything as text: they never take what the desk or a disk says as markup, a script or an address.

// What each refusal of the desk means, and what to do. docs/FORMATS.md also has those of the program.
const REFUSALS = {
  "bad-head": ["The desk cannot read the request.", "Load this page again. Your key may be too long."],
  framing: ["The desk cannot read the request.", "Load this page again, and try again."],
  "no-route": ["There is nothing at that address.", "Check the numbers in it."],
  method: ["The desk does not answer that.", "Load this page again."],
  "unknown-key": ["The desk does not know this key.", "Type it again, or use another."],
  "staff-only": ["Only the staff may do this.", "Use a key of the staff."],
  "bad-body": ["A value is beyond its limits.", "Check each one. A donor has at most 1,000 bytes; an umlaut is two."],
  "no-accession": ["There is no disk with this number.", "Check the number."],
  "no-file": ["The disk has no file at this slot.", "Open one from the list of the disk."],
  "no-deed": ["There is no such deed.", "Check its number, or put the deed first."],
  denied: ["You may not read this file.", "Ask the staff, who know why."],
  "listed-only": ["The desk only lists files of this kind.", "Ask the staff, who have the whole disk."],
  faulty: ["This file is damaged, so the desk does not give it out.", "Ask the staff, who have the whole disk."],
  "wrong-size": ["The image does not have the length of its kind.", "Check that the file is whole. Choose it again."],
  "digest-differs": ["The desk received other bytes than you sent.", "Send them again."],
  conflict: [
    "This accession has another disk, or this disk under another deed or kind; or no key of the staff would be left.",
    "Give the disk another accession; or first put another key of the staff.",
  ],
  unavailable: ["The desk cannot do this now.", "Try again. If that fails, call whoever runs it."],
};

// How the names begin that nginx gives its own refusals. Their statuses say all that is in them.
const OF_NGINX = "server-";

// The same for a reply without such a name of the desk: from nginx, from nobody, or from this page itself.
const STATUSES = {
  0: ["This page cannot reach the desk.", "Check the connection, and try again."],
  400: ["The server cannot read the request.", "Your key may be too long."],
  403: ["Only the museum's own machine may do that.", "The staff works there, or through a tunnel."],
  404: ["There is nothing at that address.", "Check the numbers in it."],
  408: ["The request took too long.", "Try again."],
  413: ["That is longer than the desk takes.", "It takes at most 262,144 bytes."],
  429: ["You ask too often.", "Wait a little, and try again."],
  502: ["The desk is closed at the moment.", "Try again later."],
  503: ["The desk cannot answer now.", "Try again."],
  "no-space": ["The disk of the desk is nearly full, so it takes no changes.", "Call whoever runs it."],
  504: ["The desk took too long.", "Try again."],
  day: ["The desk did not tell which day it is there.", "Try again."],
  changed: ["What you may see has just changed.", "Try again."],
  asked: ["What is typed there now is not what you agreed to.", "Press \u201cPut the disks\u201d."],
  rotated: ["The journal has begun a new file since you opened it.", "Read it anew."],
  digest: ["This browser cannot make a SHA-256 here.", "Open the page at 127.0.0.1, or in another browser."],
  file: ["Your browser cannot read the file: it is gone, or has changed since you chose it.", "Choose it again."],
};
const OTHERS = ["The desk refuses that.", "Load this page again."];

const FAULTS = {
  "bad-count": "an entry counts more records than it can hold", duplicate: "two entries are the same part of it",
  gap: "a part of it is missing", short: "a part of it ends early", hole: "a block of it is missing",
  "off-disk": "it leads off the disk", crossed: "it shares a block with something else",
  "not-closed": "it was never closed", loop: "its blocks lead back into themselves",
  "read-error": "the drive could not read a block of it",
};

const DESK_RULES = { D0: "no rule lets you see it", K0: "the key is unknown", S0: "for the staff" };

// The kinds of image: their words, and how many bytes an image has.
export const KINDS = {
  cpm8: { words: "CP/M, 8 inches", length: 256256 }, d64: { words: "Commodore 1541", length: 174848 },
  d64e: { words: "Commodore 1541 with error bytes", length: 175531 },
};

export const part = (id) => document.getElementById(id);

// The key, without blanks and tabs at its ends as in a field of HTTP. The page keeps it here only.
let key = "";
export const keyInUse = () => key;

// What forgets something that was asked with the key, until somebody has no more need of that.
const forgetters = new Set();

export function forgetWithKey(forget) {
  forgetters.add(forget);
  return () => forgetters.delete(forget);
}

export function useNow(given) {
  key = given;
  forgetters.forEach((forget) => forget());
}

export class Refused extends Error {
  constructor(status, said) {
    super(said.error);
    Object.assign(this, { status, said });
  }
}

export function element(name, text, fields = {}) {
  const made = document.createElement(name);
  if (text !== null) made.textContent = text;
  return Object.assign(made, fields);
}

// An element with a class and what stands in it; null and "" leave nothing.
export function box(name, className, ...inside) {
  const made = element(name, null, className ? { className } : {});
  made.append(...inside.filter((one) => one !== null && one !== ""));
  return made;
}

export function button(words, press, more = {}) {
  const made = element("button", words, { type: "button", ...more });
  if (press) made.addEventListener("click", press);
  return made;
}

export function cell(label, content, kind = "") {
  const made = box("td", content === "" ? "empty" : kind, content instanceof Node ? content : element("span", content));
  made.dataset.label = label;
  return made;
}

export function table(caption, columns, rows) {
  const heads = columns.map((column) => element("th", column, { scope: "col" }));
  const made = box("table", "", box("thead", "", row(heads)), box("tbody", "", ...rows));
  made.setAttribute("aria-label", caption);
  return made;
}

export const row = (cells) => box("tr", "", ...cells);

export const textOf = (value) => (typeof value === "string" ? value : "");
// A whole number with its thousands apart. (What a browser has for this loads its tables of languages first: 40 ms.)
export const grouped = (count) => String(count).replace(/\B(?=(?:[0-9]{3})+$)/g, ",");
export const counted = (count, word) => `${grouped(count)} ${word}${count === 1 ? "" : "s"}`;
export const listOf = (value) => (Array.isArray(value) ? value : []);
export const own = (words, word) => (Object.hasOwn(words, word) ? words[word] : "");
export const kindWords = (kind) => own(KINDS, textOf(kind)).words || textOf(kind);

// A key may be any text; a field of HTTP holds bytes, so it goes as UTF-8.
export function fields() {
  if (key === "") return {};
  return { "Desk-Key": Array.from(new TextEncoder().encode(key), (byte) => String.fromCharCode(byte)).join("") };
}

export async function ask(path, more = {}) {
  const options = { cache: "no-store", credentials: "omit", redirect: "error", headers: fields(), ...more };
  const reply = await loaded(fetch(path, options));
  if (reply.ok) return reply;
  const said = await reply.json().catch(() => ({}));
  throw new Refused(reply.status, said !== null && typeof said === "object" ? said : {});
}

// The object in a reply. A connection that ends too early is a lost one.
export const askObject = async (path, more) => JSON.parse(await loaded((await ask(path, more)).text()));

const wordsFor = (fault) => {
  const name = textOf(fault.said.error);
  return own(REFUSALS, name) || own(STATUSES, name) || own(STATUSES, String(fault.status)) || OTHERS;
};

// What is loaded, of the page or from the desk. What does not come whole is a lost connection.
export const loaded = (coming) => coming.catch(() => Promise.reject(new Refused(0, {})));

// The desk's own name of a refusal, or none.
export function refusalName(fault) {
  const name = textOf(fault.said.error);
  return name.startsWith(OF_NGINX) ? "" : name;
}

// What a refusal means and what to do, as one text.
export const explainRefusal = (fault) => wordsFor(fault).join(" ");

// What a refusal means and what to do, with more words where the page has them, and the desk's own words.
export function refusal(fault, more = "") {
  const inLines = (...lines) => box("div", "refused", ...lines.map((line) => line && element("p", line)));
  if (!(fault instanceof Refused)) return inLines("This page cannot read the desk's answer.");
  const [name, rule] = [refusalName(fault), textOf(fault.said.rule)];
  const faults = listOf(fault.said.faults).map(textOf).map(explained).join("; ");
  const why = [name && `Refusal: ${name}`, rule && `Rule: ${rule}, ${meaning(rule)}`, faults && `Faults: ${faults}`];
  return inLines(`${explainRefusal(fault)}${more && " "}${more}`, ...why);
}

// What a rule's label says.
export function meaning(label) {
  const [, band, scope, rank] = /^([TR])([0-9]+)\.([0-9]+)$/.exec(label) || [];
  if (band === "T") return `takedown ${rank} of disk ${scope}`;
  if (band === "R") return `rule ${rank} of deed ${scope}`;
  return own(DESK_RULES, label) || "a rule";
}

export const faultWords = (word) => own(FAULTS, word) || word;
export const explained = (word) => (own(FAULTS, word) ? `${word} (${FAULTS[word]})` : word);

export async function digestOf(bytes) {
  if (crypto.subtle === undefined) throw new Refused("digest", {});
  const digest = await crypto.subtle.digest("SHA-256", bytes);
  return Array.from(new Uint8Array(digest), (byte) => byte.toString(16).padStart(2, "0")).join("");
}

export const asHeaderField = (text) => text.replace(/^[ \t]+|[ \t]+$/g, "");

export function listenForKey(use) {
  part("key-form").addEventListener("submit", (event) => {
    event.preventDefault();
    const given = asHeaderField(part("key").value);
    part("key").value = "";
    use(given);
  });
  part("forget").addEventListener("click", () => {
    use("");
    part("key").focus();
  });
  part("skip").addEventListener("click", (event) => {
    event.preventDefault();
    part("heading").focus();
  });
}
