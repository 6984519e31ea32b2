// What the views of the page for readers share: what a reader may do with a file, and ways to quote, ask and go on.
import { askStaff, holder } from "./about.js";
import { mayRead, nameOfDisk, typeWords } from "./room.lists.js";
import { box, button, counted, element, faultWords, keyInUse, kindWords, listOf, meaning, textOf } from "./shared.js";
import { titleOf } from "./titles.js";

// A link within the page.
export const link = (words, place, fields = {}) => element("a", words, { href: `#/${place}`, ...fields });

// Ways to go, under a name.
export const ways = (ariaLabel, look, ...inside) => Object.assign(box("nav", look, ...inside), { ariaLabel });

const UNSERVED = {
  DEL: "a dividing line of the directory, which has no bytes to read",
  REL: "a file of records, which the desk cannot give out",
};

// How many files of some a reader may read, where this is known and not all.
export function inSight(count, read) {
  const [open, listed] = [read, count - read].map((one) => one?.toLocaleString("en"));
  return `${counted(count, "file")} that you see${read < count ? `: ${open} to read, ${listed} only listed` : ""}`;
}

// What a reader may do with a file: a word, its colour, and why it is no more than that.
export function permission(kind, file) {
  const word = typeWords(kind, file) === "picture" ? "Show it" : "Read it";
  if (mayRead(file)) return { word, colour: "good", why: "" };
  const faults = listOf(file.faults).map(textOf);
  if (file.effect === "read" && faults.length) {
    return { word: "Damaged", colour: "bad", why: faults.map(faultWords).join("; ") };
  }
  const closed = file.rule.startsWith("T") ? "has closed it" : "lets you see no more";
  const unserved = UNSERVED[file.type] ?? "the desk cannot give out files of this type";
  const why = file.effect === "read" ? unserved : `${meaning(file.rule)} ${closed}`;
  return { word: "Listed only", colour: "some", why };
}

// Whom to ask about a disk or a file of it: what a mail is about has all that names it.
export function askAbout(accession, slot, name) {
  const [isFile, names] = [slot !== undefined, [name, titleOf(accession)].filter(Boolean).join(" on ")];
  const of = `Disk ${accession}${isFile ? `, slot ${slot}` : ""}${names && `: ${names}`}`;
  return askStaff(isFile ? "this file" : "this disk", of);
}

// What is known of something, in pairs of a term and a text, where there is one.
export function facts(pairs) {
  const said = Object.entries(pairs).filter(([, text]) => text);
  return box("dl", "facts", ...said.flatMap(([term, text]) => [element("dt", term), box("dd", "", text)]));
}

// The number of a disk behind its title, where it has one.
export const numberOf = (accession) => (titleOf(accession) ? `, disk ${accession}` : "");

// A moment by the clock of this computer, with its zone; and, as evidence, when the page asked the desk, and as whom.
export const momentWords = (at = Date.now()) =>
  new Date(at).toLocaleString("en-GB", { dateStyle: "long", timeStyle: "long" });
const eyes = () => (keyInUse() ? "with a key, the reading room's or the staff's, it cannot tell" : "as the public");
export const askedWords = (at) => `The page asked the desk on ${momentWords(at)} by the reader's clock, ${eyes()}.`;

// What is to be said of an address at which only this computer finds the page: the staff's own way, or a trial.
const IS_OWN = ["127.0.0.1", "localhost", "[::1]"].includes(location.hostname);
const ALONE = IS_OWN ? ", an address that works only on the computer where it was copied" : "";

// How to cite a disk or a file of it: the museum, the title, where it is there, its digest, the address, and the day.
export function citation(accession, kind, file = "", digest = "") {
  const disk = `\u201c${nameOfDisk(accession)}\u201d, floppy disk (${kindWords(kind)}), accession number ${accession}`;
  const day = new Date().toLocaleDateString("en-GB", { day: "numeric", month: "long", year: "numeric" });
  const parts = [holder(), file ? `${file}, on ${disk}` : disk, digest && `SHA-256 ${digest}`];
  return `${parts.filter(Boolean).join(". ")}. ${location.href}${ALONE} (accessed ${day}).`;
}

// Buttons that copy the address of the view and how to cite it, and the place that says what was copied.
export function quoting(cite) {
  const says = element("p", null, { className: "quiet copied", role: "status" });
  const copy = async (text, more = "") => {
    const done = await navigator.clipboard?.writeText(text).then(() => true, () => false);
    says.replaceChildren(element("strong", done ? "Copied: " : "To copy: "), text, more);
  };
  return { buttons: [button("Copy link", () => copy(location.href, ALONE)), button("Cite", () => copy(cite()))], says };
}

// The ways to what comes before and after in a list, and where in the list this is.
export function neighbours(what, all, at, wayTo) {
  const [before, after] = [all[at - 1], all[at + 1]].map((one) => one && wayTo(one));
  const back = before ? link(`\u2190\u00a0${before.words}`, before.place, { rel: "prev" }) : element("span", "");
  const on = after ? link(`${after.words}\u00a0\u2192`, after.place, { rel: "next" }) : element("span", "");
  const where = element("span", `${at + 1} of ${counted(all.length, what)}`, { className: "quiet" });
  return all.length > 1 ? ways(`Other ${what}s`, "neighbours", back, where, on) : "";
}
