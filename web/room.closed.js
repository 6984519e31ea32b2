// What is closed to the reader: how many files of a disk, by which rules, and why one of them is.
import { nameOfDisk, nameOfFile, typeWords } from "./room.lists.js";
import { facts, link } from "./room.parts.js";
import { ask, box, counted, element, keyInUse, meaning, textOf } from "./shared.js";
import { pause } from "./stream.js";
import { noteOf } from "./titles.js";

// At how many slots of a disk the page asks at most; and what is said where the desk does not answer.
const MOST = 40;
export const UNTOLD = "Whether other files are closed the desk did not tell.";

// Which rules decide about some files, each in words with its label, and about how many where there are several.
export function rulesOf(files) {
  const labels = new Map();
  for (const { rule } of files) labels.set(rule, (labels.get(rule) ?? 0) + 1);
  const about = (count) => (labels.size > 1 ? ` on ${counted(count, "file")}` : "");
  return [...labels].map(([label, count]) => `${meaning(label)} (${label})${about(count)}`).join(", ");
}

// What the deed is whose number stands in a rule.
export const deedWords = (deed) => `Deed ${deed} is the paper by which the disk came to the museum. `;

// Whoever gives no key is the public.
const whom = () => (keyInUse() === "" ? "the public" : "you");

// The refusals of files that a list lacks: at the slots that it leaves out, and behind it up to one without a file.
export async function closedNow(accession, listed, signal) {
  const [closed, slots] = [[], new Set(listed.map(({ slot }) => slot))];
  for (let slot = 0, asked = 0; asked < MOST; slot += 1) {
    if (slots.has(slot)) continue;
    const came = await ask(`/images/${accession}/files/${slot}`, { signal }).catch((fault) => fault);
    const name = textOf(came.said?.error);
    if (name === "denied") closed.push({ slot, rule: textOf(came.said.rule) });
    else if (name !== "no-file") throw came;
    else if (slot > Math.max(...slots)) return closed;
    asked += 1;
    await pause();
  }
  return Object.assign(closed, { isCut: true });
}

// How many files of a disk are closed besides those of a list, and why; an empty text if the desk tells of none.
export function closedWords(closed) {
  const [are, most] = [closed.length === 1 ? "is" : "are", closed.isCut ? "At least " : ""];
  const words = `${most}${counted(closed.length, "more file")} ${are} closed to ${whom()}, name and all:`;
  return closed.length ? `${words} ${rulesOf(closed)}.` : "";
}

// The other files of a disk that a rule closes, if any: links to those whose names a reader may see.
function othersOf({ accession, kind, slot, rule }, all) {
  const others = all.filter((one) => one.rule === rule && one.slot !== slot);
  const named = others.filter(({ name }) => name !== undefined);
  const links = named.flatMap((one) => [", ", link(nameOfFile(kind, one), `${accession}/${one.slot}`)]).slice(1);
  const count = `${all.isCut ? "at least " : ""}${counted(others.length, "other file")} of this disk`;
  return others.length ? box("span", "", count, links.length ? ": " : "", ...links) : null;
}

// Why a file is closed: what the museum says of the disk, which rule decides, and which other files that closes.
export function whyClosed(file, listed, signal) {
  const { accession, files, rule } = file;
  const [, kind, deed] = /^([RT])(\d+)/.exec(rule) ?? [];
  const is = kind === "T" ? "A takedown is how the staff closes files. Name it" : `${deedWords(deed)}Name this rule`;
  const why = `Closed${kind ? " by" : ":"} ${meaning(rule)} (${rule}).${kind ? ` ${is} when you ask.` : ""}`;
  const size = listed && listed.size !== null && counted(listed.size, "byte");
  const known = listed && [typeWords(file.kind, listed) || listed.type, size].filter(Boolean).join(", ");
  const shown = listed ? "that it is there, not what is in it" : "nothing of it but its place: its name is closed, too";
  const note = noteOf(accession) && `\u201c${nameOfDisk(accession)}\u201d: ${noteOf(accession)}`;
  const said = { "The museum says of": note, "What it is": known, "What decides": why };
  const list = Object.assign(facts(said), { ariaLive: "polite" });
  const all = listed ? Promise.resolve(files) : closedNow(accession, files, signal);
  const more = kind ? "It also closes" : "The same holds for";
  all.then((some) => list.append(...facts({ [more]: othersOf(file, some) }).children)).catch(() => {});
  return box("div", "refused", element("p", `This file is closed to ${whom()}. You may see ${shown}.`), list);
}
