// What the desk lists for the key in use, the disks and the files of each, and what is found in these lists.
import { shownName } from "./names.js";
import { SIZES } from "./pictures.js";
import { askObject, counted, forgetWithKey, kindWords, listOf, own, textOf } from "./shared.js";
import { inParts, keeper, readTable } from "./stream.js";
import { noteOf, titleOf } from "./titles.js";

// How often the page says how far it is, and for how long it keeps a list, in milliseconds.
const [PACE, KEPT] = [500, 300000];
// What the types of files mean, in plain words: those of the 1541, and those that are usual on CP/M.
const OF_1541 = {
  PRG: "program", SEQ: "text or data", USR: "data for one program", REL: "records",
  DEL: "dividing line", OTHER: "unknown", picture: "picture",
};
const OF_CPM = {
  ASM: "assembler source", BAK: "earlier copy", BAS: "BASIC program", COM: "command", DAT: "data", DBF: "database",
  DOC: "text", FOR: "Fortran source", HEX: "code as digits", LIB: "library", LTR: "letter", MAC: "assembler source",
  OVR: "part of a program", PAS: "Pascal source", PRN: "printout", REL: "compiled code", SUB: "list of commands",
  TXT: "text",
};

let lists = {};

forgetWithKey(() => (lists = {}));

// The disks in the order in which the home showed them last.
export const lastShown = () => lists.shown ?? [];
export const showsNow = (disks) => Object.assign(lists, { shown: disks });

// The promise of what was read, with its moment of asking, unless it failed, is too old, or older than another moment.
export function kept(name, read, since = 0) {
  if (!lists[name] || lists[name].asked < since || Date.now() - lists[name].asked > KEPT) {
    const asked = Date.now();
    const made = { asked, list: read().then((list) => Object.assign(list, { asked })) };
    lists[name] = made;
    made.list.catch(() => lists[name] === made && delete lists[name]);
  }
  return lists[name].list;
}

export const nameOfDisk = (accession) => titleOf(accession) || `Disk ${accession}`;
export const nameOfFile = (kind, file) => shownName(kind, file.name) || `File at slot ${file.slot}`;

export const mayRead = (file) => file.effect === "read" && file.size !== null;

// What a file likely is: its type, or a picture where it is a program that has the size of one; its choice in a list.
const likely = (kind, { type, size }) => (kind !== "cpm8" && type === "PRG" && SIZES.has(size) ? "picture" : type);
export const typeWords = (kind, file) => own(kind === "cpm8" ? OF_CPM : OF_1541, likely(kind, file));
export const TOGETHER = { BAS: "PRG", SEQ: "TXT", DOC: "TXT" };
const groupOf = (kind, file) => own(TOGETHER, likely(kind, file)) || likely(kind, file);

// The disks, each with what the lists of them need.
const listed = ({ accession, kind, files }) => ({ accession, kind, files });
export const allDisks = () => kept("disks", async () => listOf((await askObject("/images")).images).map(listed));

// Small letters without accents, which are alike where somebody looks for something.
export const plain = (text) =>
  /^[ -~\n]*$/.test(text) ? text.toLowerCase() : text.toLowerCase().normalize("NFD").replace(/\p{M}/gu, "");

// A text without the two dots of its umlauts, and with an e in their place.
const UMLAUTS = { \u00e4: "ae", \u00f6: "oe", \u00fc: "ue", \u00df: "ss" };
const withE = (text) => text.toLowerCase().normalize("NFC").replace(/[\xdf-\xfc]/g, (sign) => UMLAUTS[sign] ?? sign);
const spellings = (text) => [...new Set([text, withE(text)].map(plain))];

// What a file is found by: its name as it was shown and as it is printed, its type, and what it is or may be.
function fileText(kind, file) {
  const [shown, end] = [shownName(kind, file.name), kind === "cpm8" ? "" : `.${file.type}`];
  const [printed, words] = [shown === file.name ? "" : `\n${file.name}`, typeWords(kind, file)];
  return plain(`${shown}${end}${printed}\n${words}${words === "program" ? " basic" : ""}`);
}

// All files, by their disks. Of a text only one copy is kept.
async function readFiles(progress) {
  const [[disks, once], number] = [[new Map(), keeper()], (text) => (text === "" ? null : Number(text))];
  let spoken = performance.now();
  await readTable("/catalogue", {
    take: ([accession, , kind, slot, user, name, type, size, faults, rule, effect]) => {
      const file = { slot: Number(slot), user: number(user), name: once(name), type: once(type), size: number(size) };
      Object.assign(file, { faults: faults ? faults.split(" ") : null, effect: once(effect), rule: once(rule) });
      file.text = once(fileText(kind, file));
      const disk = Number(accession);
      if (disks.has(disk)) disks.get(disk).push(file);
      else disks.set(disk, [file]);
    },
    progress: (count) => {
      if (performance.now() - spoken < PACE) return;
      spoken = performance.now();
      progress(`Reading the list of all files: ${counted(count, "file")}.`);
    },
  });
  return disks;
}

export const allFiles = (progress) => kept("files", () => readFiles(progress));

// The files of a listing, whose names, types and rules are texts whatever comes.
const fileOf = (said) => ({ ...said, name: textOf(said.name), type: textOf(said.type), rule: textOf(said.rule) });

// The listing of a disk now. Where the list of all files says other things of it, the lists are asked for anew.
export async function listingOf(accession, signal) {
  const listing = await askObject(`/images/${accession}`, { signal });
  const files = listOf(listing.files).map(fileOf);
  const rights = (some = []) => some.map(({ slot, effect, size }) => `${slot} ${effect} ${size}`).sort().join();
  const isOld = (all) => rights(all.get(accession)) !== rights(files);
  lists.files?.list.then((all) => isOld(all) && (lists = { shown: lists.shown, read: lists.read }), () => {});
  return { ...listing, files };
}

// Words to look for, in their spellings, as pieces between stars. Little ones count only alone, a plural's s never.
const [PLURAL, LITTLE] = [/(?<=[a-z]{2}[a-hj-rtv-z])s$/i, /^(an?|and|at|by|for|from|in|of|on|or|the|to|with)$/i];
export function wordsOf(typed = "") {
  const text = typed.replace(/\b(disk|accession number) +(?=\d)/gi, "");
  const [all, few] = [text.match(/\S*[^\s*]\S*/g) ?? [], (word) => !LITTLE.test(word)];
  const words = all.some(few) ? all.filter(few) : all;
  return words.map((word) => spellings(word.replace(PLURAL, "")).map((way) => way.split("*").filter(Boolean)));
}

// Whether a text has the pieces of a word one after the other, in one of its spellings.
const has = (text, word) => word.some((pieces) => {
  let at = 0;
  return pieces.every((piece) => {
    const found = text.indexOf(piece, at);
    at = found + piece.length;
    return found >= 0;
  });
});

// Whether a disk's text has a word; a number counts only as a whole, so that 1 does not find each 1541.
function inDisk(text, word) {
  const [[number]] = word;
  return /^\d+$/.test(number) ? new RegExp(`(?<!\\d)${number}(?!\\d)`).test(text) : has(text, word);
}

// What a title is put in order by: articles and accents do not count, and numbers count as such.
const orderOf = (title) => plain(title).replace(/^(the|an?) /, "").replace(/\d+/g, (digits) => digits.padStart(6, "0"));
export const letterOf = ({ accession }) => orderOf(titleOf(accession))[0];

// The disks in the order of their titles. Those without a title come last, by their numbers, as the desk lists them.
export function known(disks) {
  const isTitled = (disk) => titleOf(disk.accession) !== "";
  const keys = new Map(disks.filter(isTitled).map((disk) => [disk, orderOf(titleOf(disk.accession))]));
  if (keys.size === 0) return disks;
  const titled = [...keys].sort(([, one], [, other]) => (one < other ? -1 : Number(one > other)));
  return [...titled.map(([disk]) => disk), ...disks.filter((disk) => !keys.has(disk))];
}

// What a disk is found by, which is kept from the first search on.
function diskText(disk) {
  const { accession, kind } = disk;
  const texts = [`disk ${accession}`, titleOf(accession), noteOf(accession), kindWords(kind)];
  disk.text ||= spellings(texts.join("\n")).join("\n");
  return disk.text;
}

const ORDERS = {
  number: (one, other) => one.accession - other.accession,
  files: (one, other) => other.files - one.files,
};

export const familyOf = (kind) => (kind === "cpm8" ? "cpm8" : "d64");

const count = (counts, name) => counts.set(name, (counts.get(name) ?? 0) + 1);

// Those of some files that have most words of their own: all, where only their disk has any.
function namedBy(words, files) {
  const counts = files.map(({ text }) => words.filter((word) => has(text, word)).length);
  const most = counts.reduce((one, other) => Math.max(one, other), 0);
  return files.filter((_, at) => counts[at] === most);
}

// Whether somebody looks for BASIC: disks that surely have it come before those with programs that may be.
export const isForBasic = (q) => /\bbasic/i.test(q ?? "");

// The disks that were found (all, where nothing is looked for), by disks the files that have all words, and counts.
export async function found(disks, files, { q, type, kind, sort }) {
  const [words, counts] = [wordsOf(q), { kinds: new Map(), types: new Map(), all: 0, files: 0, read: 0 }];
  const [isAll, matches] = [!words.length && !type && !kind, new Map()];
  const hits = isAll ? disks : [];
  const look = (disk) => {
    const [missing, all] = [words.filter((word) => !inDisk(diskText(disk), word)), files?.get(disk.accession) ?? []];
    const hasMissing = ({ text }) => missing.every((word) => has(text, word));
    const named = words.length ? namedBy(words, all.filter(hasMissing)) : all;
    const isOfKind = !kind || familyOf(disk.kind) === kind;
    if (isOfKind) counts.all += named.length;
    for (const file of isOfKind ? named : []) count(counts.types, groupOf(disk.kind, file));
    const wanted = type ? named.filter((file) => groupOf(disk.kind, file) === type) : named;
    if ((type || missing.length) && wanted.length === 0) return;
    count(counts.kinds, familyOf(disk.kind));
    if (!isOfKind) return;
    counts.files += words.length || type ? wanted.length : disk.files;
    counts.read += wanted.filter(mayRead).length;
    if (!isAll) hits.push(disk);
    if (words.length || type) matches.set(disk, wanted);
  };
  await inParts(disks, (some) => some.forEach(look));
  const isSure = (disk) => matches.get(disk)?.some(({ type }) => type === "BAS") === true;
  const first = isForBasic(q) ? [...hits.filter(isSure), ...hits.filter((disk) => !isSure(disk))] : hits;
  return { hits: Object.hasOwn(ORDERS, sort ?? "") ? [...first].sort(ORDERS[sort]) : first, matches, counts };
}
