// Other disks with the same bytes, as the journal has it, and who may read how many of their files, as the desk says.
import { box, counted } from "./shared.js";
import { UNKNOWN, isUnknown } from "./staff.changes.js";
import { dated, readRules } from "./staff.desk.js";
import { journalTo } from "./staff.origins.js";
import { COLUMNS, askedWords, effectOf, laterOf, nameOf, readSome } from "./staff.verdicts.js";
import { AUDIENCES, UNREAD, audienceWords, listed, momentNow, quoted, today } from "./staff.words.js";
import { titleOf } from "./titles.js";

// Of how many other disks the desk is asked what changes later, and how many files of one are named; what that is.
const [MOST, LATER] = [10, `In brackets: the next day, if there is one, on which these are other files, and how \
many then, by the rules that stood when it was asked. A takedown of one disk closes nothing on another.`];
const LIMIT = `Only whole disks are compared: a file may also be on a disk that differs elsewhere. Of disks that the \
journal does not have the page cannot tell: the store, a file of SQLite, has the SHA-256 of each in its table image.`;

// The SHA-256 with which each disk was put last; the others with that of some, by their numbers: of which of these, and
// whether that is sure; and the verdicts of today of all of them.
export async function sameBytes(accessions, { changes, none, reach }, tools) {
  const puts = changes.filter(({ accession, digest }) => accession && digest).toReversed();
  const digests = new Map(puts.filter(({ status }) => status === "200").map((one) => [one.accession, one.digest]));
  const [named, found] = [Map.groupBy(accessions, (one) => digests.get(String(one))), new Map()];
  for (const put of puts) {
    const isSure = digests.get(put.accession) === put.digest;
    const isOther = (isSure || isUnknown(put)) && !accessions.includes(Number(put.accession));
    if (isOther && named.has(put.digest)) found.set(put.accession, { of: named.get(put.digest), isSure });
  }
  const asked = { day: found.size ? today() : "", moment: momentNow() };
  const numbers = [...found.values()].flatMap(({ of }) => of.map(String)).concat(...found.keys());
  const files = new Map(numbers.map((accession) => [accession, []]));
  const take = (record) => files.get(record[COLUMNS.accession])?.push(record);
  if (found.size) await readSome([...files.keys()], asked.day, take, tools).then(() => readRules(tools.signal));
  const others = [...found].sort(([one], [other]) => one - other);
  for (const [accession, one] of others.slice(0, MOST)) {
    const disk = { accession: Number(accession), deed: Number(files.get(accession)[0]?.[COLUMNS.deed]) };
    one.later = await laterOf(disk, asked.day, tools);
  }
  return { digests, others, files, unnamed: named.get(undefined) ?? [], accessions, asked, none, reach };
}

// How many files an audience may read; and the next day on which these are others, with how many then.
function readsWords(files, later, audience) {
  const of = (all) => all.filter((one) => effectOf(one, audience) === "read").map((one) => one[COLUMNS.slot]);
  const turn = later?.find((one) => String(of(one.files)) !== String(of(files)));
  return `${of(files).length}${turn ? ` (from ${turn.day}: ${of(turn.files).length})` : ""}`;
}

// Who may read which files of a disk there, and not on one with the same bytes, or not once commands close them there.
function onlyThere(files, its, accession, closing) {
  const keyOf = (record) => record.slice(COLUMNS.slot, COLUMNS.faults).join();
  const isMeant = (one, audience) =>
    closing.some(({ slot, rule }) => String(slot) === one[COLUMNS.slot] && rule.audiences.includes(audience));
  const namesFor = (audience) => {
    const isShut = (one) => effectOf(one, audience) !== "read" || isMeant(one, audience);
    const shut = new Set(its.filter(isShut).map(keyOf));
    const names = files.filter((one) => effectOf(one, audience) === "read" && shut.has(keyOf(one))).map(nameOf);
    const rest = names.splice(MOST).length;
    return listed([...names, rest && counted(rest, "more file")].filter(Boolean));
  };
  const groups = [...Map.groupBy(Object.keys(AUDIENCES), namesFor)].filter(([names]) => names);
  const not = `${closing.length ? "then not" : "not"} on disk ${accession}`;
  const texts = groups.map(([names, all]) => `${audienceWords(all)} may read ${names} there, and ${not}`);
  return texts.join("; ") || `nobody may read a file there that they may not read on disk ${accession}`;
}

function diskWords([accession, { of, isSure, later }], { files: all, accessions }, closing) {
  const [files, isOfMany] = [all.get(accession), accessions.length > 1];
  const title = titleOf(Number(accession));
  const more = [title && quoted(title), isOfMany && `with the bytes of disk ${listed(of)}`, !isSure && UNKNOWN];
  const reads = Object.entries(AUDIENCES).map(([audience, words], at) =>
    `${words}${at ? "" : " may read"} ${readsWords(files, later, audience)}`);
  const far = later?.isAll ? "" : " (on other days it may be otherwise: see the timeline)";
  const only = of.map((one) => onlyThere(files, all.get(String(one)), one, closing)).join("; ");
  const has = `${only}; of ${counted(files.length, "file")} in all ${listed(reads)}`;
  const what = files.length ? has : "the desk has no file of it";
  return `${[`disk ${accession}`, ...more].filter(Boolean).join(", ")}: ${what}${far}`;
}

// What is to be said: first, then of each disk, and of what is not known.
function partsOf(same, closing) {
  if (!same) return [`Other disks with the same bytes: ${UNREAD}.`, [], ""];
  const { others, unnamed, accessions, asked, none, reach } = same;
  const whose = `the bytes of ${accessions.length > 1 ? "these disks" : `disk ${accessions[0]}`}`;
  const [journal, some] = [`the journal${reach && `, back to ${reach},`}`, counted(others.length, "other disk")];
  const also = `As ${journal} has it, ${whose} are also on ${some}. On ${asked.day}:`;
  const no = `T${journal.slice(1)} has no other disk with ${whose}.`;
  const of = unnamed.length > 9 ? counted(unnamed.length, "disk") : `disk ${listed(unnamed)}`;
  const why = none || `${journal} does not have the SHA-256`;
  const unknown = unnamed.length && `Which other disks have the bytes of ${of} is not known: ${why}.`;
  const [first, ...more] = [unnamed.length < accessions.length && (others.length ? also : no), unknown].filter(Boolean);
  const rest = [others.length && `${askedWords(asked)} ${LATER}`, ...more, LIMIT].filter(Boolean).join(" ");
  return [first, others.map((one) => diskWords(one, same, closing)), rest];
}

export function sameBox(same, closing = []) {
  const [first, items, rest] = partsOf(same, closing);
  const list = items.length ? box("ul", "", ...items.map((text) => dated("li", text))) : null;
  return box("div", "", dated("p", first), list, dated("p", rest));
}

export function sameWords(same) {
  const [first, items, rest] = partsOf(same, []);
  return [first, items.length && `${items.join("; ")}.`, rest].filter(Boolean).join(" ");
}

// The words of the disks of takedowns that were just put. (What is done stays done where this fails.)
export const sameNow = (commands, tools) => journalTo(null, tools)
  .then((journal) => sameBytes(commands.map(({ scope }) => scope), journal, tools).then(sameWords))
  .catch(() => "The page could not find out which other disks have the same bytes.");
