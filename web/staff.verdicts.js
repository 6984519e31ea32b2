// What every caller gets of every file on a day, as the desk says; and how that is said and saved.
import { shownName } from "./names.js";
import { Refused, counted, element, explained, grouped, meaning } from "./shared.js";
import { rulesOf } from "./staff.desk.js";
import { AUDIENCES, EFFECTS, inUtc, momentNow, today, whenWords } from "./staff.words.js";
import { readTable } from "./stream.js";
import { titleOf } from "./titles.js";

// The columns of the table of verdicts, by their places. After them come, for each audience, the effect and the rule.
export const COLUMNS = { accession: 0, deed: 1, kind: 2, slot: 3, user: 4, name: 5, type: 6, size: 7, faults: 8 };
export const EFFECT_AT = { public: 9, room: 11, staff: 13 };

// Reads the verdicts of a day, and hands each record on.
export const readVerdicts = (day, take, { progress, signal }) =>
  readTable(`/staff/verdicts/${day}`, { take, signal, progress: (count) => progress(`Reading ${day}`, count) });

export async function verdictsOf({ accession, files }, day, { signal }) {
  const found = [];
  await readTable(`/staff/verdicts/${day}/${accession}`, { take: (record) => found.push(record), signal });
  if (files !== undefined && found.length !== files) throw new Refused(0, {});
  return found;
}

// What the desk says of a disk on the later days on which its rules, as read last, begin or end: if so many, of all.
const MOST_LATER = 20;
export async function laterOf(disk, now, tools) {
  const rules = [...rulesOf("takedowns", disk.accession), ...rulesOf("rules", disk.deed)];
  const days = [...new Set(rules.flatMap(({ from, until }) => [from, until]).filter((day) => day > now))].sort();
  const later = Object.assign([], { isAll: days.length <= MOST_LATER });
  for (const day of days.slice(0, MOST_LATER)) later.push({ day, files: await verdictsOf(disk, day, tools) });
  return later;
}

export const isNoDisk = (fault) => fault.said?.error === "no-accession";

// Hands on the verdicts of some disks on a day, few of which are asked for alone, or of all where none is named.
const MOST_ALONE = 10;
export async function readSome(disks, day, take, tools) {
  if (disks.length === 0 || disks.length > MOST_ALONE) return readVerdicts(day, take, tools);
  const gone = (fault) => isNoDisk(fault) || Promise.reject(fault);
  for (const accession of disks) {
    await verdictsOf({ accession }, day, tools).then((all) => all.forEach(take), gone);
  }
}

// The names of some files of a disk as they were shown, by their slots.
export const nameOf = (record) => shownName(record[COLUMNS.kind], record[COLUMNS.name]);
export const namesOf = (files) => new Map(files.map((record) => [Number(record[COLUMNS.slot]), nameOf(record)]));
export const readNames = async (disk) => namesOf(await verdictsOf(disk, momentNow().slice(0, 10), {}));

// A file as rules select it.
export function fileOf(record) {
  const [slot, user, name, type, size] = record.slice(COLUMNS.slot, COLUMNS.faults);
  return { slot: Number(slot), user: user === "" ? null : Number(user), name, type, isServed: size !== "" };
}

// The desk gives out a file only where it has a size: without one, `read` is no more than `list`.
export const given = (effect, isServed) => (effect === "read" && !isServed ? "list" : effect);
export const effectOf = (record, audience) => given(record[EFFECT_AT[audience]], record[COLUMNS.size] !== "");
const MAY = {
  read: "read it", list: "see its name, not read it", deny: "see only that a closed file is there, not its name",
};

// Why a file is only listed that a rule lets them read; of a day that is over, by which rules, and what was other then.
function because(record, audience, { rules, others }) {
  const faults = record[COLUMNS.faults].split(" ").map(explained).join("; ");
  const why = faults ? `damaged: ${faults}` : `the desk gives out no file of type ${record[COLUMNS.type]}`;
  const past = others ? [rules, ...others(record, record[EFFECT_AT[audience] + 1])] : [];
  return [effectOf(record, audience) !== record[EFFECT_AT[audience]] && why, ...past].filter(Boolean).join("; ");
}

export const mayWords = (record, audience, asked, why = because(record, audience, asked)) =>
  `${MAY[effectOf(record, audience)]}${why && ` (${why})`}`;

// How many files of some an audience may read, see listed and not see, in a sentence; and the same of each audience.
export function countWords(audience, countOf, of = "the museum's disks") {
  const counts = Object.keys(EFFECTS).map(countOf);
  const [all, [read, list, deny]] = [counted(counts.reduce((sum, one) => sum + one), "file"), counts.map(grouped)];
  return `Of all ${all} of ${of}, ${AUDIENCES[audience]}: ${read} to read, ${list} only in the list, ${deny} closed.`;
}

export const audienceCounts = (countOf, of) =>
  Object.keys(AUDIENCES).map((audience) => countWords(audience, (effect) => countOf(audience, effect), of));

export const ruleMeaning = (label) => (label === "D0" ? "no rule matches" : meaning(label));

export const ruleShown = (record, audience) =>
  element("span", ruleMeaning(record[EFFECT_AT[audience] + 1]), { className: "title" });

// By which rules the verdicts of a day are.
export function byWhichRules(day) {
  const rules = "by the rules that stood when the desk was asked";
  if (day === today()) return rules;
  return day < today() ? `${rules}, not by those that stood then` : `${rules}, which may change until then`;
}

export const onDay = (day) => `on ${day}${day === today() ? "" : `, ${byWhichRules(day)}`}`;

export const askedWords = ({ moment }) => `The desk was asked ${whenWords(moment)}.`;
export const UNSAID = "It does not say who has read or copied a file, nor what stands on other days.";
export const SAVED_HEADS = [
  ...["day", "by which rules", "asked at", "audience", "they may", "because", "rule", "rule in words"],
  ...["disk", "title", "deed", "kind", "slot", "user", "name", "name as shown", "type", "size", "faults"],
];

// A verdict as a record of a table that says by itself what it is; `said` has what its rule says, by the label.
export function savedVerdict(record, audience, asked) {
  const { day, rules, moment, said } = asked;
  const [label, accession] = [record[EFFECT_AT[audience] + 1], record[COLUMNS.accession]];
  const rule = [ruleMeaning(label), said.get(label)].filter(Boolean).join(": ");
  const words = [MAY[effectOf(record, audience)], because(record, audience, asked), label, rule];
  return [
    ...[day, rules, inUtc(moment), AUDIENCES[audience], ...words, accession, titleOf(Number(accession))],
    ...[...record.slice(COLUMNS.deed, COLUMNS.type), nameOf(record), ...record.slice(COLUMNS.type, COLUMNS.faults + 1)],
  ];
}
