// Who put what stands, when and why, as the journal says; and what it says of a day that is over.
import { Refused, counted, meaning } from "./shared.js";
import { UNKNOWN, bodyOf, changeWords, isUnknown, ruleOfBody, tried } from "./staff.changes.js";
import { held, readRules } from "./staff.desk.js";
import { isFor } from "./staff.forecast.js";
import { readBack } from "./staff.lines.js";
import { COLUMNS, EFFECT_AT, effectOf, fileOf, given } from "./staff.verdicts.js";
import { RULES, dayAfter, inUtc, listed, quoted, ruleWords } from "./staff.words.js";
import { keeper } from "./stream.js";

// What stands: a word for it, the place of the changes that put it, and whether the body of one says what stands.
const thing = (word, place, isSaid) => ({ word, place, isSaid });
export const standingRule = (path, rule) => thing("rule", path, (body) => isSame(ruleOfBody(body), rule));
export const standingKey = (key) => thing("key", `/badges/${key.digest}`, ({ audience }) => audience === key.audience);
export const standingDisk = ({ accession, kind, deed }) =>
  thing("disk", `/accessions/${accession}/${kind}/${deed}`, () => true);

// Whether a change says what stands: the desk takes no body that is not of its form.
const isOf = ({ isSaid }, change) => change.method === "PUT" && tried(() => isSaid(bodyOf(change)), false);

// Changes by what they are of, from the newest on; whether they go back to a day; and whether one may have been done.
const byPlaces = (changes) => Map.groupBy(changes, ({ place }) => place);
const goBackTo = (day, changes) => changes.at(-1)?.moment.slice(0, 10) <= day;
const counts = (change) => change.status === "200" || isUnknown(change);

// The first and the last change that put what stands, since when nothing else was put there, and what was there before;
// null for none. One of which nobody knows what became counts if it says what stands, and there is no other.
function originOf(one, places) {
  const isDone = (change) => change.status === "200" || (isUnknown(change) && isOf(one, change));
  const found = (places.get(one.place) ?? []).filter(isDone);
  const other = found.findIndex((change) => !isOf(one, change));
  const same = other < 0 ? found : found.slice(0, other);
  const done = same.filter(({ status }) => status === "200");
  return { put: done.at(-1) ?? same[0] ?? null, again: done.length > 1 ? done[0] : null, before: found[other] ?? null };
}

const whoWords = ({ moment, name }) => `${inUtc(moment)} by ${name ? quoted(name) : "nobody who is named"}`;
const byWords = (one) => `${whoWords(one)}: ${one.reason ? quoted(one.reason) : "no reason was given"}`;

function originWords({ word }, { put, again, before }, { reach, isWhole }, names) {
  const far = `in the journal${reach && `, back to ${reach}${isWhole ? ", where it begins" : ""}`}`;
  if (put === null) return `not ${far}`;
  const other = before ? `${changeWords(before, names)}, ${byWords(before)}` : `nothing ${far}`;
  const last = again ? `; last put again, unchanged, ${byWords(again)}` : "";
  return `This ${word} was put ${byWords(put)}${last}; in its place before: ${other}`;
}

// The journal as far as it is enough, or else all of it; where it cannot be read, why.
export async function journalTo(isEnough, tools) {
  const failed = (came) => ({ changes: [], reach: "", fault: came });
  const { fault, ...journal } = await readBack(isEnough, tools).catch(failed);
  if (fault && (tools.signal?.aborted || !(fault instanceof Refused))) throw fault;
  const none = fault?.status === 404 ? "there is no journal" : "the journal cannot be read";
  return { ...journal, places: byPlaces(journal.changes), none: fault ? none : "" };
}

// For each of some things that stand, words for who put it, when and why, and the change; and the journal, as read.
export async function originsOf(things, tools, isWhole = false, names) {
  const isEnough = (changes, places = byPlaces(changes)) => things.every((one) => originOf(one, places).put);
  const journal = await journalTo(isWhole ? null : isEnough, tools);
  const toldOf = (one, found) => ({ origin: journal.none || originWords(one, found, journal, names), put: found.put });
  return { told: things.map((one) => toldOf(one, originOf(one, journal.places))), journal };
}

export const SINCE = `In the journal since: so far back it has nothing by which these readers could do anything else \
with the file, as the page reckons from the changes that it read and the days of the rules. Where no line says what \
stood in the place of a rule before, nothing did if the first line on its disk or deed puts that, else anything may.`;

// The order in which the desk tries rules, by their places, takedowns first; and words for a place.
const partsOf = (place) => [place.startsWith("/deeds/"), ...place.match(/[0-9]+/g).map(Number)];
const orderOf = (place, [isOfDeed, , rank] = partsOf(place)) => rank + (isOfDeed ? 10000 : 0);
const placeWords = (place, [isOfDeed, ...of] = partsOf(place)) => RULES[isOfDeed ? "rules" : "takedowns"].words(...of);

// The rule that a body puts: null for none, undefined where nobody knows. What may have stood at the place of a change
// before it (nothing where all lines of its disk or its deed are read), and after it.
const ruleFrom = (body) => body && tried(() => [ruleOfBody(bodyOf({ body }))].find((one) => ruleWords(one)), undefined);
const isSame = (one, other) => (one && other ? ruleWords(one) === ruleWords(other) : one === other);
const isFirst = ({ place, method }, isNew) => method === "PUT" && (isNew || !place.startsWith("/deeds/"));
const before = (change, isNew) => change.stood.map((body) => ruleFrom(body ?? (isFirst(change, isNew) ? null : body)));
const after = (change, isNew) =>
  [ruleFrom(change.method === "PUT" ? change.body : null), ...(isUnknown(change) ? before(change, isNew) : [])];

// What decides on a file on a day, by what may have stood at the places of rules, in their order: each rule that may.
function decidersOf(stood, file, day) {
  const found = [];
  for (const [place, rules] of stood) {
    const hits = rules.filter((rule) => rule === undefined || (rule && isFor(rule, file, file.audience, day)));
    found.push(...hits.map((rule) => ({ place, rule })));
    if (hits.length === rules.length) return found;
  }
  return [...found, { place: "", rule: null }];
}

// What decided on a file, back from a day to when its disk came: at first then, and before each day on which a rule
// began or ended, and each change of its takedowns and of the rules of its deed, which is new where its first line puts
// it. Where the desk has not what the latest change says, either may have stood since.
function* stepsBack([disk, ...rules], file, changes, today) {
  const [, , accession, , deed] = disk.place.split("/");
  const its = new RegExp(`^/(images/${accession}|deeds/${deed})/rules/[0-9]+$`);
  const ofDeed = new RegExp(`^/deeds/${deed}(/|$)`);
  const since = changes.filter((one) => one.at > disk.put.at && counts(one) && its.test(one.place));
  const isNew = changes.findLast((one) => counts(one) && ofDeed.test(one.place))?.place === `/deeds/${deed}`;
  const now = new Map([...since.map(({ place }) => [place, null]), ...rules.map(({ place, rule }) => [place, rule])]);
  const inOrder = [...now].sort(([one], [other]) => orderOf(one) - orderOf(other));
  const stood = new Map(inOrder.map(([place, rule]) => [place, [rule]]));
  let last = today;
  yield { found: decidersOf(stood, file, last) };
  for (const change of [...since, disk.put]) {
    const from = change.moment.slice(0, 10);
    const all = new Set([...stood.values()].flat().flatMap((rule) => [rule?.from, rule?.until]));
    const days = [...all].filter((day) => day > from && day <= last).sort().reverse();
    for (const day of days) yield { day, found: decidersOf(stood, file, dayAfter(day, -1)) };
    if (change === disk.put) return;
    if (from < last) last = from;
    const [rule, then] = [now.get(change.place), after(change, isNew)];
    now.delete(change.place);
    if (rule !== undefined && !then.some((one) => isSame(one, rule))) stood.get(change.place).push(...then);
    yield { change, found: decidersOf(stood, file, last) };
    stood.set(change.place, before(change, isNew));
    yield { change, found: decidersOf(stood, file, last) };
  }
}

// The latest change or day before which a file may have been otherwise to an audience, with what may have decided then;
// what decides since, and now. No `now` where what stands has changed meanwhile.
function turnOf(things, [record, audience], changes, day) {
  const file = { ...fileOf(record), audience };
  const isNow = ({ rule }) =>
    rule !== undefined && given(rule?.effect ?? "deny", file.isServed) === effectOf(record, audience);
  let [now, since] = [];
  for (const { found, ...turn } of stepsBack(things, file, changes, day)) {
    if (!found.every(isNow)) return { ...turn, found, since, now };
    [now, since] = [now ?? found[0], found];
  }
  return { change: things[0].put, since, now };
}

// When and by whom something was done, and what, in short.
const doneWords = (change, what = changeWords({ ...change, body: "", stood: [] })) =>
  `${whoWords(change)}: ${what}${isUnknown(change) ? ` (${UNKNOWN})` : ""}`;

// Since when a file is to an audience as it is now, as far as the changes of its disk and its deed say.
export function sinceWords(things, record, audience, { changes, isWhole, asked }) {
  const [[disk, ...rules], label] = [things, record[EFFECT_AT[audience] + 1]];
  const [own, far] = [rules.find((one) => one.label === label), isWhole ? "" : ", as far as it was read"];
  if (!disk.put || !(own ? own.put : label === "D0")) return `since when: not in the journal${far}`;
  const { change, day, found, since, now } = turnOf(things, [record, audience], changes, asked.day);
  if (!now) return "since when: not known, for what stands has changed meanwhile";
  if (change === disk.put) return `in the journal since ${doneWords(change, "taken in")}`;
  const isLater = since.some(({ place, rule }) => place !== now.place || !isSame(rule, now.rule));
  const turned = (some, key, did) =>
    some.filter(({ rule }) => rule?.[key] === day).map(({ place }) => `${placeWords(place)} ${did}`);
  const words = day && `${day} (${listed([...turned(found, "until", "ended"), ...turned(since, "from", "began")])})`;
  const later = isLater ? "; what has come since is the same for them" : "";
  return `in the journal since ${words ?? doneWords(change)}${later}`;
}

// What is not known to have been so on a day that is over: words for a disk or a rule that stands; "" where it was so.
function pastWords(name, { put, before }, { day, reach, isFar }) {
  const [since, isDisk, back] = [inUtc(put?.moment), name === "", reach ? `back to ${reach}` : "which is empty"];
  if (put ? put.moment.slice(0, 10) <= day : isFar) return "";
  const only = `${isDisk ? "not yet here on that day:" : name} put only on ${since}`;
  if (put && before) return only;
  if (put && isFar) return `${only}, not before in the journal, ${back}`;
  const what = isDisk ? "the disk was here" : `${name} stood`;
  return `whether ${what} then the journal, ${back}, does not say${put ? `; put on ${since}` : ""}`;
}

// What the journal says of a day that is over: `others` gives, of a file and the rule that decides, what was other or
// is not known; `words` says how much has changed since. (A promise takes what has a `then` for another promise.)
export async function pastOf(day, tools) {
  const rules = await readRules(tools.signal);
  const { changes, places, reach, none } = await journalTo((some) => goBackTo(day, some), tools);
  const known = { day, reach, isFar: goBackTo(day, changes) };
  const things = new Map(rules.map(({ label, path, rule }) => [label, standingRule(path, rule)]));
  const signed = new Map(held.deeds.map((one) => [String(one.deed), one.signed]));
  const told = (name, one) => (one ? pastWords(name, originOf(one, places), known) : "");
  const diskTold = keeper((place) => told("", { ...standingDisk({}), place }));
  const ruleTold = keeper((label) => told(meaning(label), things.get(label)));
  const others = (record, label) => {
    const [accession, deed, kind] = record.slice(COLUMNS.accession, COLUMNS.slot);
    const unsigned = signed.get(deed) > day && `deed ${deed} was signed later, on ${signed.get(deed)}`;
    if (none) return [unsigned, `what stood then is not known: ${none}`];
    return [unsigned, diskTold(standingDisk({ accession, deed, kind }).place), ruleTold(label)];
  };
  const words = none ? `What has changed since then is not known: ${none}.` : changedWords(changes, known);
  return { others, words, then: none ? `what stood then is not known: ${none}.` : thenWords(changes, day) };
}

// How many changes since a day are named; and the places of changes, by words for them.
const MOST_NAMED = 10;
const SORTS = { disks: "/accessions/", takedowns: "/images/.*rules", rules: "/deeds/.*rules", deeds: "/deeds/[0-9]+$" };
const isSort = (sort) => ({ place }) => new RegExp(`^${sort}`).test(place);
const isSince = (day) => ({ moment, status }) => moment.slice(0, 10) > day && status === "200";

// How much has changed since a day.
function changedWords(changes, { day, reach, isFar }) {
  const since = changes.filter(isSince(day));
  const words = listed(Object.entries(SORTS).map(([word, sort]) => `${since.filter(isSort(sort)).length} of ${word}`));
  const short = isFar ? "" : ` What changed before ${reach || "it began"} the journal does not say.`;
  return `Changes after ${day} of all disks and deeds, as the journal has them: ${words}; what is put and then dropped \
counts twice. What is said of ${day} is as if all of them had been made before.${short}`;
}

// The latest changes since a day, the newest first.
function thenWords(changes, day) {
  const since = changes.filter(isSince(day)).filter((one) => Object.values(SORTS).some((sort) => isSort(sort)(one)));
  const texts = since.slice(0, MOST_NAMED).map((one) => `${changeWords(one)}, ${byWords(one)}`);
  if (since.length > MOST_NAMED) texts.push(`and ${counted(since.length - MOST_NAMED, "change")} before these`);
  return `what stood then, the journal says${texts.length ? `. Since then it has: ${texts.join("; ")}` : ""}.`;
}
