// What a change of rules would open and what it would close, for whom and on which days, before it is made.
import { shownName } from "./names.js";
import { box, button, counted, element, loaded, part } from "./shared.js";
import { dated, refusedWork, sure } from "./staff.desk.js";
import { isFor } from "./staff.forecast.js";
import { saveSaid, saver } from "./staff.saved.js";
import { COLUMNS, EFFECT_AT, askedWords, effectOf, fileOf, given, isNoDisk } from "./staff.verdicts.js";
import { nameOf, readSome, ruleMeaning, verdictsOf } from "./staff.verdicts.js";
import { AUDIENCES, EFFECTS, SHORT, audienceWords, dayAfter, isOnNoDay } from "./staff.words.js";
import { listed, momentNow, today } from "./staff.words.js";
import { readTable } from "./stream.js";

export { sameNow } from "./staff.same.js";

const [ORDER, MOST_NAMED] = [["deny", "list", "read"], 10];
const WITHOUT = { first: "On that day, without this change,", other: "with it they" };
const DAY_WORDS = { from: "its first day", last: "its last day", until: "the first day without it" };

// The days of a rule on which something begins or ends.
const turningDays = ({ from, until }) =>
  isOnNoDay({ from, until }) ? {} : { from, last: until && dayAfter(until, -1), until };

// On which days a change is rehearsed: today, and those on which the rule or one that it replaces begins or ends later.
export function rehearsalDays(rule, replaced = []) {
  const now = today();
  const days = new Map(replaced.flatMap((one) => Object.values(turningDays(one))).map((day) => [day, ""]));
  for (const [word, day] of Object.entries(turningDays(rule))) days.set(day, `, ${DAY_WORDS[word]}`);
  const later = [...days].filter(([day]) => day && day > now).sort(([one], [other]) => (one < other ? -1 : 1));
  return [{ day: now, words: `Today, ${now}` }, ...later.map(([day, more]) => ({ day, words: `On ${day}${more}` }))];
}

// How many files change on a day, by effects and audiences, and the first of them. The lines of one file come together.
export class Changes {
  groups = new Map();
  file = null;

  take([accession, slot, kind, name, audience, now, then]) {
    if (this.file?.accession !== accession || this.file.slot !== slot) {
      this.close();
      this.file = { accession, slot, kind, name, turns: new Map() };
    }
    const turn = `${now} ${then}`;
    this.file.turns.set(turn, [...(this.file.turns.get(turn) ?? []), audience]);
  }

  // Counts the last file.
  close() {
    for (const [turn, audiences] of this.file?.turns ?? []) {
      const key = `${turn} ${audiences.join(" ")}`;
      const [now, then] = turn.split(" ");
      const opens = ORDER.indexOf(then) > ORDER.indexOf(now);
      const group = this.groups.get(key) ?? { now, then, audiences, opens, count: 0, first: [] };
      group.count += 1;
      if (group.first.length < MOST_NAMED) group.first.push(this.file);
      this.groups.set(key, group);
    }
    this.file = null;
  }

  all() {
    return [...this.groups.values()].sort((one, other) => other.opens - one.opens || other.count - one.count);
  }
}

// What no rehearsal says: the kind of each disk, which files the desk gives out, and the names on a disk that is alone.
async function readServed(commands, tools) {
  const disks = new Set(commands.filter(({ path }) => path.startsWith("/images/")).map(({ scope }) => scope));
  const known = { kinds: new Map(), served: new Set(), names: disks.size === 1 ? new Map() : undefined };
  const take = (record) => {
    known.kinds.set(record[COLUMNS.accession], record[COLUMNS.kind]);
    known.names?.set(Number(record[COLUMNS.slot]), nameOf(record));
    if (record[COLUMNS.size] !== "") known.served.add(`${record[COLUMNS.accession]}/${record[COLUMNS.slot]}`);
  };
  await readSome([...disks], today(), take, tools);
  return known;
}

// Rehearses commands on days: what changes on each, and the commands that the desk refuses since they name no disk.
export async function rehearse(commands, days, tools) {
  const [known, missing, found] = [await readServed(commands, tools), new Set(), []];
  const all = days.length * commands.length;
  for (const [at, { day, words }] of days.entries()) {
    const changes = new Changes();
    for (const [place, command] of commands.entries()) {
      if (all > 1) tools.progress("Rehearsing", at * commands.length + place, all);
      await rehearseOne(command, day, { changes, known, signal: tools.signal }).catch((fault) => {
        if (commands.length === 1 || !isNoDisk(fault)) throw fault;
        missing.add(command);
      });
    }
    found.push({ words, groups: changes.all(), ...(at > 0 ? WITHOUT : {}) });
  }
  return { found, missing, names: known.names };
}

// A file that the desk gives out to nobody opens and closes for nobody.
async function rehearseOne({ method, path, body }, day, { changes, known, signal }) {
  const take = ([accession, slot, name, audience, effect, , thenEffect]) => {
    const isServed = known.served.has(`${accession}/${slot}`);
    const [now, then] = [given(effect, isServed), given(thenEffect, isServed)];
    if (now !== then) changes.take([accession, slot, known.kinds.get(accession), name, audience, now, then]);
  };
  await readTable(`/staff/rehearsals/${day}${path}`, { method, body, take, signal });
  changes.close();
}

// Of a day that is over nothing opens or closes: `past` says which day, and by which rules.
function groupWords({ opens, count, audiences, now, then }, past, first = "Now", other = "then they") {
  const turns = past ? ["More open", "More closed"] : ["Opens", "Closes"];
  const turn = then === "list" ? "Only in the list" : turns[opens ? 0 : 1];
  const sentence = `${turn} for ${audienceWords(audiences)}: ${counted(count, "file")}.`;
  return `${sentence} ${first} they may ${EFFECTS[now]}; ${past || other} may ${EFFECTS[then]}.`;
}

function groupParts(group, past, first, other) {
  const [words, className] = [groupWords(group, past, first, other), group.opens ? "opens" : "closes"];
  const items = group.first.map(({ accession, slot, kind, name }) =>
    dated("li", `${shownName(kind, name)} (disk ${accession}, slot ${slot})`));
  const rest = group.count - group.first.length;
  if (rest > 0) items.push(element("li", `and ${counted(rest, "more file")}`));
  return [dated("p", words, { className }), box("ul", "", ...items)];
}

// What a day changes, under a heading; a day that changes the same as the one before says so.
export function dayParts({ words, groups, past, none, first, other }, before) {
  const heading = element("h3", words);
  if (groups.length === 0) return [heading, dated("p", none || "Nothing opens, and nothing closes.")];
  const isSame = before && JSON.stringify(groups) === JSON.stringify(before.groups);
  if (isSame) return [heading, element("p", "The same as on the day above.")];
  return [heading, ...groups.flatMap((group) => groupParts(group, past, first, other))];
}

// What the desk's verdicts of a day say of the files of takedowns of a disk that were put, and which others decide.
export function decidedWords(files, commands, asked, { day } = asked) {
  const found = commands.flatMap(({ scope, rank, rule }) => files.map((record) => {
    const wordsOf = (audience, label = record[EFFECT_AT[audience] + 1]) => {
      const before = label.startsWith("T") && Number(label.split(".")[1]) < rank ? ", which comes before it" : "";
      const by = label === `T${scope}.${rank}` ? "" : ` (${ruleMeaning(label)}${before})`;
      return `${SHORT[effectOf(record, audience)]} ${AUDIENCES[audience]}${by}`;
    };
    const isOf = (audience) => isFor({ ...rule, from: null, until: null }, fileOf(record), audience, day);
    return listed(rule.audiences.filter(isOf).map((audience) => wordsOf(audience)));
  })).filter(Boolean);
  const counts = [...Map.groupBy(found, (words) => words)];
  const words = listed(counts.map(([text, { length }]) => `${counted(length, "file")} ${text}`)) || "there is none";
  return `What the desk's verdicts on ${day} say of the files that are meant: ${words}. ${askedWords(asked)}`;
}

// The same, once the desk is asked; and on which other disks the bytes of the disks of commands are.
export const decidedNow = (commands, tools, moment = momentNow()) => Promise.resolve()
  .then(() => verdictsOf({ accession: commands[0].scope }, today(), tools))
  .then((files) => decidedWords(files, commands, { day: today(), moment }))
  .catch(() => "The page could not ask the desk what readers get of it now.");

// A button that saves who gets what of a disk, as the desk says now, before a question is answered, and what says so:
// afterwards nobody can have it. While it saves, the answer cannot be yes; where the question is left, it stops.
export function saveFirst(accession, question) {
  const [said, go] = [element("div", "", { role: "status" }), part("sure").querySelector("[value=go]")];
  const words = ` It is what stood before an answer to: \u201c${question}\u201d`;
  const press = async () => {
    if (go.disabled) return;
    const stop = new AbortController();
    part("sure").addEventListener("close", () => stop.abort(), { once: true });
    [go.disabled, said.textContent] = [true, "Asking the desk."];
    const how = { signal: stop.signal, progress: () => {} };
    const saved = loaded(import("./staff.disk.js")).then(({ saveNow }) => saveNow(accession, words, how));
    said.replaceChildren(await saved.then((name) => `Saved: ${name}`).catch(refusedWork));
    if (!stop.signal.aborted) go.disabled = false;
  };
  return [box("div", "choices", button("Save what stands now, first", press), said)];
}

// Saves what a rehearsal shows: once its question is answered nobody can have it.
function saveRehearsal(question, moment) {
  const about = `What the page said before an answer to: \u201c${question}\u201d ${askedWords({ moment })} Of other \
disks with the same bytes it has no more than these lines, which say when the desk was asked of those. \
${part("sure-who").textContent}. It does not say what was answered, nor what was done.`;
  return saveSaid("rehearsal-asked", moment, about, part("sure-more"));
}

// Shows what commands would change, and asks whether to send them. Gives those to send, none where the answer is no.
export async function rehearsed({ words, notes, first = [], commands, days, isTakedown, go }, tools) {
  const [moment, { found, missing, names }] = [momentNow(), await rehearse(commands, days, tools)];
  const left = commands.filter((command) => !missing.has(command));
  const [said, none] = [notes(names), [...missing].map((command) => String(command.scope))];
  if (none.length) said.push(`There is no disk ${listed(none)}: left out.`);
  const closes = found.some(({ groups }) => groups.some((group) => !group.opens));
  if (isTakedown && !closes) said.push("Mind: it closes nothing on any of these days.");
  if (left.length === 0) return [];
  const [texts, turns] = [said.map((one) => dated("p", one)), found.flatMap((day, at) => dayParts(day, found[at - 1]))];
  const save = saver(button("Save this rehearsal as CSV"), () => saveRehearsal(words, moment));
  const more = [...texts, ...first, ...turns, box("div", "choices", ...save)];
  return (await sure({ words, more, go, keep: "Leave it as it is" })) ? left : [];
}
