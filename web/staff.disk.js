// One disk on one page: what it is, who gets what of it by which rules, its journal, and takedowns of ticked files.
import { nameCell } from "./lists.js";
import { askObject, box, button, cell, counted, element, grouped, part, row, table } from "./shared.js";
import { checkWords, checked, surveyed } from "./staff.checks.js";
import { ANY_NAME, change, dated, formOf, readHeld, rulesOf, showsAnew, standing } from "./staff.desk.js";
import { COLUMNS as CHANGES, changeRow } from "./staff.journal.js";
import { SINCE, originsOf, sinceWords, standingDisk, standingRule } from "./staff.origins.js";
import { placeOf } from "./staff.ranks.js";
import { decidedWords, rehearsalDays, rehearsed, saveFirst } from "./staff.rehearsal.js";
import { makeRuleForm, ruleIn } from "./staff.ruleform.js";
import { putMany } from "./staff.rules.js";
import { sameBox, sameBytes, sameWords } from "./staff.same.js";
import { forgetSaved, saveTable, saver } from "./staff.saved.js";
import { COLUMNS, EFFECT_AT, SAVED_HEADS, askedWords, audienceCounts, byWhichRules } from "./staff.verdicts.js";
import { effectOf, laterOf, mayWords, nameOf, namesOf, ruleShown, savedVerdict, verdictsOf } from "./staff.verdicts.js";
import { AUDIENCES, PUT, RULES, UNREAD, askToday, clockWords, listed, momentNow } from "./staff.words.js";
import { ruleTexts, ruleWords, signedWords, today } from "./staff.words.js";
import { noteOf, titleOf } from "./titles.js";

// How many changes of the journal are shown at most; what is said of the days of rules, and of names.
const [MOST_CHANGES, HOLDS] = [20, "A rule holds only on its days, if it has any, and never before it was put."];
const NAMES = "A name behind a slot is that of the disk as it was when the desk was asked.";
const daysSaid = () => `A day of a rule begins at midnight ${clockWords()}. ${HOLDS} ${NAMES}`;

// The disk that is shown: its survey, who put it and its rules, its files with their verdicts, and their names; where.
let shown = null;
const frames = { about: box("div", ""), files: box("div", ""), same: box("div", ""), rules: box("div", "") };

// Reads a disk anew, and shows it: what is known of it at once, then who gets what of it, and what the journal says.
async function readDisk(accession, tools, show = showDisk) {
  const survey = await askObject(`/images/${accession}/survey`, { signal: tools.signal });
  for (const what of ["deeds", "takedowns", "checks"]) await readHeld(what, tools.signal);
  const asked = { day: today(), rules: byWhichRules(today()), moment: momentNow() };
  const things = [{ ...standingDisk(survey), origin: UNREAD }, ...decidingRules(survey)];
  const disk = { survey, things, files: [], asked };
  show(disk);
  disk.files = await verdictsOf(survey, asked.day, tools);
  disk.names = namesOf(disk.files);
  disk.later = await laterOf(survey, asked.day, tools);
  show(disk);
  const { told, journal: { changes, ...journal } } = await originsOf(things, tools, true, disk.names);
  things.forEach((thing, at) => Object.assign(thing, told[at]));
  const [own, deed] = [survey.accession, survey.deed].map(String);
  const isOwn = (one) => (one.accession ? one.accession === own : one.deed === deed);
  const same = await sameBytes([survey.accession], { ...journal, changes }, tools);
  show(Object.assign(disk, { ...journal, same, changes: changes.filter(isOwn) }));
  return disk;
}

// What is ticked stays where only the journal comes.
function showDisk(disk) {
  shown = disk;
  draw();
  forgetSaved("disk");
  if (!disk.changes) drawFiles();
  const spans = frames.files.querySelectorAll(".since");
  const timesOf = (...one) => [sinceOf(...one), untilOf(...one)].filter((text) => text !== ALWAYS).join("; ");
  everyVerdict(disk).forEach((one, at) => (spans[at].textContent = ` ${timesOf(disk, ...one)}`));
}

// All rules that decide on a disk, in the order in which the desk tries them.
const decidingRules = ({ accession, deed }) => [...standing("takedowns", accession), ...standing("rules", deed)]
  .map((one) => ({ ...standingRule(one.path, one.rule), ...one, origin: UNREAD }));

// Until when a file, by its place among them, is to an audience as it is, by the rules of today; and what comes then.
const ALWAYS = "until further notice";
function untilOf({ later }, record, audience, at) {
  const turn = later.find(({ files: then }) => effectOf(then[at], audience) !== effectOf(record, audience));
  if (turn) return `until ${turn.day}, then they may ${mayWords(turn.files[at], audience, {})}`;
  return later.isAll ? ALWAYS : `at least until ${later.at(-1).day}`;
}

// Each file with each audience, and its place, in the order in which they are shown.
const everyVerdict = ({ files }) =>
  files.flatMap((record, at) => Object.keys(AUDIENCES).map((audience) => [record, audience, at]));

// Since when a file is to an audience as it is now.
function sinceOf(disk, record, audience) {
  if (disk.none) return `since when: ${disk.none}`;
  return disk.changes ? sinceWords(disk.things, record, audience, disk) : UNREAD;
}

function fileRow(record) {
  const [slot, size] = [record[COLUMNS.slot], record[COLUMNS.size]];
  const ariaLabel = `Take down ${nameOf(record)}, slot ${slot}`;
  const tick = element("input", null, { type: "checkbox", name: "slots", value: slot, ariaLabel });
  const name = nameCell(record[COLUMNS.kind], record[COLUMNS.name]);
  const cells = [cell("Take down", tick), cell("Slot", slot, "number"), name, cell("Type", record[COLUMNS.type])];
  const verdicts = Object.entries(AUDIENCES).map(([audience, words]) => {
    const [may, since] = [mayWords(record, audience, shown.asked), element("span", "", { className: "title since" })];
    return cell(words, box("span", "", `${may} `, ruleShown(record, audience), since));
  });
  return row([...cells, cell("Bytes", grouped(size), "number"), ...verdicts]);
}

function rulesTable(rules) {
  const columns = ["Rule", "For whom", "Which files", "They may", "Days", PUT];
  const rowOf = ({ rule, label, name, scope, origin }) => {
    const texts = { ...ruleTexts(rule, shown.names), [PUT]: origin };
    const cells = columns.slice(1).map((column) => cell(column, dated("span", texts[column])));
    const words = `${RULES[name].words(scope, rule.rank)} (${label})`;
    return row([cell("Rule", element("a", words, { href: `#/${name}/${scope}` })), ...cells]);
  };
  if (rules.length === 0) return element("p", "No rule: all of it is closed to everybody.");
  return table("rules that decide", columns, rules.map(rowOf));
}

// The latest changes of the disk and its deed, as far as the journal was read.
function journalParts({ accession, deed }, changes) {
  const link = element("a", `Changes of disk ${accession} and its deed`, { href: `#/journal/${accession}` });
  const of = { deed: String(deed), names: shown.names };
  const rows = changes.slice(0, MOST_CHANGES).map((one) => changeRow(one, of));
  const why = shown.none ?? "the journal is not read yet";
  const none = element("p", why ? `Not shown: ${why}.` : "The journal has none, as far as the page has read it.");
  const made = rows.length ? table("latest changes", CHANGES, rows) : none;
  return [element("h2", "The latest changes of the disk and its deed"), made, box("p", "", link)];
}

// Shows what is known of the disk, and of its changes where they are read.
function draw() {
  const { survey, things, changes, same } = shown;
  const [[disk, ...rules], { accession }] = [things, survey];
  const title = [titleOf(accession), noteOf(accession)].filter(Boolean).join("; ") || "none";
  const about = surveyed(survey, { Title: title, "Taken in": disk.origin });
  const press = () => change("disk", () => checked(accession, "disk"));
  frames.about.replaceChildren(about, checkWords(accession), button("Check it", press, { disabled: !changes }));
  frames.same.replaceChildren(element("h2", "Other disks with the same bytes"), sameBox(same));
  const heading = element("h2", "The rules, in their order: the first that matches decides");
  const words = `Each says when it was put itself, not since when files have been open or closed. ${daysSaid()}`;
  frames.rules.replaceChildren(heading, element("p", words), rulesTable(rules), ...journalParts(survey, changes ?? []));
}

function drawFiles() {
  const { files, names, asked } = shown;
  if (!names) return frames.files.replaceChildren(element("p", "Who gets what of it is not read yet."));
  const columns = ["Take down", "Slot", "Name", "Type", "Bytes", ...Object.values(AUDIENCES)];
  const countOf = (who, effect) => files.filter((record) => effectOf(record, who) === effect).length;
  const counts = audienceCounts(countOf, `disk ${shown.survey.accession}`);
  frames.files.replaceChildren(
    dated("h2", `Who gets what on ${asked.day}`),
    box("ul", "", ...counts.map((text) => element("li", text))),
    dated("p", `${askedWords(asked)} Until when is said where the rules that stood then have a day for it. ${SINCE}`),
    files.length ? table("files", columns, files.map(fileRow)) : element("p", "It has no file."),
    box("div", "choices", ...saver(button("Save who gets what as CSV"), () => saveDisk(shown))),
  );
  part("ticked").hidden = files.length === 0;
}

// When a rule was put is another act than that since which a file is as it is: an older rule may have said the same.
const HEADS = [
  ...[...SAVED_HEADS, `when, by whom, and why that rule itself was put (${ANY_NAME})`],
  `since when they may do just this with the file, by whichever rule (not since when that rule stands). ${SINCE}`,
  `until when they may do just this, and what then, by the rules that stood when the desk was asked. ${HOLDS}`,
];

// Saves who gets what of a disk, what the rule says that decides, and who put it; gives the name of the file. What is
// said of the disk is the head of a column without cells.
function saveDisk(disk, more = "") {
  const [{ survey, things, files, names, asked }, { accession, deed }] = [disk, disk.survey];
  const digest = disk.same?.digests.get(String(accession)) ?? "not known";
  const looked = disk.isWhole ? ` The page looked for lines of the journal in each month back to ${disk.last}.` : "";
  const came = `Disk ${accession}, taken in: ${things[0].origin}; its SHA-256, as the journal has it: ${digest}.`;
  const whole = `${came}${looked} ${sameWords(disk.same)} ${NAMES}`;
  const said = new Map(things.map(({ label, rule }) => [label, rule && ruleWords(rule, names)]));
  const rowOf = ([file, who, at]) => {
    const { origin } = things.find(({ label }) => label === file[EFFECT_AT[who] + 1]) ?? {};
    const times = [sinceOf(disk, file, who), untilOf(disk, file, who, at)];
    return [...savedVerdict(file, who, { ...asked, said }), origin, ...times, ""];
  };
  const about = `Who gets what of disk ${accession}, under deed ${deed} of ${signedWords(survey)}. This table has all \
files of the disk: ${files.length}. ${askedWords(asked)}${more} It does not say who has read or copied a file.`;
  const name = `disk-${accession}${more && "-before-an-answer"}-${asked.day}-asked`;
  return saveTable(name, asked.moment, about, [...HEADS, whole], everyVerdict(disk), rowOf);
}

// Asks the desk for a disk, and saves what it says now, unless that is stopped.
export async function saveNow(accession, more, tools) {
  await askToday(tools.signal);
  return saveDisk(await readDisk(accession, tools, () => tools.signal.throwIfAborted()), more);
}

// Puts a takedown of each file that is ticked, at a free rank, once all are rehearsed and agreed to.
async function takeDown(records, tools) {
  const { accession } = shown.survey;
  await readHeld("takedowns");
  const stand = rulesOf("takedowns", accession);
  const commands = records.map((record) => {
    const slot = Number(record[COLUMNS.slot]);
    const rule = { ...ruleIn(part("ticked")), select: { slot } };
    const { rank } = placeOf("takedowns", accession, "", rule, stand);
    stand.push({ ...rule, rank });
    const sent = { method: "PUT", path: RULES.takedowns.path(accession, rank), body: JSON.stringify(rule) };
    return { scope: accession, rank, slot, rule, name: nameOf(record), ...sent };
  });
  if (commands.some(({ rank }) => rank === null)) return `All ranks of disk ${accession} are in use.`;
  const whom = listed(commands[0].rule.audiences.map((audience) => AUDIENCES[audience]));
  const words = `Take down ${counted(commands.length, "file")} of disk ${accession} for ${whom}?`;
  const beside = (rank) => stand.filter((one) => one.rank !== rank);
  const saysOf = ({ rank, rule }) => placeOf("takedowns", accession, rank, rule, beside(rank)).says;
  const notes = (names) => commands.map((one) => `Takedown ${one.rank}: ${ruleWords(one.rule, names)}. ${saysOf(one)}`);
  const asked = { words, notes, commands, days: rehearsalDays(commands[0].rule), isTakedown: true, go: "Take down" };
  asked.first = [...saveFirst(accession, words), sameBox(shown.same, commands)];
  if ((await rehearsed(asked, tools)).length === 0) return "Nothing is taken down.";
  const stands = ({ rank, slot }) =>
    rulesOf("takedowns", accession).some((one) => one.rank === rank && one.select.slot === slot);
  const some = (isStanding) => commands.filter((one) => stands(one) === isStanding);
  const those = (is) => listed(some(is).map(({ name, rank }) => `${name} (takedown ${rank})`)) || "none";
  const said = () => `These stand: ${those(true)}. These do not: ${those(false)}.`;
  const cells = ({ slot, name, rank }) => [accession, slot, name, rank].map(String);
  const decided = (disk) => `${decidedWords(disk.files, some(true), disk.asked)} ${sameWords(disk.same)}`;
  const more = { after: (how) => readDisk(accession, how).then(decided), more: said, of: `disk-${accession}` };
  return putMany("disk", commands, { ...more, heads: ["Disk", "Slot", "File", "Rank"], cells }, tools);
}

// Without a number the view is that of the disk that was looked at last.
export async function open(accession, tools) {
  if (!accession && shown) return location.replace(`#/disk/${shown.survey.accession}`);
  formOf("disk").elements.accession.value = accession ?? "";
  part("ticked").hidden = true;
  const { about, files, same, rules } = frames;
  [about, files, same, rules].forEach((frame) => frame.replaceChildren());
  part("disk").querySelector(".stands").replaceChildren(about, files, same, part("ticked"), rules);
  if (accession) await readDisk(accession, tools);
  return accession ? [] : "Type the number of a disk.";
}

export function listen() {
  const [which, ticked] = [formOf("disk"), part("ticked")];
  showsAnew("disk", (tools) => readDisk(shown.survey.accession, tools));
  makeRuleForm("takedowns", ticked);
  const { rank, how, effect } = ticked.elements;
  for (const field of [rank, how]) field.closest("label").hidden = true;
  [rank.disabled, how.value, effect.value] = [true, "all", "deny"];
  for (const tick of ticked.querySelectorAll("[name=audiences]")) tick.checked = tick.value !== "staff";
  ticked.dispatchEvent(new Event("change"));
  ticked.querySelector("[type=submit]").textContent = "Take down what is ticked";
  which.addEventListener("submit", () => location.assign(`#/disk/${which.elements.accession.value}`));
  ticked.addEventListener("submit", () => {
    const slots = Array.from(part("disk").querySelectorAll("[name=slots]:checked"), ({ value }) => value);
    const records = shown.files.filter((record) => slots.includes(record[COLUMNS.slot]));
    change("disk", (tools) => (records.length ? takeDown(records, tools) : "Tick the files to take down."));
  });
}
