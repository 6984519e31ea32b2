// The timeline: the days of each rule that begins or ends by itself; a day to drag, and who gets what on it.
import { listTable } from "./lists.js";
import { askObject, box, button, cell, element, listOf, loaded, part, row } from "./shared.js";
import { dated, formOf, paragraph, show, work } from "./staff.desk.js";
import { Changes, dayParts } from "./staff.rehearsal.js";
import { limitFields } from "./staff.ruleform.js";
import { saveSaid, saveTable, saver } from "./staff.saved.js";
import { COLUMNS, askedWords, audienceCounts, byWhichRules, effectOf, onDay, readVerdicts } from "./staff.verdicts.js";
import { AUDIENCES, RULES, dayAfter, inUtc, isDay, isOnNoDay, momentNow, signedWords } from "./staff.words.js";
import { standingWords, today } from "./staff.words.js";
import { keeper } from "./stream.js";

// How many days the bars show before today and after the last change, and how far from today that one may be.
const DAYS = 365;
const [MOST_DAYS, numberOf] = [50 * DAYS, (day) => Date.parse(`${day}T00:00:00Z`) / 86400000];
// The rules that begin or end some day, each with the next of these days; and the first and the last day of the bars.
let [lines, range] = [[], { first: 0, last: 1 }];
// The day on which the desk was asked for them, and the moment.
let asked = { day: "", moment: "" };
const [field, stands] = [() => formOf("timeline").elements.day, () => part("timeline").querySelector(".stands")];
const turnsOf = (rule) => (isOnNoDay(rule) ? [] : [rule.from, rule.until].filter(Boolean));
const allTurns = () => lines.flatMap(({ rule }) => turnsOf(rule)).sort();

// How far a day is along the bars, in percent.
const share = (day, far = (numberOf(day) - range.first) / (range.last - range.first)) =>
  `${100 * Math.min(1, Math.max(0, far))}%`;

// (of the lists this view keeps no more than these rules)
async function readLines() {
  const [now, most, found] = [today(), dayAfter(today(), MOST_DAYS), []];
  asked = { day: now, moment: momentNow() };
  const nextOf = (rule) => turnsOf(rule).find((day) => day > now) ?? "none";
  for (const [name, list, of] of [["rules", "deeds", "deed"], ["takedowns", "takedowns", "accession"]]) {
    for (const { [of]: scope, rules, ...more } of listOf((await askObject(`/staff/${list}`))[list])) {
      const donor = more.donor === undefined ? "" : signedWords(more);
      const turning = rules.filter((rule) => turnsOf(rule).length);
      found.push(...turning.map((rule) => ({ name, scope, rule, donor, next: nextOf(rule) })));
    }
  }
  lines = found.sort((one, other) => (one.next < other.next ? -1 : 1));
  const last = [now, ...allTurns().filter((day) => day > now && day < most)].at(-1);
  range = { first: numberOf(dayAfter(now, -DAYS)), last: numberOf(dayAfter(last, DAYS)) };
}

const HEADS = {
  Rule: ({ name, scope, rule }) => RULES[name].words(scope, rule.rank),
  "What it does": ({ rule }) => standingWords(rule), "Next change": ({ next }) => next, Days: null,
};

function lineRow(line) {
  const { from, until, effect } = line.rule;
  const bar = box("span", `bar ${effect}`);
  Object.assign(bar.style, { left: from ? share(from) : 0, right: until ? `calc(100% - ${share(until)})` : 0 });
  const lane = cell("Days", box("div", "lane", bar));
  return row(Object.entries(HEADS).map(([head, textOf]) => (textOf ? cell(head, dated("span", textOf(line))) : lane)));
}

// The day to drag, the table with a bar for each rule, and a place for what the desk says of a day.
function draw() {
  const slider = element("input", null, { type: "range", min: range.first, max: range.last, ariaLabel: "The day" });
  slider.addEventListener("input", () => {
    field().value = dayAfter("1970-01-01", Number(slider.value));
    mark();
  });
  slider.addEventListener("change", look);
  const made = lines.length ? listTable("rules", HEADS, lines, lineRow) : element("p", "No rule begins or ends.");
  const bar = box("div", "choices", askedWords(asked), ...saver(button("Save these rules as CSV"), saveLines));
  stands().replaceChildren(slider, bar, made, box("div", "day"));
  mark();
}

// Saves the rules that begin or end; gives the name of the file.
function saveLines() {
  const { day, moment } = asked;
  const all = `Rules that begin or end by themselves, as they stood on ${day}: ${lines.length}. ${askedWords(asked)}`;
  const about = `${all} Rules without days are not here, and may decide before these. It does not say since when a \
rule stands, nor who gets what: the views Journal and Who sees what do.`;
  const recordOf = ({ name, scope, rule, donor, next }) => {
    const words = [`${RULES[name].letter}${scope}.${rule.rank}`, RULES[name].words(scope, rule.rank)];
    return [day, inUtc(moment), ...words, standingWords(rule), rule.from, rule.until, next, donor];
  };
  const heads = ["day of asking", "asked at", "rule", "rule in words", "what it does", "from", "until", "next change"];
  heads.push("donor of the deed whose rule it is (a takedown is of no deed)");
  return saveTable(`timeline-${lines.length}-rules-${day}-asked`, moment, about, heads, lines, recordOf);
}

function mark() {
  const { value } = field();
  stands().style.setProperty("--day", share(value));
  Object.assign(stands().querySelector("[type=range]"), { value: numberOf(value), ariaValueText: value });
}

function choose(day, where) {
  if (!day) return show("timeline", paragraph(`No rule that stands begins or ends ${where} than ${field().value}.`));
  field().value = day;
  mark();
  look();
}

// Reads a day: its files in order, the effects for each, how many are alike, and how they differ from those of another.
async function readDay(day, other, tools) {
  const [files, effects, changes, audiences] = [[], [], new Changes(), Object.keys(AUDIENCES)];
  const alikeOf = keeper((text) => ({ text, now: text.split(" "), count: 0 }));
  let [at, mine] = [0, { now: [] }];
  const take = (record) => {
    // most files are like the one before, and to see that is cheaper than to make a text
    const isLike = audiences.every((audience, of) => mine.now[of] === effectOf(record, audience));
    if (!isLike) mine = alikeOf(audiences.map((audience) => effectOf(record, audience)).join(" "));
    mine.count += 1;
    const file = 10000 * record[COLUMNS.accession] + Number(record[COLUMNS.slot]);
    files.push(file);
    effects.push(mine);
    while (other?.files[at] < file) at += 1;
    const old = other?.files[at] === file ? other.effects[at] : mine;
    if (old.text === mine.text) return;
    const parts = ["accession", "slot", "kind", "name"].map((column) => record[COLUMNS[column]]);
    audiences.forEach((audience, of) => {
      if (old.now[of] !== mine.now[of]) changes.take([...parts, audience, old.now[of], mine.now[of]]);
    });
  };
  await readVerdicts(day, take, tools);
  changes.close();
  return { files, effects, alike: [...new Set(effects)], groups: changes.all() };
}

// Who gets what on a day, and what is other than on the day before it; of a day that is over, than today.
async function showDay(day, tools) {
  const [current, moment, rules] = [today(), momentNow(), byWhichRules(today())];
  const past = day < current ? `on ${day}, ${rules}, they` : "";
  const other = past ? current : dayAfter(day, -1);
  const { alike, groups } = await readDay(day, await readDay(other, null, tools), tools);
  // what only a day that is over needs is loaded then
  const since = past ? await loaded(import("./staff.origins.js")).then(({ pastOf }) => pastOf(day, tools)) : {};
  const texts = audienceCounts((audience, effect) => {
    const at = Object.keys(AUDIENCES).indexOf(audience);
    return alike.reduce((sum, one) => sum + (one.now[at] === effect ? one.count : 0), 0);
  }).concat(askedWords({ moment }), since.words ?? []);
  const turns = `What is other on ${day} than ${past ? "today" : "on the day before it"}, ${other}, ${rules}`;
  const none = past && `By these rules nothing is other on that day; ${since.then}`;
  const more = dayParts({ words: turns, past, none, groups, first: past ? "Now" : "The day before" });
  const [words, said] = [`Who gets what ${onDay(day)}`, stands().querySelector(".day")];
  const about = `${words}. ${askedWords({ moment })} It names ten files of each change at most: the view Who sees what \
has all. It does not say who has read or copied a file.`;
  const name = `timeline-of-${day}${day === current ? "" : `-by-the-rules-of-${current}`}-asked`;
  more.push(box("div", "choices", ...saver(button("Save this day as CSV"), () => saveSaid(name, moment, about, said))));
  said.replaceChildren(dated("h2", words), ...texts.map((text) => dated("p", text)), ...more);
}

// The day that was read last. One that is chosen meanwhile comes next; one that nobody chose is today.
let read = "";

async function look() {
  const doing = async (tools) => {
    field().defaultValue = today();
    if (asked.day !== today()) await readLines().then(draw);
    read = field().value;
    mark();
    await showDay(read, tools);
    return `Read: ${read}.`;
  };
  const isFine = isDay(field().value) || field().reportValidity();
  if (isFine && (await work("timeline", doing)) && field().value !== read) look();
}

// Opens the view with today, whichever day was chosen before.
export function open() {
  formOf("timeline").reset();
  field().setCustomValidity("");
  field().defaultValue = today();
  return readLines().then(draw);
}

export function listen() {
  const form = formOf("timeline");
  const { day, earlier, later } = form.elements;
  limitFields(form);
  form.addEventListener("submit", look);
  day.addEventListener("change", () => day.reportValidity() && mark());
  earlier.addEventListener("click", () => choose(allTurns().findLast((one) => one < day.value), "earlier"));
  later.addEventListener("click", () => choose(allTurns().find((one) => one > day.value), "later"));
}
