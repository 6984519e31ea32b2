// Words for what stands at a desk: audiences, effects, rules and days, and what the fields for them take.
import { shownName } from "./names.js";
import { Refused, askObject, textOf } from "./shared.js";

export const AUDIENCES = { public: "the public", room: "the reading room", staff: "the staff" };
// (the desk lists no closed file, but says that one is there and by which rule, and so does the page for readers)
export const EFFECTS = {
  read: "read them", list: "see their names, not read them",
  deny: "see only that closed files are there, not their names",
};

export const audienceWords = (audiences) => listed(audiences.map((audience) => AUDIENCES[audience]));

// Words as a list in a sentence.
export function listed(words) {
  if (words.length < 2) return words.join("");
  return `${words.slice(0, -1).join(", ")} and ${words.at(-1)}`;
}

// What people typed, or what stands on a disk, between words of the page.
export const quoted = (text) => `\u201c${text}\u201d`;
export const signedWords = ({ donor, signed }) => `${quoted(donor)}, signed on ${signed}`;
// (only names of the 1541 have codes from 80 hex on)
const asShown = (words) => (/%[89A-F]/.test(words) ? ` (on the screen ${quoted(shownName("d64", words))})` : "");

function printed(least, most) {
  return { pattern: `[\\x20-\\x7E]{${least},${most}}`, title: "as the desk prints it", required: least > 0 };
}

// Ways to select files: the words to choose and to show each, and, where it takes a value, how to type and send that.
export const SELECTORS = {
  all: { choice: "all files", shown: () => "all files", sent: () => true },
  slot: {
    ...{ choice: "one file, by its slot (its place on the disk)", field: "Slot" },
    limits: { pattern: "0|[1-9][0-9]{0,3}", title: "a number from 0 to 9999", required: true },
    shown: (slot, names) => `the file at slot ${slot}${names ? ` (${names.get(slot) ?? "there is none"})` : ""}`,
    sent: Number,
  },
  prefix: {
    choice: "files whose names begin alike",
    ...{ field: "They begin, as the desk prints them, with", limits: printed(1, 64) },
    ...{ shown: (words) => `files whose names begin with ${quoted(words)}${asShown(words)}`, sent: String },
  },
  user: {
    ...{ choice: "files of a user of CP/M", field: "User" },
    limits: { pattern: "[0-9]|1[0-5]", title: "a number from 0 to 15", required: true },
    ...{ shown: (user) => `files of user ${user}`, sent: Number },
  },
  type: {
    ...{ choice: "files of a type", field: "Type, or nothing", limits: printed(0, 16) },
    ...{ shown: (words) => (words === "" ? "files without a type" : `files of type ${quoted(words)}`), sent: String },
  },
};

// What the fields take, by their names.
const NUMBER = { pattern: "[1-9][0-9]{0,5}", title: "a number from 1 to 999999", inputMode: "numeric", size: 7 };
const DAY = { pattern: "[0-9]{4}-[0-9]{2}-[0-9]{2}", placeholder: "2026-01-31", title: "as in 2026-01-31", size: 11 };
export const LIMITS = {
  ...{ deed: NUMBER, accession: NUMBER, scope: NUMBER },
  rank: { ...NUMBER, pattern: "[1-9][0-9]{0,3}", title: "a number from 1 to 9999" },
  ...Object.fromEntries(["signed", "from", "until", "day", "before"].map((name) => [name, DAY])),
  digest: { pattern: "[0-9A-Fa-f]{64}", title: "64 hexadecimal digits" },
};

// Rules of deeds, and takedowns: their words, the column of what they are of, how labels begin, effects and paths.
const rulesOf = (word, thing, more, begin) => ({
  ...{ word, thing, ...more },
  words: (scope, rank) => `${word} ${rank} of ${thing} ${scope}`,
  path: (scope, rank) => `${begin}/${scope}/rules/${rank}`,
});
export const RULES = {
  rules: rulesOf("rule", "deed", { of: "Deed", letter: "R", effects: ["read", "list", "deny"] }, "/deeds"),
  takedowns: rulesOf("takedown", "disk", { of: "Accession", letter: "T", effects: ["list", "deny"] }, "/images"),
};

// Whether a text is a day as the page shows it, and is in the calendar.
export function isDay(text) {
  const date = new Date(`${text}T00:00:00Z`);
  return text > "0001" && !Number.isNaN(date.getTime()) && date.toISOString().slice(0, 10) === text;
}

// The one entry of a selector: how it selects, and by what.
export const selection = (rule) => Object.entries(rule.select)[0];

// Which files a rule is for; `names` has those of the files of a disk, by their slots.
export function filesWords(rule, names) {
  const [how, what] = selection(rule);
  return SELECTORS[how].shown(what, names);
}

export const isOnNoDay = ({ from, until }) => Boolean(from && until && from >= until);

// (one without days says nothing of the past: it holds from the moment at which it is put)
export function daysWords({ from, until }) {
  if (isOnNoDay({ from, until })) return `on no day: from ${from}, but until ${until}`;
  if (!from && !until) return "until further notice";
  return [from && `from ${from}`, until && `until ${until}, not that day`].filter(Boolean).join(", ");
}

// The days of a rule that stands, with a mark where it decides nothing any more or nothing yet, if the day is known.
export const isOver = ({ until }) => Boolean(until) && until <= told.day;
function daysNow(rule) {
  const words = daysWords(rule);
  if (isOnNoDay(rule) || told.day === "") return words;
  if (isOver(rule)) return `over: ${words}`;
  return rule.from > told.day ? `not begun: ${words}` : words;
}

// The texts of a rule that stands, by the columns of its table.
export const ruleTexts = (rule, names) => ({
  ...{ Rank: String(rule.rank), "For whom": audienceWords(rule.audiences) },
  ...{ "Which files": filesWords(rule, names), "They may": EFFECTS[rule.effect], Days: daysNow(rule) },
});

export const SHORT = { read: "readable for", list: "only listed for", deny: "closed to" };

// A rule in short; and one that stands.
export const ruleWords = (rule, names, days = daysWords) =>
  `${filesWords(rule, names)} ${SHORT[rule.effect]} ${audienceWords(rule.audiences)}, ${days(rule)}`;
export const standingWords = (rule, names) => ruleWords(rule, names, daysNow);

// What is to be said of a takedown that is put.
export const VISITS = `From which addresses files were fetched before, desk-visits.log on the museum's machine says \
for 14 days at most: keep a copy if you need it.`;

// Who put what stands, by the journal: the name of the column, and what is there before the journal is read.
export const [PUT, UNREAD] = ["Put when, by whom, and why", "not looked for in the journal"];

// This moment, to the second, with its time zone; and a moment of any zone in UTC, where it is one.
export const momentNow = () => `${new Date().toISOString().slice(0, 19)}+00:00`;
export const inUtc = (moment, at = new Date(moment)) =>
  Number.isNaN(at.getTime()) ? moment : `${at.toISOString().slice(0, 19).replace("T", " ")} UTC`;

// A day some days after another, both as texts. A year may have fewer than four digits.
export function dayAfter(day, days) {
  const date = new Date(`${day}T00:00:00Z`);
  date.setUTCDate(date.getUTCDate() + days);
  return date.toISOString().slice(0, 10);
}

// The month before another, as in 2026-01.
export const monthBefore = (month) => dayAfter(`${month}-01`, -1).slice(0, 7);

// Today by the desk's clock, in its zone, as the desk told it last, and when it was asked; or "", and why it did not.
const untold = (fault) => ({ day: "", fault });
let told = untold();

export async function askToday(signal) {
  const moment = momentNow();
  const said = await askObject("/staff/today", { signal }).then(({ day }) => ({ day: textOf(day), moment }), untold);
  if (!signal?.aborted) told = said;
}

// By which clock days of rules and of asking are, so that somebody can tell later which days these were.
export const whenWords = (moment) => `on ${moment.slice(0, 10)} at ${moment.slice(11, 19)} UTC`;
export const clockWords = () => `by the desk's clock, whose zone it does not tell\
${told.day && `: ${whenWords(told.moment)} it was ${told.day} there`}`;

export function today() {
  if (told.day) return told.day;
  throw [401, 403].includes(told.fault?.status) ? told.fault : new Refused("day", {});
}
