// The journal: who changed what, when and why, and what became of it.
import { longTable } from "./lists.js";
import { Refused, askObject, cell, counted, element, grouped, part, refusal, row } from "./shared.js";
import { AllChanges, UNKNOWN, changeWords, isUnknown, outcomeWords } from "./staff.changes.js";
import { dated, formOf, show, work } from "./staff.desk.js";
import { Lines, MONTHS, MOST, PIECE } from "./staff.lines.js";
import { limitFields } from "./staff.ruleform.js";
import { forgetSaved, saveTable, saver } from "./staff.saved.js";
import { isNoDisk, readNames } from "./staff.verdicts.js";
import { inUtc, momentNow, whenWords } from "./staff.words.js";
import { withTitle } from "./titles.js";

export const COLUMNS = ["When", "Who", "What", "Outcome", "Reason"];

const BOUND = `the last ${PIECE >> 20} MB first and as much at each press; then each month of the last ${MONTHS / 12} \
years, until it holds ${grouped(MOST)} changes`;

// What was read so far, when its newest lines were, and the changes of it from the newest on.
let lines = new Lines();
let readAt = "";
let read = new AllChanges();
let changes = [];

// The disk that is looked for, its deed and the names of its files by slot, as the desk has them; and what asks for it.
const NO_DISK = { accession: "", deed: "" };
let disk = NO_DISK;
let knowing = Promise.resolve();

async function knowDisk(accession) {
  disk = { ...NO_DISK, accession };
  if (accession === "") return;
  const survey = await askObject(`/images/${accession}/survey`);
  const names = await readNames(survey);
  if (disk.accession === accession) disk = { accession, deed: String(survey.deed), names };
}

const isFull = () => changes.length >= MOST;

// Whether a change is of the deed of a disk, whose rules decide about this one too.
const isOfDeed = (change, { deed }) => deed !== "" && change.deed === deed && !change.accession;

function ofWords(change) {
  if (change.accession) return `disk ${change.accession}`;
  const of = isOfDeed(change, disk) ? `, the deed of disk ${disk.accession}` : "";
  return change.deed ? `deed ${change.deed}${of}` : "";
}

// The changes to show, and words for which these are.
function found({ accession: { value: number }, deed, words, day, checks }) {
  const text = words.value.trim();
  const its = disk.deed ? `and of its deed ${disk.deed}, which decides about it too` : "of whose deed nothing is known";
  const holds = [
    [number, `of disk ${number} ${its}`, (change) => change.accession === number || isOfDeed(change, disk)],
    [deed.value, `of deed ${deed.value}`, (change) => change.deed === deed.value],
    [text, `with \u201c${text}\u201d in the name or the reason`, ({ search }) => search.includes(text.toLowerCase())],
    [day.value, `of ${day.value} in UTC`, ({ moment }) => inUtc(moment).startsWith(day.value)],
    [!checks.checked, "without checks of disks", (change) => change.isCheck !== true],
    [disk.names, `with the names of files as disk ${number} had them when the page asked for it`, () => true],
  ].filter(([value]) => value);
  const shown = changes.filter((change) => holds.every(([, , isFound]) => isFound(change)));
  return { shown, which: [`${counted(shown.length, "change")} of these`, ...holds.map((one) => one[1])].join(", ") };
}

// The names of the files of a disk, by their slots; where they were not read, whose file is meant.
const namesFor = ({ accession }, { names }) =>
  names ?? (accession && { get: () => `that of disk ${accession}, if there is one` });

// The row of a change; `of` is the disk for which it is shown, if any.
export function changeRow(change, of) {
  const words = `${isOfDeed(change, of) ? "Of its deed: " : ""}${changeWords(change, namesFor(change, of))}`;
  const [when, who] = [cell("When", dated("span", inUtc(change.moment))), cell("Who", change.name, "words")];
  const what = cell("What", withTitle(dated("span", words), Number(change.accession)), "words");
  const outcome = cell("Outcome", outcomeWords(change), isUnknown(change) ? "warning" : "");
  return row([when, who, what, outcome, cell("Reason", change.reason, "words")]);
}

// How far the page has read, and what it could not read.
function summary() {
  const unknown = changes.filter(isUnknown).length;
  const [first, last] = [read.oldest, changes[0]?.moment ?? read.oldest].map((moment) => inUtc(moment));
  const older = "older lines, if any, were not read: they may say that a change replaced something";
  const far = lines.isWhole ? `no month back to ${lines.last} has older lines` : older;
  const more = [`${counted(changes.length, "change")} read${first && `, from ${first} to ${last}`}; ${far}.`];
  if (unknown) more.push(`Of ${grouped(unknown)} ${UNKNOWN}, or it has not ended yet.`);
  if (read.unread) more.push(`${counted(read.unread, "line")} cannot be read.`);
  if (isFull()) more.push("The page reads no more of them.");
  return more.join(" ");
}

// How often the changes were drawn: what was asked for later goes before what has not come yet.
let turn = 0;

// Shows the changes once the disk that is typed is known.
async function draw() {
  const [mine, form, stands] = [++turn, formOf("journal"), part("journal").querySelector(".stands")];
  const [isFine, typed] = [form.reportValidity(), form.elements.accession.value];
  stands.setAttribute("aria-busy", String(isFine));
  if (!isFine) return;
  const failed = (fault) => isNoDisk(fault) || show("journal", refusal(fault));
  if (typed !== disk.accession) knowing = knowDisk(typed).catch(failed);
  await knowing;
  if (mine !== turn) return;
  const { shown, which } = found(form.elements);
  const made = shown.length ? [longTable("changes", COLUMNS, shown, (change) => changeRow(change, disk))] : [];
  const words = `Shown: ${which}, the newest first. The journal was read ${whenWords(readAt)}.`;
  stands.replaceChildren(dated("p", summary()), element("p", words), ...made);
  forgetSaved("journal");
  stands.setAttribute("aria-busy", "false");
  form.elements.older.disabled = lines.isWhole || isFull();
}

// Where the machine has no file, or may not read it, the page says so.
export function explained(fault) {
  if (!(fault instanceof Refused)) throw fault;
  const words = {
    404: "There is no journal here: the machine has no file of it. Nobody can see here who changed what.",
    500: "The machine cannot read its journal. Most likely its group may not: call whoever runs the desk.",
  };
  if (!Object.hasOwn(words, fault.status)) throw fault;
  return element("p", words[fault.status], { className: "refused" });
}

async function readOlder(tools) {
  const [before, reading] = [read.byId.size, lines.readOlder((line) => read.take(line), () => read.oldest, tools)];
  const fault = await reading.then(() => null, (came) => came);
  changes = read.inOrder();
  await draw();
  return fault ? explained(fault) : `Read: ${counted(changes.length - before, before ? "older change" : "change")}.`;
}

// Where that was the last, the button for it takes no focus any more.
async function goOn({ currentTarget: button }) {
  await work("journal", readOlder);
  if (button.disabled) part("journal").querySelector(".result").focus();
}

function readAnew(tools) {
  [lines, read, changes, readAt, turn] = [new Lines(), new AllChanges(), [], momentNow(), turn + 1];
  return readOlder(tools);
}

const UNSAID = "It does not say what was changed by other ways, nor whether a name is that of who wrote it.";
const HEADS = ["number (1 is the oldest of those here)", "moment", "name", "reason", "of", "what", "outcome"];

function savedRecord([change, number]) {
  const { moment, name, reason, method, path, status, body } = change;
  const words = [ofWords(change), changeWords(change, namesFor(change, disk)), outcomeWords(change)];
  return [number, inUtc(moment), name, reason, ...words, method, path, status, body];
}

async function saveShown() {
  await draw();
  const { shown, which } = found(formOf("journal").elements);
  const [since, of] = [inUtc(read.oldest).slice(0, 10), disk.accession && `-of-disk-${disk.accession}`];
  const counts = `${shown.length}-of-${changes.length}-changes`;
  const name = `journal${of}-${counts}${since ? `-back-to-${since}` : ""}-asked`;
  const about = `The journal, read at ${inUtc(readAt)}: ${summary()} Here: ${which}, the newest first. ${UNSAID}`;
  const numbered = shown.map((change, at) => [change, shown.length - at]);
  return saveTable(name, readAt, about, [...HEADS, "method", "path", "status", "body"], numbered, savedRecord);
}

// Shows the journal, of one disk where its number is given, and else all.
export function open(accession, tools) {
  formOf("journal").reset();
  formOf("journal").elements.accession.value = accession ?? "";
  disk = NO_DISK;
  part("journal").querySelector(".stands").replaceChildren();
  return readAnew(tools);
}

export function listen() {
  const form = formOf("journal");
  const { accession, deed, words, day, checks, older, anew, save: button } = form.elements;
  limitFields(form);
  part("journal").querySelector(".bound").textContent = BOUND;
  form.addEventListener("submit", () => draw());
  [accession, deed, words, day, checks].forEach((field) => field.addEventListener("change", draw));
  accession.addEventListener("change", () => history.replaceState(null, "", `#/journal/${accession.value}`));
  older.addEventListener("click", goOn);
  anew.addEventListener("click", () => work("journal", readAnew));
  button.parentNode.append(...saver(button, saveShown));
}
