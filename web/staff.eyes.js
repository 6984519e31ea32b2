// A look through others' eyes: what the public, the reading room or the staff may do with each file on a day.
import { longTable, nameCell } from "./lists.js";
import { searchText } from "./names.js";
import { box, cell, counted, element, grouped, kindWords, part, row } from "./shared.js";
import { changeCount, dated, diskCell, formOf, readRules, work } from "./staff.desk.js";
import { limitFields, options } from "./staff.ruleform.js";
import { pastOf } from "./staff.origins.js";
import { forgetSaved, saveTable, saver } from "./staff.saved.js";
import { COLUMNS, EFFECT_AT, SAVED_HEADS, UNSAID, askedWords, byWhichRules } from "./staff.verdicts.js";
import { countWords, effectOf, mayWords, onDay, readVerdicts, ruleShown, savedVerdict } from "./staff.verdicts.js";
import { AUDIENCES, momentNow, ruleWords, today } from "./staff.words.js";
import { inParts, keeper, pause } from "./stream.js";
import { isTitled } from "./titles.js";

// The verdicts of the day that was read last, behind each the text to look in; by which rules, and when.
let seen = { day: "", files: null };
const SEARCHED = 15;

async function read(day, tools) {
  const asked = { day, words: onDay(day), rules: byWhichRules(day), moment: momentNow(), changeCount, on: today() };
  asked.name = day === asked.on ? day : `${day}-by-the-rules-of-${asked.on}`;
  const [files, once, searchOf] = [[], keeper(), keeper((kind) => keeper((name) => searchText(kind, name)))];
  const searched = (record) => searchOf(record[COLUMNS.kind])(record[COLUMNS.name]);
  // most texts are those of the line before; a text to look in is kept already
  let last = [];
  const kept = (text, at) => (text === last[at] ? last[at] : at === SEARCHED ? text : once(text));
  asked.said = new Map((await readRules(tools.signal)).map(({ label, rule }) => [label, ruleWords(rule)]));
  const past = day < today() ? await pastOf(day, tools) : {};
  await readVerdicts(day, (record) => files.push((last = [...record, searched(record)].map(kept))), tools);
  seen = { ...asked, files, others: past.others, past: past.words };
}

// Says of a file whether it is looked for: by a part of its name or its disk's title, by the disk's number or its rule.
function finder(typed, audience, words = typed.toLowerCase()) {
  const [rule, ruleAt] = [words.toUpperCase(), EFFECT_AT[audience] + 1];
  const number = words.replace(/^disk\s+/, "");
  const isNumbered = (file) => file[COLUMNS.accession] === number || file[ruleAt] === rule;
  const isOnTitled = (file) => isTitled(Number(file[COLUMNS.accession]), words);
  return (file) => file[SEARCHED].includes(words) || isNumbered(file) || isOnTitled(file);
}

const wanted = ({ audience, words, closed } = formOf("eyes").elements) =>
  ({ audience: audience.value, words: words.value.trim(), showsClosed: closed.checked });

// The files to show, of closed ones only what is asked for; their disk, if it is one; words; and counts of all files.
async function lookThrough({ audience, words, showsClosed }, all) {
  const [isFound, counts, files] = [finder(words, audience), { read: 0, list: 0, deny: 0 }, []];
  let left = 0;
  const take = (file) => {
    const effect = effectOf(file, audience);
    counts[effect] += 1;
    if (!isFound(file)) return;
    if (showsClosed || effect !== "deny") files.push(file);
    else left += 1;
  };
  await inParts(all, (some) => some.forEach(take));
  const by = words && `, found by \u201c${words}\u201d`;
  const out = left ? `; ${grouped(left)} more, closed to them, left out` : "";
  const more = showsClosed ? "; also what is closed to them" : out;
  const [disk, ...others] = new Set(files.map((file) => file[COLUMNS.accession]));
  const of = disk && others.length === 0 ? ` of disk ${disk}` : "";
  const only = of && `, only${of}, which has ${all.filter((file) => file[COLUMNS.accession] === disk).length}`;
  return { files, counts, of, which: `${grouped(files.length)} of ${counted(all.length, "file")}${by}${only}${more}.` };
}

function fileRow(file, audience, asked) {
  const [kind, name, slot] = [file[COLUMNS.kind], file[COLUMNS.name], cell("Slot", file[COLUMNS.slot], "number")];
  const cells = [diskCell(file[COLUMNS.accession]), cell("Kind", kindWords(kind)), slot, nameCell(kind, name)];
  const rule = box("span", "", `${file[EFFECT_AT[audience] + 1]} `, ruleShown(file, audience));
  const may = cell("They may", mayWords(file, audience, asked));
  return row([...cells, cell("Type", file[COLUMNS.type]), may, cell("Rule", rule)]);
}

// How often the files were drawn: what was asked for later goes before what has not come yet.
let turn = 0;

async function draw(wait) {
  const [mine, of, asked, stands] = [++turn, seen, wanted(), part("eyes").querySelector(".stands")];
  stands.setAttribute("aria-busy", "true");
  if (wait) await pause(wait);
  if (mine !== turn) return;
  const { files, counts, which } = await lookThrough(asked, of.files);
  if (mine !== turn) return;
  stands.setAttribute("aria-busy", "false");
  if (of !== seen) return;
  const columns = ["Disk", "Kind", "Slot", "Name", "Type", "They may", "Rule"];
  const heading = dated("h2", `What ${AUDIENCES[asked.audience]} gets ${of.words}`);
  const shown = `Shown: ${which} ${askedWords(of)}`;
  const words = [countWords(asked.audience, (effect) => counts[effect]), shown, of.past ?? []].flat();
  const made = longTable("verdicts", columns, files, (file) => fileRow(file, asked.audience, of));
  stands.replaceChildren(heading, ...words.map((text) => dated("p", text)), files.length ? made : "");
  forgetSaved("eyes");
  part("eyes").querySelector(".found").hidden = false;
}

async function saveShown() {
  const [asked, mine] = [wanted(), seen];
  const { files, of, which } = await lookThrough(asked, mine.files);
  const [who, counts] = [AUDIENCES[asked.audience], `${files.length}-of-${mine.files.length}-files`];
  const name = `who-sees-what-${asked.audience}${of.replaceAll(" ", "-")}-${mine.name}-${counts}-asked`;
  const what = `What ${who} gets ${mine.words}: ${which} ${askedWords(mine)}`;
  const about = [what, `It says nothing of what others than ${who} get.`, mine.past ?? [], UNSAID].flat().join(" ");
  return saveTable(name, mine.moment, about, SAVED_HEADS, files, (file) => savedVerdict(file, asked.audience, mine));
}

// (as long as nobody types another day, the field follows its default)
async function look(tools) {
  const { day } = formOf("eyes").elements;
  day.defaultValue = today();
  await read(day.value, tools);
  await draw();
  return `Read: what everybody gets ${seen.words}.`;
}

// Opens the view with the day that is shown, or today. What was asked before a change or on another day is asked anew.
export function open(_, tools) {
  const [{ day }, isOver] = [formOf("eyes").elements, seen.on !== today()];
  day.defaultValue = today();
  if (!seen.day) return null;
  const typed = day.validity.valid ? day.value : today();
  const shown = isOver && seen.day === seen.on ? typed : seen.day;
  if (day.value !== shown) day.value = shown;
  day.setCustomValidity("");
  if (!isOver && seen.changeCount === changeCount) return null;
  seen = { ...seen, files: null };
  part("eyes").querySelector(".stands").replaceChildren();
  part("eyes").querySelector(".found").hidden = true;
  return look(tools);
}

export function listen() {
  const form = formOf("eyes");
  const { audience, words, closed, save: button } = form.elements;
  limitFields(form);
  options(audience, AUDIENCES);
  form.addEventListener("submit", () => work("eyes", look));
  // the table follows the typing, once nothing more was typed for 150 ms
  [audience, closed, words].forEach((field) => field.addEventListener("input", () => seen.files && draw(150)));
  words.addEventListener("keydown", (event) => event.key === "Enter" && event.preventDefault());
  button.parentNode.append(...saver(button, saveShown));
}
