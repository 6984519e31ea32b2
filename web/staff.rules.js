// Rules of deeds, and takedowns: the forms that put and change them, and the tables of those that stand.
import { cell, counted, element, loaded, part, row } from "./shared.js";
import { buttonsCell, change, dated, diskCell, formOf, held, listName, readHeld, rulesOf, send } from "./staff.desk.js";
import { showChange, shownAnew, showsAnew, standing } from "./staff.desk.js";
import { MOST_DISKS, accessionsIn, placeOf } from "./staff.ranks.js";
import { fillRule, makeRuleForm, ruleIn } from "./staff.ruleform.js";
import { showList } from "./staff.saved.js";
import { readNames } from "./staff.verdicts.js";
import { RULES, VISITS, filesWords, ruleTexts, ruleWords, signedWords, standingWords } from "./staff.words.js";
import { titleOf } from "./titles.js";

// Of how many disks the page says more, as what their takedowns replace; what is typed; what only a change needs.
const MOST_NOTES = 10;
const FIRST = "Takedowns of a disk come before the rules of its deed: by rank, the first that matches decides.";
const scopesIn = (name, typed) => (name === "rules" ? [Number(typed)] : (accessionsIn(typed) ?? []));
const rehearsals = () => loaded(import("./staff.rehearsal.js"));

// Puts a rule at each place once the rehearsal is agreed to: at the rank that is typed, or else at a free one.
async function put(name, scopes, typedRank, rule, tools) {
  await showRules(name);
  const places = scopes.map((scope) => placeOf(name, scope, typedRank, rule, rulesOf(name, scope)));
  const full = places.find(({ rank }) => rank === null);
  if (full) return full.says;
  const sent = { rule, method: "PUT", body: JSON.stringify(rule) };
  const commands = places.map(({ scope, rank }) => ({ ...sent, scope, rank, path: RULES[name].path(scope, rank) }));
  const [words, replaced] = [placesWords(name, places), places.flatMap((place) => place.replaced ?? [])];
  const [word, done] = replaced.length === places.length ? ["Replace", "Replaced"] : ["Put", "Put"];
  const notes = (names) => [`It says: ${ruleWords(rule, names)}.`, ...placeNotes(places)];
  const { decidedNow, rehearsalDays, rehearsed, sameNow, saveFirst } = await rehearsals();
  const [days, isTakedown] = [rehearsalDays(rule, replaced), name === "takedowns"];
  const asked = { words: `${word} ${words}?`, notes, commands, days, isTakedown, go: `${word} it` };
  if (isTakedown && places.length === 1) asked.first = saveFirst(scopes[0], asked.words);
  const agreed = await rehearsed(asked, tools);
  if (agreed.length === 0) return `Not ${done.toLowerCase()}: ${words}.`;
  const cells = (one) => [String(one.scope), String(one.rank)];
  const after = (how) => showRules(name).then(() => sameNow(agreed, how));
  const more = { after, heads: ["Accession", "Rank"], cells, verb: done.toLowerCase() };
  if (places.length > 1) return putMany(name, agreed, more, tools);
  await send("PUT", agreed[0].path, sent.body);
  const said = await shownAnew(name, `${done}: ${words}.`);
  return isTakedown ? [said, await decidedNow(agreed, tools), await sameNow(agreed, tools), VISITS].flat() : said;
}

// Puts takedowns one after the other, in a section; `more` has what else its report needs.
export async function putMany(section, commands, { heads, cells, ...more }, tools) {
  const { sendMany } = await loaded(import("./staff.many.js"));
  const run = {
    ...{ section, items: commands, word: "takedown", verb: "put" },
    one: ({ method, path, body }) => send(method, path, body),
    heads: [...heads, "Takedown"],
    cells: (one) => [...cells(one), ruleWords(one.rule)],
    ...more,
  };
  return sendMany(run, tools);
}

const placesWords = (name, [{ scope, rank }, ...others]) =>
  others.length ? `a takedown of ${counted(others.length + 1, "disk")}` : RULES[name].words(scope, rank);

// What is to be said of the places: of one all, of many only what replaces something or comes after others.
function placeNotes(places) {
  if (places.length === 1) return places[0].says ? [places[0].says] : [];
  const notes = places.map(({ says }) => says).filter((says) => /^In use|Mind/.test(says));
  const rest = notes.length - MOST_NOTES;
  return rest > 0 ? [...notes.slice(0, MOST_NOTES), `The same of ${counted(rest, "more disk")}.`] : notes;
}

async function drop(name, scope, rule, tools) {
  const { path, words } = RULES[name];
  const said = words(scope, rule.rank);
  const commands = [{ scope, rank: rule.rank, method: "DELETE", path: path(scope, rule.rank) }];
  const notes = (names) => [`It stands: ${standingWords(rule, names)}.`];
  const { rehearsalDays, rehearsed, saveFirst } = await rehearsals();
  const asked = { words: `Drop ${said}?`, notes, commands, days: rehearsalDays(rule), go: "Drop it" };
  if (name === "takedowns") asked.first = saveFirst(scope, asked.words);
  if ((await rehearsed(asked, tools)).length === 0) return `Kept: ${said}.`;
  await send("DELETE", path(scope, rule.rank));
  return shownAnew(name, `Done: there is no ${said} now.`);
}

// The dialog in which a rule is changed where it stands.
function changeRule(name, scope, rule) {
  const form = element("form", null, { autocomplete: "off", method: "dialog" });
  makeRuleForm(name, form);
  Object.assign(form.elements.rank, { value: rule.rank, readOnly: true });
  fillRule(form, rule);
  const use = () => change(name, (tools) => put(name, [scope], String(rule.rank), ruleIn(form), tools));
  showChange(`Change ${RULES[name].words(scope, rule.rank)}`, form, use);
}

function ruleRow(name, { scope, rule }) {
  const [{ of, words }, texts] = [RULES[name], Object.entries(ruleTexts(rule))];
  const first = name === "takedowns" ? diskCell(scope, of) : cell(of, String(scope));
  const cells = [first, ...texts.map(([label, text]) => cell(label, dated("span", text)))];
  const presses = {
    Change: () => changeRule(name, scope, rule),
    Drop: () => change(name, (tools) => drop(name, scope, rule, tools)),
  };
  return row([...cells, buttonsCell(words(scope, rule.rank), presses)]);
}

// Draws those that stand: of the deed or the disks that are typed, or all.
function draw(name) {
  const [{ of, word, thing }, typed] = [RULES[name], formOf(name).elements.scope.value];
  const [scopes, all] = [new Set(scopesIn(name, typed)), standing(name).map(({ scope, rule }) => ({ scope, rule }))];
  const shown = typed === "" ? all : all.filter(({ scope }) => scopes.has(scope));
  const where = typed === "" ? "" : ` of ${thing}${scopes.size > 1 ? "s" : ""} ${typed}`;
  const count = element("p", shown.length ? `${counted(shown.length, word)}${where}.` : `There is no ${word}${where}.`);
  const textOf = (column) => [column, (one) => ruleTexts(one.rule)[column]];
  const columns = { [of]: ({ scope: number }) => number, Rank: ({ rule }) => rule.rank };
  Object.assign(columns, Object.fromEntries(["For whom", "Which files", "They may", "Days"].map(textOf)), { "": null });
  const savedOf = async () => ({ ...columns, ...(await savedColumns(name, shown)) });
  const ofOne = typed && scopes.size === 1 ? `-of-${thing}-${[...scopes]}` : "";
  const list = [`${word}s that stand`, columns, shown, (one) => ruleRow(name, one)];
  showList(name, count, list, { of: ofOne, more: FIRST, savedOf });
}

// What a saved table has otherwise: of a few disks, files by slot with the names that the desk has; donors of deeds.
async function savedColumns(name, rules) {
  const isOfDisk = name === "takedowns";
  const disks = rules.filter(({ rule }) => isOfDisk && rule.select.slot !== undefined).map(({ scope }) => scope);
  const names = new Map();
  for (const accession of [...new Set(disks)].slice(0, MOST_NOTES)) {
    names.set(accession, await readNames({ accession }).catch(() => null));
  }
  const where = (scope) => (isOfDisk ? `; its name is on the page of disk ${scope}` : "");
  const namesOf = (scope) => names.get(scope) ?? { get: () => `counted from 0${where(scope)}` };
  const donors = new Map(held.deeds.map((one) => [one.deed, signedWords(one)]));
  const files = ({ scope, rule }) => filesWords(rule, namesOf(scope));
  return { "Which files": files, "Donor of the deed": isOfDisk ? null : ({ scope }) => donors.get(scope) };
}

async function showRules(name) {
  await readHeld(listName(name));
  draw(name);
  hint(name);
}

// Says below the fields which rank it will be, once they have a rule that does not stand, or what a typed one has.
function hint(name) {
  const form = formOf(name);
  const { scope, rank } = form.elements;
  const [scopes, rule] = [scopesIn(name, scope.value), ruleIn(form)];
  const all = scopes.map((one) => placeOf(name, one, rank.value, rule, rulesOf(name, one)));
  const isNew = (one) => !rulesOf(name, one.scope).some((that) => ruleWords(that) === ruleWords(rule));
  const places = all.filter((one) => one.replaced || (form.matches(":valid") && isNew(one)));
  const title = name === "takedowns" && scopes.length === 1 ? titleOf(scopes[0]) : "";
  const words = [title && `\u201c${title}\u201d.`, ...placeNotes(places)].filter(Boolean).join(" ");
  form.querySelector(".hint").replaceChildren(...(words ? [dated("span", words)] : []));
}

// The section of rules or takedowns: where a deed or a disk is named, for that one.
function openRules(name, scope) {
  if (scope !== undefined) formOf(name).elements.scope.value = scope;
  return showRules(name);
}

function listenForRules(name) {
  const form = formOf(name);
  showsAnew(name, () => showRules(name));
  makeRuleForm(name, form);
  if (name === "takedowns") takeMany(form);
  form.elements.scope.addEventListener("input", () => draw(name));
  for (const event of ["input", "change"]) form.addEventListener(event, () => hint(name));
  form.addEventListener("submit", () => {
    const { scope, rank } = form.elements;
    change(name, (tools) => put(name, scopesIn(name, scope.value), rank.value, ruleIn(form), tools));
  });
}

// A takedown may be for many disks, and needs no rank.
function takeMany(form) {
  const { scope, rank } = form.elements;
  Object.assign(rank, { required: false, placeholder: "free" });
  Object.assign(scope, { pattern: ".*", inputMode: "text", size: 20, title: "as in 1001-1011, 1020" });
  scope.addEventListener("input", () => {
    const lacks = accessionsIn(scope.value) === null;
    scope.setCustomValidity(lacks ? `Type numbers as in 1001-1011, 1020; at most ${MOST_DISKS} at once.` : "");
  });
}

export const viewOf = (name) => ({ listen: () => listenForRules(name), open: (scope) => openRules(name, scope) });
