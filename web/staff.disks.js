// Dumps of disks: chosen, described by their lengths and SHA-256, numbered by hand or by a sheet, and put.
import { readDump } from "./dump.js";
import { KINDS, Refused, box, button, cell, counted, digestOf, element, explainRefusal, kindWords } from "./shared.js";
import { grouped, part, row, table } from "./shared.js";
import { change, dated, formOf, readHeld, rulesOf, send, sure, work } from "./staff.desk.js";
import { forecast, forecastWords } from "./staff.forecast.js";
import { isDone, sendMany } from "./staff.many.js";
import { diskMap } from "./staff.map.js";
import { matchRows, rowProblem, rowsIn } from "./staff.sheet.js";
import { LIMITS, listed, signedWords, standingWords, today } from "./staff.words.js";

// The chosen dumps, and the rows of the sheet that came with them, or null.
let [dumps, sheet] = [[], null];

const kindOf = (length) => Object.keys(KINDS).find((kind) => KINDS[kind].length === length);

function noKind(length) {
  const lengths = Object.values(KINDS).map((kind) => `${kind.words} has ${counted(kind.length, "byte")}`);
  return `The page does not send it: no kind of disk has ${counted(length, "byte")}. ${lengths.join(", ")}.`;
}

function dumpOf(file) {
  const kind = kindOf(file.size);
  const dump = { file, kind, digest: "", outcome: "", problem: "", says: element("div", null) };
  const fieldOf = (what, ariaLabel) => element("input", null, { required: true, ariaLabel, ...LIMITS[what] });
  dump.accession = fieldOf("accession", `Accession of ${file.name}`);
  dump.deed = fieldOf("deed", `Deed of ${file.name}`);
  if (kind === undefined) Object.assign(dump, { problem: noKind(file.size), isLeftOut: true });
  return dump;
}

// The dumps that can be sent or are put; and what is left out, with the rows of the sheet that have no dump.
const sendable = () => dumps.filter((dump) => !dump.problem || isDone(dump));
const missing = () => (sheet ?? []).filter((one) => one.dump === null);
const leftOut = () => [...dumps.filter((dump) => dump.problem && !isDone(dump)), ...missing()];
const isOpen = (dump) => !dump.problem && !isDone(dump);

// A dump, or a row of the sheet without one, as it stands in a report; and where a dump goes by what is typed now.
const cellsOf = ({ accession, kind, deed, digest, file, sha256 }) =>
  sha256 ? [accession, kind, deed, sha256, file] : [accession.value, kind, deed.value, digest, file.name];
const pathOf = (dump) => `/accessions/${cellsOf(dump).slice(0, 4).join("/")}`;

// The columns of the list, and how each looks.
const COLUMNS = { File: "name", Bytes: "number", Kind: "", "SHA-256": "digest", Accession: "", Deed: "", Result: "" };
const listRow = (texts) => row(Object.entries(COLUMNS).map(([column, look], at) => cell(column, texts[at], look)));

function dumpRow(dump) {
  const { file, kind, digest, accession, deed, says } = dump;
  says.textContent = dump.problem || dump.outcome;
  const fields = dump.isLeftOut ? ["", ""] : [accession, deed];
  const name = kind === undefined ? file.name : mapButton(dump);
  return listRow([name, grouped(file.size), kindWords(kind), digest, ...fields, says]);
}

// The name of a dump, with a button that shows its map.
function mapButton({ file, kind }) {
  const press = async () => {
    const map = diskMap(kind, new Uint8Array(await bytesOf(file)));
    part("disks").querySelector(".stands").replaceChildren(element("h2", `The map of ${file.name}`), map);
  };
  const made = button("Map", () => work("disks", press), { ariaLabel: `Map of ${file.name}` });
  return box("div", "", `${file.name} `, made);
}

const missingRow = ({ name, kind, sha256, accession, deed, problem }) =>
  listRow([name, "", kindWords(kind), sha256, accession, deed, problem]);

function showDumps() {
  const rows = [...dumps.map(dumpRow), ...missing().map(missingRow)];
  const made = rows.length ? [table("Dumps", Object.keys(COLUMNS), rows)] : [];
  part("disks").querySelector(".list").replaceChildren(...made);
  part("disks").querySelector(".choices").hidden = rows.length === 0;
}

async function chooseFiles({ files }, tools) {
  const chosen = Array.from(files.files);
  files.value = "";
  const sheets = chosen.filter((file) => /\.csv$/i.test(file.name));
  const made = chosen.filter((file) => !sheets.includes(file)).map(dumpOf);
  dumps = [...dumps, ...made];
  showDumps();
  const images = made.filter((one) => one.kind);
  for (const [at, dump] of images.entries()) {
    tools.progress("Reading", at, images.length);
    await readFile(dump).catch((fault) => (dump.problem = explainRefusal(fault)));
  }
  const fault = sheets.length ? await readSheet(sheets) : "";
  if (sheet !== null) useSheet();
  showDumps();
  return fault || [`${counted(made.length, "file")} chosen.`, ...sheetWords()].join(" ");
}

const bytesOf = (file) => file.arrayBuffer().catch(() => Promise.reject(new Refused("file", {})));

async function readFile(dump) {
  const bytes = await bytesOf(dump.file);
  dump.digest = await digestOf(bytes);
  dump.files = readDump(dump.kind, new Uint8Array(bytes)).files;
}

async function readSheet(files) {
  if (files.length > 1) return "Choose one sheet at a time.";
  const { rows, fault } = rowsIn(new TextDecoder().decode(await bytesOf(files[0])));
  if (fault) return fault;
  sheet = rows;
  return "";
}

// Gives the dumps what the sheet says of them. A dump that it does not name is left out.
function useSheet() {
  const others = matchRows(sheet, dumps).filter((dump) => dump.kind && !isDone(dump));
  for (const dump of others) Object.assign(dump, { problem: "The sheet does not name it: left out.", isLeftOut: true });
  for (const one of sheet.filter(({ dump }) => dump)) {
    const { dump } = one;
    const isElsewhere = dump.accession.value !== one.accession || dump.deed.value !== one.deed;
    if (isElsewhere) Object.assign(dump, { outcome: "", who: null });
    Object.assign(dump, { problem: dump.kind ? rowProblem(one) : noKind(dump.file.size), isLeftOut: false });
    Object.assign(dump.accession, { value: one.accession, readOnly: true });
    Object.assign(dump.deed, { value: one.deed, readOnly: true });
  }
}

function sheetWords() {
  if (sheet === null) return [];
  const [ready, none] = [sheet.filter((one) => one.dump?.problem === "").length, missing().length];
  const words = `${ready} ready, ${sheet.length - ready - none} with another disk than it says, ${none} without a file`;
  return [`The sheet has ${counted(sheet.length, "row")}: ${words}.`];
}

// Says of each deed what its disks come under, and asks. Gives the words where nothing is to be sent, else null.
async function unagreed() {
  const [open, out] = [sendable().filter(isOpen), leftOut().length];
  if (open.length === 0) return "There is no disk to put.";
  const deeds = new Map((await readHeld("deeds")).map((one) => [String(one.deed), one]));
  const wanted = [...new Set(open.map(({ deed }) => deed.value))];
  const unknown = wanted.filter((deed) => !deeds.has(deed));
  const of = (deed) => `${deed} (as of accession ${open.find((dump) => dump.deed.value === deed).accession.value})`;
  if (unknown.length) return `Nothing is sent: there is no deed ${listed(unknown.map(of))}. Put it first.`;
  await readHeld("takedowns");
  const there = new Set((await readHeld("checks")).map(({ accession }) => String(accession)));
  const count = open.filter(({ accession }) => there.has(accession.value)).length;
  const words = `In use already: ${counted(count, "accession")}. The same disk stays as it is; another one is refused.`;
  const parts = wanted.flatMap((deed) => deedParts(deeds.get(deed), open.filter((dump) => dump.deed.value === deed)));
  const others = `Left out: ${out}. The last column of the list says why.`;
  const more = [...(count ? [element("p", words)] : []), ...(out ? [element("p", others)] : []), ...parts];
  const asked = { words: `Put ${counted(open.length, "disk")}?`, more, go: "Put them", keep: "Do not put them" };
  return (await sure(asked)) ? null : "Nothing is sent.";
}

function deedParts({ deed, rules, ...more }, under) {
  const lines = rules.map((rule) => dated("li", `${rule.rank}: ${standingWords(rule)}`));
  const heading = dated("h3", `${counted(under.length, "disk")} under deed ${deed}, of ${signedWords(more)}`);
  const rulesFor = ({ accession }) => [...rulesOf("takedowns", Number(accession.value)), ...rules];
  const forecasts = under.map((dump) => forecast(dump.files, rulesFor(dump), today()));
  const words = `What they get on ${today()}, as this page reckons from the dumps, these rules and their takedowns:`;
  return [
    ...[heading, box("ul", "", ...(lines.length ? lines : [element("li", "No rule: nobody may read their files.")]))],
    ...[dated("p", words), box("ul", "", ...forecastWords(forecasts).map((text) => element("li", text)))],
  ];
}

// One after the other: a refusal stops no other dump, and the next press sends the refused one again.
async function putDumps(tools) {
  const words = await unagreed();
  if (words !== null) return words;
  for (const dump of sendable()) dump.agreed = pathOf(dump);
  const run = {
    ...{ section: "disks", word: "disk", verb: "put", one: putDump, items: [...sendable(), ...leftOut()] },
    shown: (dump) => Object.assign(dump.says, { textContent: dump.outcome }),
    heads: ["Accession", "Kind", "Deed", "SHA-256", "File"],
    cells: (one) => (one.outcome ? one.tried : null) ?? cellsOf(one),
  };
  return sendMany(run, tools);
}

async function putDump(dump) {
  dump.tried = cellsOf(dump);
  if (pathOf(dump) !== dump.agreed) throw new Refused("asked", {});
  await send("PUT", dump.agreed, await bytesOf(dump.file));
  dump.accession.readOnly = dump.deed.readOnly = true;
}

// Numbers the dumps that have no accession on from the first one, and gives those without a deed its deed.
function countOn() {
  const [first, ...others] = dumps.filter(isOpen);
  if (first === undefined || !first.accession.reportValidity() || !first.deed.reportValidity()) return;
  others.forEach((dump, at) => {
    dump.accession.value ||= Number(first.accession.value) + at + 1;
    dump.deed.value ||= first.deed.value;
  });
}

export function listen() {
  const form = formOf("disks");
  const { files, count, empty } = form.elements;
  form.addEventListener("submit", () => change("disks", putDumps));
  files.addEventListener("change", () => work("disks", (tools) => chooseFiles(form.elements, tools)));
  count.addEventListener("click", countOn);
  empty.addEventListener("click", () => {
    [dumps, sheet] = [[], null];
    part("disks").querySelector(".stands").replaceChildren();
    showDumps();
  });
}
