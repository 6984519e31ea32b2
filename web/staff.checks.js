// Survey and check of disks, and the latest check of each.
import { box, cell, counted, element, grouped, kindWords, own, part, row } from "./shared.js";
import { buttonsCell, change, changed, dated, diskCell, formOf, held, readHeld } from "./staff.desk.js";
import { shownAnew, showsAnew } from "./staff.desk.js";
import { isDone, sendMany } from "./staff.many.js";
import { limitFields } from "./staff.ruleform.js";
import { showList } from "./staff.saved.js";
import { dayAfter, quoted, signedWords, today } from "./staff.words.js";

// After how many days a disk is due to be checked again.
const DAYS = 365;
const DIRECTORIES = { end: "it ends well", loop: "it leads back into itself", off: "it leads off the disk" };

const SOUND = `\u201cSound\u201d says: the bytes that the desk had that day have the SHA-256 with which the disk \
was taken in. It says nothing of damaged files: a sound disk may have some.`;

// What a check has found: a warning where a disk is changed.
const finding = (text, isBad, more = isBad ? " Restore a backup of what is changed." : "") =>
  dated("p", `${text}${more}`, { className: isBad ? "refused" : "callout" });

export function surveyed(survey, more = {}) {
  const { files, served, faulty, label, directory, map } = survey;
  const pairs = {
    Disk: `${survey.accession}, ${kindWords(survey.kind)}${label && `, called ${quoted(label)}`}`,
    Deed: `${survey.deed}, of ${signedWords(survey)}`,
    Files: `${counted(files, "file")}: ${served} can be given out, ${faulty} damaged`,
    Directory: own(DIRECTORIES, directory),
  };
  if (map !== null) {
    const [free, used] = [map.claimed_free, map.unclaimed_used].map((count) => counted(count, "block"));
    pairs.Map = `in use but marked as free: ${free}; not in use but marked as used: ${used}; `;
    pairs.Map += `with a wrong count: ${counted(map.wrong_counts, "track")}`;
    pairs.Sizes = `${counted(survey.size_differs, "file")} with another size than the directory says`;
  }
  const lines = Object.entries({ ...more, ...pairs });
  return box("dl", "", ...lines.flatMap(([term, text]) => [element("dt", term), element("dd", text)]));
}

export async function checked(accession, section) {
  const { outcome } = await changed("POST", `/images/${accession}/check`);
  const isBad = outcome === "changed";
  const words = isBad ? "CHANGED: it no longer has" : "sound: it still has";
  return shownAnew(section, finding(`Disk ${accession} is ${words} the SHA-256 that came with it.`, isBad));
}

// Checks all disks whose latest check is before the day in the form, or that were never checked.
async function checkAll(tools) {
  await showChecks();
  const before = formOf("checks").elements.before.value;
  const due = held.checks.filter(({ day }) => day === null || day < before);
  const run = {
    section: "checks",
    items: due.map(({ accession }) => ({ accession, found: "" })),
    one: async (item) => (item.found = (await changed("POST", `/images/${item.accession}/check`)).outcome),
    after: showChecks,
    said: (items, rest) => {
      const checks = items.map((item) => ({ ...item, outcome: item.found }));
      return foundOf(checks, `${counted(items.filter(isDone).length, "disk")} checked`, `.${rest}`);
    },
    ...{ what: "Checks of disks that were to be made", says: SOUND, heads: ["Disk", "Found"] },
    cells: ({ accession, found }) => [String(accession), found],
  };
  return due.length ? sendMany(run, tools) : `There is no disk whose latest check is before ${before}.`;
}

// How many are sound, and which are changed, in a sentence.
function foundOf(checks, begin, rest) {
  const unsound = checks.filter(({ outcome }) => outcome === "changed").map(({ accession }) => accession);
  const sound = grouped(checks.filter(({ outcome }) => outcome === "sound").length);
  const bad = unsound.length ? `, ${grouped(unsound.length)} CHANGED: ${unsound.join(", ")}` : "";
  return finding(`${begin}: ${sound} sound${bad}${rest}`, unsound.length > 0);
}

function checkRow({ accession, day, outcome }) {
  const found = cell("Outcome", outcome ?? "", outcome === "changed" ? "warning" : "");
  const press = () => change("checks", () => checked(accession, "checks"));
  const [on, buttons] = [cell("Checked on", day ?? "never", "day"), buttonsCell(`disk ${accession}`, { Check: press })];
  return row([diskCell(accession), on, found, buttons]);
}

// What the latest check of a disk has found.
export function checkWords(disk) {
  const { day, outcome } = held.checks.find(({ accession }) => accession === disk) ?? {};
  const isBad = outcome === "changed";
  return finding(day ? `Latest check: ${isBad ? "CHANGED" : outcome} on ${day}. ${SOUND}` : "Never checked.", isBad);
}

// Reads the checks anew, and shows them: the warning stays there as long as a disk is changed.
async function showChecks() {
  const checks = await readHeld("checks");
  const columns = { Disk: (one) => one.accession, "Checked on": (one) => one.day ?? "never" };
  Object.assign(columns, { Outcome: (one) => one.outcome ?? "", "": null });
  const never = checks.filter(({ day }) => day === null).length;
  const words = foundOf(checks, counted(checks.length, "disk"), `; ${grouped(never)} never checked.`);
  showList("checks", words, ["latest checks", columns, checks, checkRow], { more: SOUND });
  formOf("checks").elements.before.defaultValue = dayAfter(today(), -DAYS);
}

export const open = showChecks;

export function listen() {
  const form = formOf("checks");
  showsAnew("checks", showChecks);
  limitFields(form);
  form.addEventListener("submit", () => change("checks", checkAll));
}
