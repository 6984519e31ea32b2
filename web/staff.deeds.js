// Deeds: who gave disks, and when they signed; each with its rules.
import { box, cell, counted, element, grouped, part, row } from "./shared.js";
import { buttonsCell, change, dated, formOf, held, readHeld, send } from "./staff.desk.js";
import { showChange, shownAnew, showsAnew, sure } from "./staff.desk.js";
import { limitFields } from "./staff.ruleform.js";
import { showList } from "./staff.saved.js";
import { signedWords, standingWords } from "./staff.words.js";

// Puts a deed. One that stands and has another donor or day is replaced only when that is said once more.
async function put(deed, body) {
  const isOther = (one) => String(one.deed) === deed && signedWords(one) !== signedWords(body);
  const stands = (await readHeld("deeds")).find(isOther);
  if (stands) {
    const more = [`It stands: ${signedWords(stands)}.`, `Then: ${signedWords(body)}.`].map((text) => dated("p", text));
    const asked = { words: `Replace deed ${deed}?`, more, go: "Replace it", keep: "Keep it" };
    if (!(await sure(asked))) return `Kept: deed ${deed}.`;
  }
  await send("PUT", `/deeds/${deed}`, JSON.stringify(body));
  return shownAnew("deeds", `${stands ? "Replaced" : "Put"}: deed ${deed}.`);
}

const bodyOf = ({ donor, signed }) => ({ donor: donor.value, signed: signed.value });

function changeDeed({ deed, donor, signed }) {
  const form = formOf("deeds").cloneNode(true);
  limitFields(form);
  Object.assign(form.elements.deed, { value: deed, readOnly: true });
  [form.elements.donor.value, form.elements.signed.value] = [donor, signed];
  showChange(`Change deed ${deed}`, form, () => change("deeds", () => put(String(deed), bodyOf(form.elements))));
}

const NO_RULE = "No rule: nobody may read its files";

// The rules of a deed in short, and the way to all that can be done with them.
function rulesCell({ deed, rules }) {
  const lines = rules.map((rule) => dated("li", `${rule.rank}: ${standingWords(rule)}`));
  const words = rules.length ? "Rules" : NO_RULE;
  const link = element("a", words, { href: `#/rules/${deed}`, ariaLabel: `${words}, of deed ${deed}` });
  return cell("Rules", box("div", "", lines.length ? box("ul", "", ...lines) : null, link));
}

function deedRow(one) {
  const [number, donor] = [cell("Deed", String(one.deed), "number"), cell("Donor", one.donor, "words")];
  const [signed, disks] = [cell("Signed on", one.signed, "day"), cell("Disks", grouped(one.accessions), "number")];
  const buttons = buttonsCell(`deed ${one.deed}`, { Change: () => changeDeed(one) });
  return row([number, donor, signed, disks, rulesCell(one), buttons]);
}

export async function showDeeds() {
  await readHeld("deeds");
  const count = element("p", held.deeds.length ? `${counted(held.deeds.length, "deed")}.` : "There is no deed.");
  const columns = { Deed: ({ deed }) => deed, Donor: ({ donor }) => donor, "Signed on": ({ signed }) => signed };
  const rulesOf = ({ rules }) => rules.map((one) => `${one.rank}: ${standingWords(one)}`).join("; ") || NO_RULE;
  Object.assign(columns, { Disks: ({ accessions }) => accessions, Rules: rulesOf, "": null });
  showList("deeds", count, ["deeds that stand", columns, held.deeds, deedRow]);
}

export function listenForDeeds() {
  const form = formOf("deeds");
  showsAnew("deeds", showDeeds);
  limitFields(form);
  form.addEventListener("submit", () => change("deeds", () => put(form.elements.deed.value, bodyOf(form.elements))));
}
