// Tables that the page saves, and lists of what stands. Each row says by itself whose it is, what the table has, and
// what it does not say; the heads say who saved it, and by whose clocks; the name of the file, when the page asked.
import { holder } from "./about.js";
import { APOSTROPHES, csvText, explainedHead } from "./csv.js";
import { listTable } from "./lists.js";
import { box, button, element, part } from "./shared.js";
import { ANY_NAME, held, listName, whoNow } from "./staff.desk.js";
import { clockWords, momentNow, quoted, whenWords } from "./staff.words.js";
import { inParts, save } from "./stream.js";

const byWhom = ({ name } = whoNow()) =>
  (name ? `by ${quoted(name)}, as they typed their name` : "by somebody who typed no name");

const days = () => `days of rules, of checks and of asking: ${clockWords()}`;
const clocks = () => `this table, in UTF-8, saved ${byWhom()} (${APOSTROPHES}; moments: in UTC, of the journal by the \
museum's machine, of asking by the computer that saved this; slots count from 0; ${days()}). ${ANY_NAME}`;

// (by the mark at its beginning a spreadsheet sees that it is UTF-8)
export async function saveTable(name, moment, about, heads, items, recordOf) {
  const said = [holder() || "(the museum's name was not found)", about];
  const first = ["museum", clocks(), ...heads.map(explainedHead)];
  const texts = ["\ufeff", csvText([first, ...(items.length ? [] : [said])])];
  await inParts(items, (some) => texts.push(csvText(some.map((one) => [...said, ...recordOf(one)]))));
  const file = `${name}-${moment.slice(0, 19).replaceAll(":", "")}Z.csv`;
  save(file, texts, "text/csv");
  return file;
}

// Saves what a part of the page says, line by line.
export function saveSaid(name, moment, about, said) {
  const lines = [...said.querySelectorAll("h2, h3, p, li")].map(({ textContent }, at) => [at + 1, textContent]);
  return saveTable(name, moment, about, ["line", "what it says"], lines, (one) => one);
}

// A button that saves a table, and what says beside it under which name, until it is pressed again or has other work.
export function saver(button, saved) {
  const said = element("span", "", { role: "status", className: "saved" });
  button.addEventListener("click", () => said.replaceChildren());
  button.addEventListener("click", async () => said.replaceChildren(`Saved: ${await saved()}`));
  return [button, said];
}

export const forgetSaved = (name) => part(name).querySelectorAll(".saved").forEach((said) => said.replaceChildren());

// Shows what stands in a section, in words and as a list, when the desk was asked for it, and a button that saves it.
// The button stays where the list is drawn anew, for somebody may be pressing it. `savedOf` gives the columns to save.
export function showList(name, words, [caption, columns, items, rowOf], { of = "", more = "", savedOf } = {}) {
  const [{ moment }, stands] = [held[listName(name)], part(name).querySelector(".stands")];
  const when = `the desk was asked ${whenWords(moment)}`;
  if (stands.childElementCount === 0) {
    const save = saver(button("Save this list as CSV"), () => stands.children[1].save());
    stands.append(element("p", ""), box("div", "choices", element("span", ""), ...save), element("div", ""));
  }
  const [before, bar, list] = stands.children;
  before.replaceWith(words);
  bar.firstChild.textContent = `T${when.slice(1)}.`;
  list.replaceWith(items.length ? listTable(caption, columns, items, rowOf) : element("div", ""));
  forgetSaved(name);
  const about = `As things stood when ${when}: ${words.textContent} It does not say what else stood before, what \
stands since, nor who gets what. ${more}`.trim();
  bar.save = async () => {
    const saved = Object.entries((await savedOf?.()) ?? columns).filter(([, textOf]) => textOf);
    const heads = saved.map(([head]) => head.toLowerCase());
    const recordOf = (one) => saved.map(([, textOf]) => textOf(one));
    return saveTable(`${name}${of}-${items.length}-asked`, moment, about, heads, items, recordOf);
  };
}

// A print says when, by whom and by whose clocks, and its title when. Where a question is open, only that is printed.
const printed = element("p", "", { className: "callout" });
window.addEventListener("beforeprint", () => {
  const when = whenWords(momentNow());
  const from = `Printed from the staff's page${holder() && ` of ${holder()}`} ${when} ${byWhom()}.`;
  printed.replaceChildren(element("strong", from), ` Moments: in UTC; ${days()}. ${ANY_NAME}`);
  document.title += `, ${when}`;
  (document.querySelector("#sure[open]") ?? part("main")).prepend(printed);
});
window.addEventListener("afterprint", () => {
  printed.remove();
  document.title = document.title.replace(/, on [^,]*$/, "");
});
