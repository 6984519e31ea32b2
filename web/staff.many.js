// Many changes, one after the other: with progress, a report that can be saved, and a way to go on where they stopped.
import { longTable } from "./lists.js";
import { Refused, box, button, cell, counted, element, explainRefusal, refusalName, row } from "./shared.js";
import { ANY_NAME, change, dated, diskCell, isUnsure, keepReason, older, paragraph, whoNow } from "./staff.desk.js";
import { saveTable, saver } from "./staff.saved.js";
import { VISITS, askToday, inUtc, momentNow, whenWords } from "./staff.words.js";

const [DONE, DOUBT] = ["done", " The desk may have done it all the same."];
const isTakedown = ({ word }) => word === "takedown";

// What is to be said of a change that failed.
function outcomeWords(fault) {
  if (!(fault instanceof Refused)) return `This page cannot read the desk's answer.${DOUBT}`;
  const [name, more] = [refusalName(fault), isUnsure(fault) ? DOUBT : ""];
  return `${explainRefusal(fault)}${more}${name && ` (${name})`}`;
}

// Whether there is no use in sending the next one now.
const isLost = (fault) => fault instanceof Refused && [0, 401, 403, 429, 502, 503, 504].includes(fault.status);

export const isDone = (item) => item.outcome === DONE;
// An item with a problem is left out: it is never sent.
const isOver = (item) => isDone(item) || Boolean(item.problem);
const outcomeOf = ({ problem, outcome }) => (outcome === DONE ? DONE : problem || outcome);
const isDoubtful = (item) => outcomeOf(item)?.includes(DOUBT);

// Sends what is left of some items by `one`, and gives a report. `run` has the section, the items, a word for them,
// what sends one, and the columns of the report with an item's texts in them; `after` comes when it ends, in any case,
// and may give words of what holds then; `said` has them in the place of how many are done, `more` where not all are.
export async function sendMany(run, { progress, signal }) {
  const left = run.items.filter((item) => !isOver(item));
  run.begun = momentNow();
  run.last = `This work was begun, or gone on with, ${whenWords(run.begun)}.`;
  for (const [at, item] of left.entries()) {
    if (signal.aborted) break;
    progress("Sending", at, left.length);
    item.who = [...Object.values(whoNow()), inUtc(momentNow())];
    const fault = await run.one(item).then(() => null, (came) => came);
    item.outcome = fault === null ? DONE : outcomeWords(fault);
    run.shown?.(item);
    if (fault !== null && isLost(fault)) break;
  }
  if (!run.items.every(isOver)) keepReason();
  const after = await askToday().then(() => run.after?.({ progress })).then((words) => ({ words }), () => null);
  run.decided = after?.words ?? "";
  return report(run, after === null);
}

// How many are done, and, behind that or behind what the run says of them, how many are not.
function summary({ items, word, verb, said }) {
  const [done, over] = [items.filter(isDone).length, items.filter(isOver).length];
  const [doubt, open] = [isDoubtful, (item) => !outcomeOf(item)].map((is) => items.filter(is).length);
  const counts = Object.entries({ "in doubt": doubt, "not sent yet": open, "left out": over - done });
  const more = counts.map(([words, count]) => (count ? `, ${count} ${words}` : "")).join("");
  const rest = `${items.length - over - open - doubt} failed${more}.`;
  if (said) return said(items, done < items.length ? ` ${rest}` : "");
  return element("p", `${counted(done, word)} ${verb}, ${rest}`, { className: "callout" });
}

// What became of the items: in short, those not done, buttons to go on or save it; and whether the list is older.
function report(run, isOlder) {
  const [others, isWhole] = [run.items.filter((item) => outcomeOf(item) && !isDone(item)), run.items.every(isOver)];
  const [columns, isDisk] = [[...run.heads, "Outcome"], (column, text) => text && /^(Accession|Disk)$/.test(column)];
  const cellOf = (column, text) => (isDisk(column, text) ? diskCell(text, column) : cell(column, text ?? "", "words"));
  const rowOf = (item) => row([...run.cells(item), outcomeOf(item)].map((text, at) => cellOf(columns[at], text)));
  const table = others.length ? longTable("Not done", columns, others, rowOf) : null;
  const more = run.more && !isWhole && !isOlder ? element("p", run.more()) : null;
  const [decided, visits] = [run.decided && dated("p", run.decided), isTakedown(run) ? paragraph(VISITS) : null];
  const goOn = isWhole ? null : button("Go on with the rest", () => change(run.section, (how) => sendMany(run, how)));
  const buttons = box("p", "choices", goOn, ...saver(button("Save the report"), () => saveReport(run)), run.last);
  return box("div", "report", summary(run), table, more, decided, visits, buttons, isOlder ? older(run.section) : null);
}

function saveReport({ section, of = section, begun, last, items, heads, cells, decided, ...run }) {
  const columns = [...heads.map((head) => head.toLowerCase()), "outcome", "by", "reason", "tried at"];
  const put = isTakedown(run) ? "Takedowns that were to be put" : "Disks that were to be put";
  const recordOf = (item) => [...cells(item), outcomeOf(item) || "not sent", ...(item.who ?? ["", "", ""])];
  const about = `${run.what ?? put}, and what became of each. It does not say what stands since. ${last}`;
  const all = [about, ANY_NAME, isTakedown(run) ? VISITS : run.says, decided].filter(Boolean).join(" ");
  return saveTable(`${of}-report-of`, begun, all, columns, items, recordOf);
}
