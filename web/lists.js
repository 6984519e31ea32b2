// Long lists: tables of which the rows near the screen are drawn, in blocks; one empty row is as high as the others.
import { shownName } from "./names.js";
import { box, cell, element, grouped, table } from "./shared.js";

// How many rows a table has whole, and a block; in pixels, how far from the screen rows are drawn, and how high one is.
const [WHOLE, BLOCK, NEAR, ROW] = [50, 20, 1200, 40];

// While the page is printed, all rows of each table that is shown are drawn.
let isPrinted = false;
window.addEventListener("beforeprint", () => {
  isPrinted = true;
  for (const one of document.querySelectorAll("[aria-rowcount] tbody")) if (one.checkVisibility()) one.print();
});
window.addEventListener("afterprint", () => (isPrinted = false));

// How high a block was in the last table with a caption: where it is shown again, no more are drawn than come near.
const measured = new Map();

// The bodies of a table: a block or a gap, each for the blocks from its first to before its end.
function bodiesOf(caption, items, rowOf, columns) {
  const heights = Array(Math.ceil(items.length / BLOCK)).fill(measured.get(caption) ?? ROW * BLOCK);
  let isMeasured = false;
  const see = ({ target, isIntersecting, boundingClientRect: { top } }) => {
    if (isPrinted || !target.isConnected || target.isDrawn === isIntersecting) return;
    (isIntersecting ? draw : clear)(target, top);
  };
  const observer = new IntersectionObserver((all) => all.forEach(see), { rootMargin: `${NEAR}px 0px` });
  const body = (rows, fields) => {
    const made = Object.assign(box("tbody", "", ...rows), fields, { print: () => fields.isDrawn || draw(made, 0) });
    observer.observe(made);
    return made;
  };
  const block = (first) => {
    const rows = items.slice(first * BLOCK, (first + 1) * BLOCK).map(rowOf);
    // (the row of the heads is the first)
    rows.forEach((one, at) => (one.ariaRowIndex = first * BLOCK + at + 2));
    return body(rows, { first, end: first + 1, isDrawn: true });
  };
  const gap = (first, end) => {
    if (first === end) return [];
    const space = box("tr", "space", element("td", null, { colSpan: columns }));
    space.ariaHidden = "true";
    space.firstChild.style.height = `${heights.slice(first, end).reduce((sum, one) => sum + one)}px`;
    return [body([space], { first, end, isDrawn: false })];
  };
  // draws the blocks of a gap that are near the screen, or all for a print; the first shows how high the others will be
  const draw = (old, top) => {
    let [from, place] = [old.first, top];
    while (!isPrinted && from < old.end - 1 && place + heights[from] < -NEAR) place += heights[from++];
    let to = from;
    do place += heights[to++];
    while (to < old.end && (isPrinted || place < window.innerHeight + NEAR));
    const blocks = Array.from({ length: to - from }, (_, at) => block(from + at));
    old.before(...blocks);
    const drawn = blocks.map((one) => one.getBoundingClientRect().height);
    // (what is hidden meanwhile has no height)
    if (drawn[0] > 0) {
      if (!isMeasured) heights.fill(drawn[0]);
      heights.splice(from, drawn.length, ...drawn);
      measured.set(caption, drawn[0]);
      isMeasured = true;
    }
    blocks[0].before(...gap(old.first, from));
    old.replaceWith(...gap(to, old.end));
  };
  // makes a block a gap, one with those beside it; a block in which somebody is at work stays
  const clear = (old) => {
    if (old.contains(document.activeElement)) return;
    const all = [old.previousSibling, old, old.nextSibling].filter((one) => one === old || one?.isDrawn === false);
    old.before(...gap(all[0].first, all.at(-1).end));
    all.forEach((one) => one.remove());
  };
  return gap(0, heights.length);
}

// A table of items, each as the row that `rowOf` makes of it.
export function longTable(caption, columns, items, rowOf) {
  if (items.length <= WHOLE) return table(caption, columns, items.map(rowOf));
  const made = table(caption, columns, []);
  made.lastChild.replaceWith(...bodiesOf(caption, items, rowOf, columns.length));
  made.setAttribute("aria-rowcount", items.length + 1);
  return made;
}

// Up to so many rows nobody needs to sort or filter; and how somebody has done it, by the caption of the list.
const [FEW, choices] = [20, new Map()];

// A table of items that can be sorted by the columns that have a value of each, and filtered by a text in these.
export function listTable(caption, columns, items, rowOf) {
  const names = Object.keys(columns);
  if (items.length <= FEW) return longTable(caption, names, items, rowOf);
  const chosen = choices.get(caption) ?? { words: "", column: "", turn: 1 };
  const filter = element("input", null, { type: "search", value: chosen.words });
  const count = element("span", "", { role: "status" });
  const made = box("div", "", box("label", "", "Only rows with ", filter), " ", count, element("table", null));
  const isFound = (one) => names.some((name) => `${columns[name]?.(one) ?? ""}`.toLowerCase().includes(chosen.words));
  const order = (one, other) => {
    const [first, second] = [one, other].map(columns[chosen.column]);
    return first === second ? 0 : chosen.turn * (first < second ? -1 : 1);
  };
  const draw = () => {
    chosen.words = filter.value.toLowerCase();
    const found = chosen.words ? items.filter(isFound) : items;
    const shown = chosen.column ? found.toSorted(order) : found;
    const those = chosen.words && `, those with \u201c${filter.value}\u201d`;
    count.textContent = `${grouped(shown.length)} of ${grouped(items.length)} shown${those}`;
    made.lastChild.replaceWith(longTable(caption, names, shown, rowOf));
    made.querySelectorAll("th").forEach(addSort);
  };
  const addSort = (head) => {
    const name = head.textContent;
    if (!columns[name]) return;
    const isSorted = chosen.column === name;
    if (isSorted) head.ariaSort = chosen.turn > 0 ? "ascending" : "descending";
    const arrow = isSorted ? (chosen.turn > 0 ? " \u2191" : " \u2193") : "";
    const button = element("button", name + arrow, { type: "button" });
    button.addEventListener("click", () => {
      Object.assign(chosen, { column: name, turn: isSorted ? -chosen.turn : 1 });
      draw();
      made.querySelector("[aria-sort] button").focus();
    });
    head.replaceChildren(button);
  };
  choices.set(caption, chosen);
  filter.addEventListener("input", draw);
  draw();
  return made;
}

// The cell of a file's name: as the machine showed it, and below it where it is printed otherwise.
export function nameCell(kind, printed) {
  const [shown, more] = [shownName(kind, printed), { className: "printed", title: "as the desk prints it" }];
  const other = shown === printed ? null : element("span", printed, more);
  return cell("Name", box("div", "", element("span", shown), other), "name");
}
