// Which disks and which ranks a takedown gets.
import { counted } from "./shared.js";
import { RULES, isOver, listed, standingWords } from "./staff.words.js";

// The last rank; and how many takedowns before one are named.
const [LAST_RANK, MOST_NAMED] = [9999, 5];
// How far apart are ranks of takedowns of one file, and of others: one of a file has to fit before those.
const [STEP, WIDE_STEP] = [10, 100];
export const MOST_DISKS = 1000;

// The accessions of a list such as `1001-1011, 1020`, ascending, each once; null where it is none.
export function accessionsIn(text) {
  const parts = text.split(/[\s,;]+/).filter(Boolean);
  const ranges = parts.map((part) => /^([1-9][0-9]{0,5})(?:[-\u2013]([1-9][0-9]{0,5}))?$/.exec(part));
  if (ranges.length === 0 || ranges.includes(null)) return null;
  const found = new Set();
  for (const [, first, last = first] of ranges) {
    if (Number(last) < Number(first) || Number(last) - Number(first) >= MOST_DISKS) return null;
    for (let number = Number(first); number <= Number(last); number += 1) found.add(number);
  }
  return found.size > MOST_DISKS ? null : [...found].sort((one, other) => one - other);
}

// Those that stand which may be for the same files and readers as a rule.
function met({ audiences, select }, stand) {
  const isFor = (one) => (one.select.slot ?? select.slot) === (select.slot ?? one.select.slot);
  return stand.filter((one) => isFor(one) && one.audiences.some((audience) => audiences.includes(audience)));
}

// A free rank for a rule, before those that it meets: one of 10, 20, 30 .. for one file, of 100, 200, 300 .. for more,
// or else any. Where none is free there, the first free one behind the first of them; null where none is.
function freeRank(rule, stand) {
  const [used, first] = [new Set(stand.map(({ rank }) => rank)), Math.min(...met(rule, stand).map(({ rank }) => rank))];
  const wide = rule.select.slot === undefined ? WIDE_STEP : STEP;
  const before = [wide, STEP, 1].map((step) => [(Math.ceil(first / step) - 1) * step, -step]);
  for (let [rank, step] of [...before, first < Infinity ? [1, 1] : [wide, wide], [1, 1]]) {
    while (used.has(rank)) rank += step;
    if (rank > 0 && rank <= LAST_RANK) return rank;
  }
  return null;
}

// Where a rule goes: its rank, the rule that it replaces there, and what is to be said of that.
export function placeOf(name, scope, typed, rule, stand) {
  const rank = typed === "" ? freeRank(rule, stand) : Number(typed);
  const replaced = stand.find((one) => one.rank === rank);
  return { scope, rank, replaced, says: placeWords(name, { scope, rank, replaced }, rule, stand) };
}

function placeWords(name, { scope, rank, replaced }, rule, stand) {
  if (rank === null) return `All ranks of disk ${scope} are in use.`;
  const words = RULES[name].words(scope, rank);
  if (replaced) return `In use: ${words} stands, ${standingWords(replaced)}. What you put replaces it.`;
  if (name === "rules") return "";
  const [before, meets] = [stand, met(rule, stand)].map((some) => some.filter((one) => one.rank < rank));
  const all = meets.filter((one) => !isOver(one)).map((one) => `takedown ${one.rank} (${standingWords(one)})`);
  const named = all.length > MOST_NAMED ? [...all.slice(0, MOST_NAMED), `${all.length - MOST_NAMED} more`] : all;
  const mind = named.length ? ` Mind: before it may decide, for the same files and readers, ${listed(named)}.` : "";
  const place = `number ${before.length + 1} of ${counted(stand.length + 1, "takedown")} of disk ${scope}`;
  return `Rank ${rank} gives its place in the order: ${place}.${mind}`;
}
