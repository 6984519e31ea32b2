// A sheet of disks: its rows, and which of the chosen dumps each one names.
import { KINDS } from "./shared.js";
import { recordsOf } from "./csv.js";

// What stands in each column: how it looks, in signs and in words.
const NUMBER = [/^[1-9][0-9]{0,5}$/, "a number from 1 to 999999"];
const FITS = {
  accession: NUMBER, kind: [/^(cpm8|d64|d64e)$/, "cpm8, d64 or d64e"],
  deed: NUMBER, sha256: [/^[0-9A-Fa-f]{64}$/, "64 hexadecimal digits"], file: [/^./s, "the name of a file"],
};
const COLUMNS = Object.keys(FITS);

// The rows of a sheet; where it is none, the words that say what is wrong with it.
export function rowsIn(text) {
  const records = recordsOf(text);
  if (records === null) return { fault: "A quote in the sheet does not end." };
  const [heads, ...rest] = records;
  if (heads?.join() !== COLUMNS.join()) return { fault: `The first line of the sheet has to be ${COLUMNS.join()}.` };
  for (const [at, record] of rest.entries()) {
    const fault = rowFault(record);
    if (fault) return { fault: `Row ${at + 1} of the sheet: ${fault}` };
  }
  return { rows: rest.map(rowOf) };
}

function rowFault(record) {
  if (record.length !== COLUMNS.length) return `it has ${record.length} fields, and not ${COLUMNS.length}.`;
  const wrong = COLUMNS.find((column, at) => !FITS[column][0].test(record[at]));
  return wrong === undefined ? "" : `${wrong} has to be ${FITS[wrong][1]}.`;
}

function rowOf([accession, kind, deed, sha256, file]) {
  const [name, problem] = [file.split(/[/\\]/).at(-1), "No file of this name is chosen."];
  return { accession, kind, deed, sha256: sha256.toLowerCase(), file, name, dump: null, problem };
}

// Gives each row its dump by the name of the file, of several that with its SHA-256; gives the dumps that no row names.
export function matchRows(rows, dumps) {
  const left = giveByKey(rows, dumps, ({ name, sha256 }) => [name, sha256], ({ file, digest }) => [file.name, digest]);
  return giveByKey(rows.filter((row) => !row.dump), left, ({ name }) => [name], ({ file }) => [file.name]);
}

// Gives each row the first dump with its key that no row before it has got. Gives the dumps that are left.
function giveByKey(rows, dumps, keyOfRow, keyOfDump) {
  // from the last dump on, so that the first stands at the end of its list
  const lists = Map.groupBy(dumps.toReversed(), (dump) => keyOfDump(dump).join("\0"));
  for (const row of rows) row.dump = lists.get(keyOfRow(row).join("\0"))?.pop() ?? null;
  const taken = new Set(rows.map(({ dump }) => dump));
  return dumps.filter((dump) => !taken.has(dump));
}

// What speaks against sending a row's dump; "" where nothing does.
export function rowProblem({ kind, sha256, dump }) {
  const other = `The sheet says ${KINDS[kind].words}, and the length is another.`;
  if (dump.kind !== kind) return `${other} The page does not send it.`;
  return dump.digest === sha256 ? "" : "The sheet says another SHA-256. The page does not send it.";
}
