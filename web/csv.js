// Tables of CSV: read as they come, and written so that a spreadsheet takes no cell of them as a formula.

// The fields of the record at a place of a text, and where it ends; null where its end has not come yet. Most lines
// have no quotes, and to look for each comma is quicker than to split them. In quotes a field has its own ones doubled.
function recordAt(text, at, isPlain) {
  const end = text.indexOf("\n", at);
  if (end < 0) return null;
  const [record, line] = [[], text.slice(at, end)];
  if (isPlain || !line.includes('"')) {
    let from = 0;
    for (let to = line.indexOf(","); to >= 0; to = line.indexOf(",", from)) {
      record.push(line.slice(from, to));
      from = to + 1;
    }
    record.push(line.slice(from));
    return { record, end: end + 1 };
  }
  const field = /(?:"((?:[^"]|"")*)"|([^",\n]*))([,\n])/y;
  field.lastIndex = at;
  for (let found = field.exec(text); found !== null; found = field.exec(text)) {
    record.push(found[1] === undefined ? found[2] : found[1].replaceAll('""', '"'));
    if (found[3] === "\n") return { record, end: field.lastIndex };
  }
  return null;
}

// The records of a table whose text comes in parts. Each ends with a line feed.
export class Records {
  rest = "";

  // Takes the next part of the text, and gives the records that are whole now.
  add(part) {
    const [text, records] = [this.rest + part, []];
    let [at, isPlain] = [0, !text.includes('"')];
    for (let found = recordAt(text, at, isPlain); found !== null; found = recordAt(text, at, isPlain)) {
      records.push(found.record);
      at = found.end;
    }
    this.rest = text.slice(at);
    return records;
  }
}

// The records of a table that somebody wrote by hand or with a spreadsheet: lines may end with CR LF, a byte order mark
// may stand in front, the last line may lack its end, and empty lines count for nothing. Null where a quote is wrong.
export function recordsOf(text) {
  const [lines, reader] = [`${text.replace(/^\ufeff/, "").replaceAll("\r\n", "\n").trimEnd()}\n`, new Records()];
  const records = reader.add(lines);
  return reader.rest === "" ? records.filter((record) => record.length > 1 || record[0] !== "") : null;
}

// A cell that begins like a formula, or so behind apostrophes, gets one in front, which a spreadsheet shows as text.
export const APOSTROPHES = "an apostrophe at the beginning of a cell, before =, +, - or @, is not part of its text";
function written(value) {
  const text = String(value ?? "");
  const harmless = /^'*[=+\-@\t\r]/.test(text) ? `'${text}` : text;
  return /[",\r\n]/.test(harmless) ? `"${harmless.replaceAll('"', '""')}"` : harmless;
}

// What some heads of columns mean, for those who see no more than a saved table.
const MEANINGS = {
  kind: "cpm8: CP/M, 8 inches; d64: Commodore 1541; d64e: Commodore 1541 with error bytes",
  rank: "a place in the order of rules, lowest first", slot: "the file's place on its disk, counted from 0",
  user: "the user of CP/M, 0 to 15, whose file it is", rules: "by rank, after takedowns; the first to match decides",
  "tried at": "by the clock of the computer that sent it", disks: "how many", until: "that day itself is not in it",
};
export const explainedHead = (head) => (Object.hasOwn(MEANINGS, head) ? `${head} (${MEANINGS[head]})` : head);
export const csvText = (records) => records.map((record) => `${record.map(written).join(",")}\n`).join("");
