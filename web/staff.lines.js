// The lines of the journal, from its end: what is written now comes in pieces, each older month comes as one file.
import { Refused, ask, fields, loaded } from "./shared.js";
import { AllChanges } from "./staff.changes.js";
import { breather } from "./stream.js";
import { dayAfter, inUtc, momentNow, monthBefore } from "./staff.words.js";

// How many bytes come at a time, how many months the page looks back, and from how many changes on it reads no more.
export const [PIECE, MONTHS, MOST] = [4 << 20, 120, 100000];
const LINE_FEED = 10;

// The months without a file of which none comes any more: they are not asked for again.
const absent = new Set();

const bytesOf = async (reply) => new Uint8Array(await loaded(reply.arrayBuffer()));

// The moment of the oldest line of a journal that was read whole, and the month that was looked at last for older ones.
let begin = { moment: null, last: "" };

// What a reply would be, or null where nginx refuses it with a status.
const unless = (status, reply) => reply.catch((fault) => (fault.status === status ? null : Promise.reject(fault)));

// Hands on each line of some bytes.
async function eachLine(bytes, take) {
  const [breathe, decoder] = [breather(), new TextDecoder()];
  for (let at = 0; at < bytes.length; ) {
    const found = bytes.indexOf(LINE_FEED, at);
    const end = found < 0 ? bytes.length : found;
    if (end > at) take(decoder.decode(bytes.subarray(at, end)));
    at = end + 1;
    await breathe();
  }
}

export class Lines {
  // Up to where the file that is written now is still to be read, and how long it was. Null: up to its end.
  until = null;
  length = 0;
  // The end of a line whose beginning was not read.
  rest = new Uint8Array(0);
  // The month that was looked at last, the one to look at next, and how many are still to be looked at.
  last = "";
  month = "";
  months = MONTHS;

  // Whether all is read that the page can find.
  get isWhole() {
    return this.until === 0 && this.months === 0;
  }

  // Reads what is next, and hands its lines on. `oldest` gives the moment of the oldest line so far, or "".
  async readOlder(take, oldest, tools) {
    await (this.until === 0 ? this.readMonth(take, oldest, tools) : this.readPiece(take, tools));
    if (this.until === 0 && oldest() === begin.moment) Object.assign(this, { months: 0, last: begin.last });
    if (this.isWhole) begin = { moment: oldest() || null, last: this.last };
  }

  async readPiece(take, tools) {
    const range = this.until === null ? `-${PIECE}` : `${Math.max(0, this.until - PIECE)}-${this.until - 1}`;
    const headers = { ...fields(), Range: `bytes=${range}` };
    const reply = await unless(416, ask("/journal", { headers, signal: tools.signal }));
    // An empty file is given whole.
    const places = /^bytes ([0-9]+)-[0-9]+\/([0-9]+)$/.exec(reply?.headers.get("Content-Range") ?? "");
    const [start, length] = places === null ? [0, 0] : places.slice(1).map(Number);
    if (reply === null || length < this.length) throw new Refused("rotated", {});
    const whole = await bytesOf(new Response(new Blob([await bytesOf(reply), this.rest])));
    const first = start === 0 ? 0 : whole.indexOf(LINE_FEED) + 1 || whole.length;
    Object.assign(this, { until: start, length, rest: whole.slice(0, first) });
    await eachLine(whole.subarray(first), take);
  }

  // Reads the file of the latest month before those that were looked at, if there is one.
  async readMonth(take, oldest, tools) {
    // The clock of the museum's machine may be ahead of this one.
    this.month ||= oldest().slice(0, 7) || dayAfter(momentNow().slice(0, 10), 1).slice(0, 7);
    for (let isFound = false; this.months > 0 && !isFound; ) {
      tools.progress("Looking for older journals", MONTHS - this.months, MONTHS);
      isFound = await this.readFile(take, tools);
      [this.last, this.month] = [this.month, monthBefore(this.month)];
      this.months -= 1;
    }
  }

  async readFile(take, tools) {
    if (absent.has(this.month)) return false;
    const reply = await unless(404, ask(`/journal-${this.month}`, { signal: tools.signal }));
    if (reply === null && this.month < monthBefore(momentNow().slice(0, 7))) absent.add(this.month);
    if (reply === null) return false;
    await eachLine(await bytesOf(reply), take);
    return true;
  }
}

// Reads the journal so far back that it is enough, or else all: the changes, how far back, and whether that is all.
export async function readBack(isEnough, tools) {
  const [lines, read] = [new Lines(), new AllChanges()];
  while (!isEnough?.(read.inOrder()) && !lines.isWhole && read.byId.size < MOST) {
    await lines.readOlder((line) => read.take(line), () => read.oldest, tools);
  }
  return { changes: read.inOrder(), reach: inUtc(read.oldest), isWhole: lines.isWhole, last: lines.last };
}
