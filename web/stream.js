// Long tables of the desk, read while they come in, and files that the page saves.
import { Records } from "./csv.js";
import { Refused, ask, element, loaded } from "./shared.js";

// For how many milliseconds the page works on before it lets the browser do something else.
const LONGEST_WORK = 16;

// Waits so many milliseconds; what lies between two requests of many.
export const pause = (time = 100) => new Promise((go) => setTimeout(go, time));

// Lets the browser breathe where the page has worked for long.
export function breather() {
  let since = performance.now();
  return async () => {
    if (performance.now() - since < LONGEST_WORK) return;
    await pause(0);
    since = performance.now();
  };
}

// How many items are taken before the page looks whether it has worked for long.
const AT_ONCE = 1000;

// Hands on many items, some at a time, and lets the browser breathe in between.
export async function inParts(items, take) {
  const breathe = breather();
  for (let at = 0; at < items.length; at += AT_ONCE) {
    take(items.slice(at, at + AT_ONCE));
    await breathe();
  }
}

// The parts of a reply's text, until who reads it needs no more. A connection that ends too early is a lost one.
export async function* partsOf(reply) {
  const reader = reply.body.pipeThrough(new TextDecoderStream()).getReader();
  try {
    for (;;) {
      const { done, value } = await loaded(reader.read());
      if (done) return;
      yield value;
    }
  } finally {
    reader.cancel().catch(() => {});
  }
}

// Reads a table of the desk, hands its records on without the first. A pace of 64 KB keeps each piece of work short.
export async function readTable(path, { method = "GET", body, take, progress = () => {}, signal }) {
  const [reply, records, breathe] = [await ask(path, { method, body, signal }), new Records(), breather()];
  let count = -1;
  for await (const text of partsOf(reply)) {
    for (let at = 0; at < text.length; at += 65536) {
      const came = records.add(text.slice(at, at + 65536));
      came.slice(count < 0 ? 1 : 0).forEach(take);
      count += came.length;
      await breathe();
    }
    progress(Math.max(count, 0));
  }
  if (count < 0 || records.rest !== "") throw new Refused(0, {});
}

// Keeps each text once, or what is made of it, since most texts of a long table come again and again.
export function keeper(make = (text) => text) {
  const known = new Map();
  return (text) => known.get(text) ?? known.set(text, make(text)).get(text);
}

// Has the browser save a file.
export function save(name, parts, type) {
  const address = URL.createObjectURL(new Blob(parts, { type }));
  element("a", null, { href: address, download: name }).click();
  setTimeout(() => URL.revokeObjectURL(address), 60000);
}
