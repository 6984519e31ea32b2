// What is on a dump, read in the browser as docs/FORMATS.md says: the files, the units that each one claims, and their
// faults. A unit is a block of the 1541, or a block of CP/M of eight sectors.

const printed = (bytes, others) => Array.from(bytes, (byte) => {
  const isPlain = byte >= 0x20 && byte <= 0x7e && !others.includes(byte);
  return isPlain ? String.fromCharCode(byte) : `%${byte.toString(16).toUpperCase().padStart(2, "0")}`;
}).join("");

const trimmed = (bytes, pad) => bytes.subarray(0, bytes.findLastIndex((byte) => byte !== pad) + 1);

// Each unit that is claimed, as often as it is.
const byUnit = (units) => Map.groupBy(units, (unit) => unit);
const faultsOf = (holds) => Object.keys(holds).filter((word) => holds[word]);

// Disks of the 1541: how many sectors each track has, and the number of the first.
const SECTORS = Array.from({ length: 35 }, (_, at) => (at < 17 ? 21 : at < 24 ? 19 : at < 30 ? 18 : 17));
const FIRST = SECTORS.map((_, at) => SECTORS.slice(0, at).reduce((sum, count) => sum + count, 0));
const TYPES = ["DEL", "SEQ", "PRG", "USR", "REL"];
// Where an entry has the first blocks of its chains; a type that is not here has none.
const [STARTS, BLOCKS] = [{ SEQ: [3], PRG: [3], USR: [3], REL: [3, 21] }, 683];

const blockAt = (track, sector) => (sector < (SECTORS[track - 1] ?? 0) ? FIRST[track - 1] + sector : -1);

// All blocks from one on along the links, and how they end.
function chain(bytes, start) {
  const blocks = new Set();
  for (let block = start; ; block = blockAt(bytes[256 * block], bytes[256 * block + 1])) {
    if (block < 0 || blocks.has(block)) return { blocks: [...blocks], end: block < 0 ? "off" : "loop" };
    blocks.add(block);
    if (bytes[256 * block] === 0) return { blocks: [...blocks], end: "end" };
  }
}

function cbmFile(bytes, entry, slot) {
  const [type, isClosed] = [TYPES[entry[2] & 15] ?? "OTHER", entry[2] >= 128];
  const chains = ((isClosed && STARTS[type]) || []).map((at) => chain(bytes, blockAt(entry[at], entry[at + 1])));
  const [ends, units] = [chains.map(({ end }) => end), chains.flatMap(({ blocks }) => blocks)];
  return { slot, user: null, name: printed(trimmed(entry.subarray(5, 21), 0xa0), [0x25]), type, isClosed, ends, units };
}

function cbmDisk(bytes) {
  const directory = chain(bytes, blockAt(18, 1)).blocks;
  const places = directory.flatMap((block) => Array.from({ length: 8 }, (_, at) => 256 * block + 32 * at));
  const entries = places.map((place) => bytes.subarray(place, place + 32));
  const files = entries.flatMap((entry, slot) => (entry[2] === 0 ? [] : [cbmFile(bytes, entry, slot)]));
  const system = new Set([blockAt(18, 0), ...directory]);
  const taken = byUnit([...system, ...files.flatMap(({ units }) => units)]);
  const isBad = (block) => bytes[256 * BLOCKS + block] > 1;
  for (const file of files) {
    file.faults = faultsOf({
      "not-closed": !file.isClosed, "off-disk": file.ends.includes("off"), loop: file.ends.includes("loop"),
      crossed: file.units.some((unit) => taken.get(unit).length > 1), "read-error": file.units.some(isBad),
    });
    file.isServed = file.faults.length === 0 && ["SEQ", "PRG", "USR"].includes(file.type);
  }
  return { tracks: SECTORS, unitAt: (track, sector) => FIRST[track] + sector, files, taken, system, isBad };
}

// Disks of CP/M: the sector of a track at which each logical one lies.
const SKEW = [1, 7, 13, 19, 25, 5, 11, 17, 23, 3, 9, 15, 21, 2, 8, 14, 20, 26, 6, 12, 18, 24, 4, 10, 16, 22];

const extentOf = (entry) => 32 * (entry[14] & 63) + (entry[12] & 31);

function cpmFile([slot, user, name, entries]) {
  entries.sort((one, other) => extentOf(one) - extentOf(other));
  const words = (part) => printed(trimmed(part, 0x20), [0x25, 0x2e]);
  const [stem, type] = [words(name.subarray(0, 8)), words(name.subarray(8))];
  const units = entries.flatMap((entry) => Array.from(entry.subarray(16)).filter(Boolean));
  return { slot, user, name: type ? `${stem}.${type}` : stem, type, entries, units };
}

function cpmDisk(bytes) {
  const byName = new Map();
  for (let slot = 0; slot < 64; slot += 1) {
    const place = 128 * (26 * 2 + SKEW[slot >> 2] - 1) + 32 * (slot & 3);
    const entry = bytes.subarray(place, place + 32);
    if (entry[0] > 15) continue;
    const name = entry.slice(1, 12).map((byte) => byte & 127);
    const key = [entry[0], ...name].join();
    if (!byName.has(key)) byName.set(key, [slot, entry[0], name, []]);
    byName.get(key)[3].push(entry);
  }
  const files = Array.from(byName.values(), cpmFile);
  const taken = byUnit(files.flatMap(({ units }) => units));
  for (const file of files) {
    const { entries, units } = file;
    const extents = entries.map(extentOf);
    file.faults = faultsOf({
      "bad-count": entries.some((entry) => entry[15] > 128), duplicate: new Set(extents).size < extents.length,
      gap: extents.some((one) => one && !extents.includes(one - 1)),
      short: entries.some((entry, at) => entry[15] < 128 && extents[at] < extents.at(-1)),
      hole: entries.some((entry) => entry.subarray(16, 16 + Math.ceil(entry[15] / 8)).includes(0)),
      "off-disk": units.some((unit) => unit > 242),
      crossed: units.some((unit) => unit === 1 || taken.get(unit).length > 1),
    });
    file.isServed = file.faults.length === 0;
    // an entry would keep the bytes of the whole dump
    delete file.entries;
  }
  const unitAt = (track, sector) => (track < 2 ? -1 : (26 * (track - 2) + SKEW.indexOf(sector + 1)) >> 3);
  return { tracks: Array(77).fill(26), unitAt, files, taken, system: new Set([-1, 0, 1]), isBad: () => false };
}

export const readDump = (kind, bytes) => (kind === "cpm8" ? cpmDisk : cbmDisk)(bytes);
