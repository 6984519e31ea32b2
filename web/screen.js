// Screens of the machines of the disks, dot by dot: a directory as a C64 or CP/M lists it, and texts in their colours.
import { codesOf, hasShifted, shownName } from "./names.js";
import { picture } from "./pictures.js";
import { mayRead } from "./room.lists.js";
import { element, listOf } from "./shared.js";
import { SIGNS, asciiPlace, petsciiPlace } from "./signs.js";

// The colours of the C64; then a terminal's: its glass, bright and dim letters, each with the line between two rows.
const INKS = (
  "000000 ffffff 813338 75cec8 8e3c97 56ac4d 2e2c9b edf171 8e5029 553800 c46c71 4a4a4a 7b7b7b a9ff9f 706deb b2b2b2 " +
  "07150d 6dffa0 3fae6c 3d8f5f 24603e"
).split(" ");
const [BLUE, GREY, LIGHT_BLUE, GLASS, BRIGHT, DIM] = [6, 12, 14, 16, 17, 19];
// A pixel of a canvas holds blue, green and red in this order, from its high bits on.
const PIXELS = Uint32Array.from(INKS, (rgb) => Number.parseInt(`ff${rgb.replace(/(..)(..)(..)/, "$3$2$1")}`, 16));

// A canvas with a picture, of which each dot is enlarged so often; one of a television is a little higher than wide.
export function canvasOf({ width, height, inks, isTall }, times = 4) {
  const made = (wide, high) => element("canvas", null, { width: wide, height: high, className: "screen" });
  const [wide, high] = [times * width, Math.round((isTall || times === 1 ? 1 : 1.125) * times * height)];
  const [plain, large] = [made(width, height), made(wide, high)];
  const pixels = Uint32Array.from(inks, (ink) => PIXELS[ink]);
  plain.getContext("2d").putImageData(new ImageData(new Uint8ClampedArray(pixels.buffer), width, height), 0, 0);
  const context = large.getContext("2d");
  context.imageSmoothingEnabled = false;
  context.drawImage(plain, 0, 0, wide, high);
  return large;
}

// Lines of cells, each the place of a sign, its ink and whether it is reversed, on a screen with a border. A line of a
// terminal is twice as high, and its ink's darker one is below each row of dots.
function written(lines, { columns, rows, margin, border, ground, tall = 1, gap = 0 }) {
  const width = 8 * columns + 2 * margin;
  const made = picture(width, (8 + gap) * tall * rows + 2 * margin, border);
  made.fill(margin, margin, 8 * columns, (8 + gap) * tall * rows, ground);
  lines.slice(0, rows).forEach((line, y) => {
    line.slice(0, columns).forEach(({ sign, ink, isReverse }, x) => {
      for (let dot = 0; dot < 64; dot += 1) {
        const isSet = (SIGNS[8 * sign + (dot >> 3)] >> (7 - (dot & 7))) & 1;
        if (isSet === Number(isReverse)) continue;
        const at = (margin + tall * ((8 + gap) * y + (dot >> 3))) * width + margin + 8 * x + (dot & 7);
        made.inks[at] = ink;
        if (tall > 1) made.inks[at + width] = ink + 1;
      }
    });
  });
  return { ...made, isTall: tall > 1 };
}

export const blocksOf = (size) => Math.ceil(size / 254);

// In quotes, a code that does something shows as a reversed sign.
const isControl = (code) => (code & 0x7f) < 0x20;
const shownCode = (code) => (code < 0x20 ? code + 0x40 : isControl(code) ? code - 0x20 : code);
const inQuotes = (codes, ink, isSmall) =>
  codes.map((code) => ({ sign: petsciiPlace(shownCode(code), isSmall), ink, isReverse: isControl(code) }));
const typed = (text, ink, isReverse = false) =>
  Array.from(text, (sign) => ({ sign: asciiPlace(sign.charCodeAt(0)), ink, isReverse }));

// How many columns and rows a screen has: that of the machine, or one for a list of disks.
const SIZES = { whole: { columns: 40, rows: 25, margin: 16 }, small: { columns: 30, rows: 16, margin: 8, gap: 1 } };

function c64(lines, { rows, ...size } = SIZES.whole) {
  return written(lines, { ...size, rows: Math.max(rows, lines.length), border: LIGHT_BLUE, ground: BLUE });
}

// What LOAD"$",8 and LIST show: of each file its blocks, its name and its type; where a name has a shifted letter, all
// in the set with small ones. The head has the number of the disk, since the desk gives readers no label.
function c64Directory({ accession, files }, isSmall) {
  const names = files.map((file) => codesOf(file.name).slice(0, 16));
  const inSmall = names.some(hasShifted);
  const said = (text, ...more) => typed(inSmall ? text.toLowerCase() : text, ...more);
  const rows = files.map((file, at) => {
    const [ink, name] = [mayRead(file) ? LIGHT_BLUE : GREY, names[at]];
    const front = (file.size === null ? "" : String(blocksOf(file.size))).padEnd(5);
    const isOpen = listOf(file.faults).includes("not-closed");
    const end = `"${" ".repeat(16 - name.length)}${isOpen ? "*" : " "}${file.type}`;
    return [...said(`${front}"`, ink), ...inQuotes(name, ink, inSmall), ...said(end, ink)];
  });
  const label = said(`"${`DISK ${accession}`.padEnd(16)}" MU 2A`, LIGHT_BLUE, true);
  const before = ["", 'LOAD"$",8', "", "SEARCHING FOR $", "LOADING", "READY.", "LIST", ""];
  const head = (isSmall ? [""] : before).map((text) => said(text, LIGHT_BLUE));
  const cursor = [said("READY.", LIGHT_BLUE), said(" ", LIGHT_BLUE, true)];
  const lines = [...head, [...said("0 ", LIGHT_BLUE), ...label], ...rows, ...cursor];
  return isSmall ? c64(lines.slice(0, SIZES.small.rows), SIZES.small) : c64(lines);
}

// What DIR of CP/M prints: four files to a line, of one user after the other.
function cpmDirectory({ files }, isSmall) {
  const lines = [];
  for (const user of [...new Set(files.map((file) => file.user ?? 0))].sort((one, other) => one - other)) {
    if (user) lines.push(typed(`A>USER ${user}`, BRIGHT));
    lines.push(typed("A>DIR", BRIGHT));
    const [mine, across] = [files.filter((file) => (file.user ?? 0) === user), isSmall ? 2 : 4];
    for (let at = 0; at < mine.length; at += across) {
      lines.push(mine.slice(at, at + across).flatMap((file, place) => {
        const [name] = shownName("cpm8", file.name).split(/\.(?=[^.]*$)/);
        const words = `${name.padEnd(8)} ${file.type.padEnd(3)}`;
        return [...typed(place ? " : " : "A: ", BRIGHT), ...typed(words, mayRead(file) ? BRIGHT : DIM)];
      }));
    }
  }
  lines.push([...typed("A>", BRIGHT), ...typed(" ", BRIGHT, true)]);
  const size = isSmall ? { ...SIZES.small, rows: 8 } : { columns: 60, rows: Math.max(20, lines.length), margin: 12 };
  return written(lines, { ...size, border: GLASS, ground: GLASS, tall: 2 });
}

// The directory of a disk as its own machine shows it; for a list of disks a part of it.
export const directoryScreen = (disk, isSmall = false, times = isSmall ? 1 : 4) =>
  canvasOf((disk.kind === "cpm8" ? cpmDirectory : c64Directory)(disk, isSmall), times);

const INK_CODES = {
  0x05: 1, 0x1c: 2, 0x1e: 5, 0x1f: 6, 0x81: 8, 0x90: 0, 0x95: 9, 0x96: 10, 0x97: 11, 0x98: 12, 0x99: 13, 0x9a: 14,
  0x9b: 15, 0x9c: 4, 0x9e: 7, 0x9f: 3,
};
const MOVES = { 0x11: [0, 1], 0x91: [0, -1], 0x1d: [1, 0], 0x9d: [-1, 0] };
const [HOME, CLEAR, REVERSE, PLAIN, SMALL, CAPITAL, RETURN, SHIFT_RETURN] = [19, 147, 18, 146, 14, 142, 13, 141];
const MOST_LINES = 400;

// The screen that a text of the 1541's machines makes of its colours and moves of the cursor; null where it has none.
export function textScreen(bytes) {
  const acts = (code) => INK_CODES[code] !== undefined || MOVES[code] || code === CLEAR || code === REVERSE;
  if (!bytes.some(acts)) return null;
  const lines = [[]];
  let [x, y, ink, isReverse] = [0, 0, LIGHT_BLUE, false];
  let isSmall = bytes.includes(SMALL) && hasShifted(Array.from(bytes));
  for (const code of bytes) {
    if (code === RETURN || code === SHIFT_RETURN) [x, y, isReverse] = [0, y + 1, false];
    else if (code === CLEAR) [lines.length, x, y] = [0, 0, 0];
    else if (code === HOME) [x, y] = [0, 0];
    else if (code === REVERSE || code === PLAIN) isReverse = code === REVERSE;
    else if (code === SMALL || code === CAPITAL) isSmall = code === SMALL;
    else if (INK_CODES[code] !== undefined) ink = INK_CODES[code];
    else if (MOVES[code]) [x, y] = [Math.max(0, x + MOVES[code][0]), Math.max(0, y + MOVES[code][1])];
    else if (!isControl(code)) {
      if (x > 39) [x, y] = [0, y + 1];
      if (y >= MOST_LINES) break;
      for (lines[y] ??= []; lines[y].length < x; ) lines[y].push({ sign: 0, ink, isReverse: false });
      lines[y][x] = { sign: petsciiPlace(code, isSmall), ink, isReverse };
      x += 1;
    }
  }
  return c64(Array.from(lines, (line) => line ?? []));
}
