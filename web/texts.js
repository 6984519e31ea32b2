// The bytes of files as texts: of CP/M and its WordStar, of the 1541, and in hexadecimal digits.
import { CONTROLS } from "./basic.js";
import { petsciiSign } from "./names.js";

const END = 0x1a;

// The bytes of a CP/M file up to the ^Z that ends a text. What follows it is the rest of its record at most, or ^Z and
// zeros alone; null where it is other bytes, or where there is nothing before it.
function beforeEnd(bytes) {
  const found = bytes.indexOf(END);
  const [end, isRest] = [found < 0 ? bytes.length : found, (byte) => byte === END || byte === 0];
  if (end === 0 || (bytes.length - end > 128 && !bytes.subarray(end).every(isRest))) return null;
  return bytes.subarray(0, end);
}

const isText = (byte) => (byte >= 0x20 && byte <= 0x7e) || [0x09, 0x0a, 0x0c, 0x0d].includes(byte);
const ascii = (bytes) => Array.from(bytes, (byte) => String.fromCharCode(byte)).join("").replace(/\r\n|\r/g, "\n");

// A CP/M text: lines end with CR LF, and a ^Z ends it. A byte before it that is no text makes it none.
export function cpmText(bytes) {
  const text = beforeEnd(bytes);
  return text?.every(isText) ? ascii(text) : null;
}

// The codes with which WordStar marks print, such as bold and underlined, and its soft hyphen.
const MARKS = [1, 2, 4, 5, 6, 7, 8, 14, 15, 16, 17, 18, 19, 20, 22, 23, 24, 25, 30, 31];

// A text of WordStar: last letters of words, ends of soft lines and the blanks that fill these have their highest bit
// set. It is one without that bit and the marks for print, whose soft lines are joined; null where it has no such bit.
export function wordStarText(bytes) {
  const text = beforeEnd(bytes);
  if (text === null || !text.some((byte) => byte >= 0x80)) return null;
  const codes = Array.from(text, (byte) => String.fromCharCode(byte)).join("");
  const whole = codes.replace(/[\x1e\x1f]\x8d[\n\x8a]?[ \xa0]*/g, "");
  const joined = whole.replace(/[ \xa0]*(\x8d[\n\x8a]?[ \xa0]*)+/g, " ").replace(/(?<=\S[ \xa0])\xa0+/g, "");
  const plain = Uint8Array.from(joined, (sign) => sign.charCodeAt(0) & 0x7f).filter((byte) => !MARKS.includes(byte));
  return plain.length && plain.every(isText) ? ascii(plain) : null;
}

const [LINE_ENDS, [SMALL, CAPITAL]] = [[0x0d, 0x8d], [0x0e, 0x8e]];

// A text of the 1541: lines end with CR, 0D hex, or with a shifted one, 8D hex. Letters are those of the set with small
// letters where the text has a shifted one, and else those of the set with which the machine starts.
export function cbmText(bytes, isSmall = isInSmall(bytes)) {
  const letters = Array.from(bytes, (byte) => petscii(byte, isSmall));
  return bytes.length === 0 || letters.includes(null) ? null : letters.join("");
}

export const isInSmall = (bytes) => bytes.some((byte) => byte >= 0xc1 && byte <= 0xda);

function petscii(byte, isSmall) {
  if (LINE_ENDS.includes(byte)) return "\n";
  if (byte === 0xa0) return " ";
  const isLetter = byte >= 0xc1 && byte <= 0xda;
  return isLetter || (byte >= 0x20 && byte <= 0x5f) ? petsciiSign(byte, isSmall) : null;
}

// A text of the 1541 with its block characters. Codes for colours, the cursor and the like are left out, those that
// change the set of letters do so. Null where a code is none of these.
export function petsciiText(bytes, isSmall) {
  let isSmallNow = isSmall;
  const signs = Array.from(bytes, (byte) => {
    if (LINE_ENDS.includes(byte)) return "\n";
    if (byte === SMALL || byte === CAPITAL) isSmallNow = byte === SMALL;
    return petsciiSign(byte, isSmallNow) ?? (Object.hasOwn(CONTROLS, byte) ? "" : null);
  });
  return bytes.length === 0 || signs.includes(null) ? null : signs.join("");
}

function hexLine(bytes, at, width) {
  const line = bytes.subarray(at, at + width);
  const digits = Array.from(line, (byte) => byte.toString(16).toUpperCase().padStart(2, "0")).join(" ");
  const shown = Array.from(line, (byte) => (byte >= 0x20 && byte <= 0x7e ? String.fromCharCode(byte) : ".")).join("");
  return `${at.toString(16).toUpperCase().padStart(6, "0")}  ${digits.padEnd(3 * width - 1)}  ${shown}`;
}

// Bytes in lines: the place of the first, hexadecimal digits, and ASCII.
export function hexText(bytes, width = 16) {
  const count = Math.ceil(bytes.length / width);
  return Array.from({ length: count }, (_, line) => hexLine(bytes, width * line, width)).join("\n");
}
