// Listings of BASIC programs as a 1541 disk keeps them, by the public table of the tokens of BASIC V2.
import { petsciiSign } from "./names.js";

const [FIRST_TOKEN, PI, QUOTE] = [0x80, 0xff, 0x22];
const TOKENS = (
  "END FOR NEXT DATA INPUT# INPUT DIM READ LET GOTO RUN IF RESTORE GOSUB RETURN REM STOP ON WAIT LOAD SAVE VERIFY " +
  "DEF POKE PRINT# PRINT CONT LIST CLR CMD SYS OPEN CLOSE GET NEW TAB( TO FN SPC( THEN NOT STEP + - * / \u2191 AND " +
  "OR > = < SGN INT ABS USR FRE POS SQR RND LOG EXP COS SIN TAN ATN PEEK LEN STR$ VAL ASC CHR$ LEFT$ RIGHT$ MID$ GO"
).split(" ");

// A pattern for the words of a listing, the longest first.
const escaped = (word) => word.replace(/[$()*+/^<>=-]/g, "\\$&");
export const BASIC_WORDS = TOKENS.filter((word) => /[A-Z]/.test(word)).sort((one, other) => other.length - one.length)
  .map(escaped).join("|");

// Codes that show no sign and do something: their names.
export const CONTROLS = {
  0x05: "white", 0x08: "lock", 0x09: "unlock", 0x0d: "return", 0x0e: "lower case", 0x11: "down", 0x12: "reverse on",
  0x13: "home", 0x14: "delete", 0x1c: "red", 0x1d: "right", 0x1e: "green", 0x1f: "blue", 0x81: "orange", 0x85: "f1",
  0x86: "f3", 0x87: "f5", 0x88: "f7", 0x89: "f2", 0x8a: "f4", 0x8b: "f6", 0x8c: "f8", 0x8d: "shift return",
  0x8e: "upper case", 0x90: "black", 0x91: "up", 0x92: "reverse off", 0x93: "clear", 0x94: "insert", 0x95: "brown",
  0x96: "light red", 0x97: "dark grey", 0x98: "grey", 0x99: "light green", 0x9a: "light blue", 0x9b: "light grey",
  0x9c: "purple", 0x9d: "left", 0x9e: "yellow", 0x9f: "cyan",
};

const named = (code) => `{${CONTROLS[code] ?? `$${code.toString(16).toUpperCase().padStart(2, "0")}`}}`;

// A line without its number: outside quotes a code from 80 hex on is a word.
function lineText(codes, isSmall) {
  let isQuoted = false;
  const parts = Array.from(codes, (code) => {
    if (code === QUOTE) isQuoted = !isQuoted;
    const word = TOKENS[code - FIRST_TOKEN];
    if (!isQuoted && code !== PI && word !== undefined) return isSmall ? word.toLowerCase() : word;
    return petsciiSign(code, isSmall) ?? named(code);
  });
  return parts.join("");
}

// The lines of a program: number and codes. Null where the bytes are none: a load address, then lines, each with the
// address of the next one, a number above the last one's and a zero at its end, and two zeros behind them.
function linesOf(bytes) {
  const word = (at) => bytes[at] + 256 * bytes[at + 1];
  const lines = [];
  let at = 2;
  while (at + 1 < bytes.length && word(at) !== 0) {
    const [end, number] = [bytes.indexOf(0, at + 4), word(at + 2)];
    if (end < 0 || number > 63999 || (lines.length && number <= lines.at(-1).number)) return null;
    if (word(at) - word(0) !== end + 1 - 2) return null;
    lines.push({ number, codes: bytes.subarray(at + 4, end) });
    at = end + 1;
  }
  return at + 1 < bytes.length && lines.length ? { lines, rest: bytes.length - at - 2 } : null;
}

// The listing of a program, and how many bytes come after it; null where the bytes are none.
export function basicListing(bytes, isSmall) {
  const program = linesOf(bytes);
  if (program === null) return null;
  const lines = program.lines.map(({ number, codes }) => `${number} ${lineText(codes, isSmall)}`);
  return { text: `${lines.join("\n")}\n`, rest: program.rest };
}
