// Pictures as programs of the C64 keep them, told by load address and length: Koala, Doodle, Art Studio, plain bitmaps;
// and sets of signs. A picture is its width, its height and the ink of each dot, a number from 0 on.
export function picture(width, height, ground = 0) {
  const inks = new Uint8Array(width * height).fill(ground);
  const fill = (left, top, wide, high, ink) => {
    for (let y = top; y < top + high; y += 1) inks.fill(ink, y * width + left, y * width + left + wide);
  };
  return { width, height, inks, fill };
}

const KOALA = "a Koala picture (drawn with KoalaPainter on a C64)";
// Where each part begins behind the load address: the bits of the dots, the colours of each cell, and the ground's.
const FORMATS = [
  { words: KOALA, at: 0x6000, sizes: [10001, 10002, 10006], screen: 8000, colours: 9000, ground: 10000 },
  { words: "an Advanced Art Studio picture", at: 0x2000, sizes: [10016], screen: 8000, colours: 9016, ground: 9001 },
  { words: "a Doodle picture", at: 0x5c00, sizes: [9024, 9216], bitmap: 1024, screen: 0 },
  { words: "an Art Studio picture", at: 0x2000, sizes: [9000, 9001, 9007, 9009], screen: 8000 },
  { words: "a plain bitmap", at: 0x2000, sizes: [8000, 8192] },
];
// The lengths of files that are likely pictures, with the two bytes of the load address.
export const SIZES = new Set(FORMATS.flatMap(({ sizes }) => sizes.map((size) => size + 2)));

// The dots of a bitmap: four colours to a cell of four by eight wide dots, or two to one of eight by eight.
function bitmapOf(bytes, { bitmap = 0, screen, colours, ground }) {
  const made = picture(320, 200);
  for (let at = 0; at < made.inks.length; at += 1) {
    const [x, y] = [at % 320, Math.floor(at / 320)];
    const cell = 40 * (y >> 3) + (x >> 3);
    const row = bytes[bitmap + 8 * cell + (y & 7)];
    const pair = screen === undefined ? 0x10 : bytes[screen + cell];
    const inks = colours === undefined ? [pair, pair >> 4] : [bytes[ground], pair >> 4, pair, bytes[colours + cell]];
    const which = colours === undefined ? (row >> (7 - (x & 7))) & 1 : (row >> (6 - (x & 6))) & 3;
    made.inks[at] = inks[which] & 15;
  }
  return made;
}

// Signs of eight bytes, 32 side by side, white on blue.
function signsOf(bytes) {
  const made = picture(32 * 12 + 4, Math.ceil(bytes.length / (8 * 32)) * 12 + 4);
  for (let at = 0; at < bytes.length; at += 1) {
    const [sign, row] = [at >> 3, at & 7];
    const [left, top] = [4 + (sign % 32) * 12, 4 + Math.floor(sign / 32) * 12 + row];
    for (let dot = 0; dot < 8; dot += 1) made.fill(left + dot, top, 1, 1, (bytes[at] >> (7 - dot)) & 1 ? 1 : 6);
  }
  return made;
}

// The picture in a file of the 1541: words for it, what makes its dots, and whether it is surely one; null for none.
export function pictureIn(bytes) {
  const [at, data] = [bytes[0] + 256 * bytes[1], bytes.subarray(2)];
  const format = FORMATS.find((one) => one.at === at && one.sizes.includes(data.length));
  if (format) return { words: format.words, make: () => bitmapOf(data, format), isSure: true };
  const isSet = at % 2048 === 0 && [1024, 2048, 4096].includes(data.length);
  return isSet ? { words: "a set of signs", make: () => signsOf(data), isSure: false } : null;
}
