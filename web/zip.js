// A zip of files as they are, without compression, with the day and the hour of this computer's clock.

const TABLE = Uint32Array.from({ length: 256 }, (_, start) => {
  let value = start;
  for (let bit = 0; bit < 8; bit += 1) value = value & 1 ? (value >>> 1) ^ 0xedb88320 : value >>> 1;
  return value;
});

// The check sum that a zip keeps of a file.
export function crcOf(bytes) {
  let value = 0xffffffff;
  for (const byte of bytes) value = (value >>> 8) ^ TABLE[(value ^ byte) & 0xff];
  return (value ^ 0xffffffff) >>> 0;
}

const VERSION = 20;

// A moment as a zip has it: the time, in steps of two seconds, and the day, from 1980 on.
function stampOf(moment) {
  const time = (moment.getHours() << 11) | (moment.getMinutes() << 5) | (moment.getSeconds() >> 1);
  return [time, ((moment.getFullYear() - 1980) << 9) | ((moment.getMonth() + 1) << 5) | moment.getDate()];
}

// Numbers as a zip has them: of two or four bytes each, the low byte first.
const bytesOf = ([size, value]) => Array.from({ length: size }, (_, at) => (value >>> (8 * at)) & 0xff);
const numbers = (...pairs) => Uint8Array.from(pairs.flatMap(bytesOf));

// What stands of a file both before its bytes and in the directory.
function fields({ name, bytes, crc, stamp: [time, day] }) {
  const sizes = [[4, bytes.length], [4, bytes.length], [2, name.length], [2, 0]];
  return [[2, VERSION], [2, 0], [2, 0], [2, time], [2, day], [4, crc], ...sizes];
}

// The parts of a zip of files, each a name in ASCII and its bytes.
export function zipParts(files) {
  const [parts, directory, stamp] = [[], [], stampOf(new Date())];
  let place = 0;
  for (const { name, bytes } of files) {
    const file = { name: new TextEncoder().encode(name), bytes, crc: crcOf(bytes), stamp };
    const head = numbers([4, 0x04034b50], ...fields(file));
    parts.push(head, file.name, bytes);
    const more = [[2, 0], [2, 0], [2, 0], [4, 0], [4, place]];
    directory.push(numbers([4, 0x02014b50], [2, VERSION], ...fields(file), ...more), file.name);
    place += head.length + file.name.length + bytes.length;
  }
  const [size, count] = [directory.reduce((length, part) => length + part.length, 0), files.length];
  const end = numbers([4, 0x06054b50], [2, 0], [2, 0], [2, count], [2, count], [4, size], [4, place], [2, 0]);
  return [...parts, ...directory, end];
}
