// The map of a dump: each sector where it is on the disk, the first track outermost; the chosen file, and faults.
import { readDump } from "./dump.js";
import { shownName } from "./names.js";
import { box, button, counted, element, explained } from "./shared.js";

const [OUTER, INNER] = [100, 25];
const WORDS = { chosen: "chosen file", used: "other files", system: "directory", fault: "faults", free: "free" };

function svg(name, fields, ...inside) {
  const made = document.createElementNS("http://www.w3.org/2000/svg", name);
  for (const [field, value] of Object.entries(fields)) made.setAttribute(field, value);
  made.append(...inside);
  return made;
}

// The outline of a sector: a part of the ring of its track.
function outline(track, tracks, sector) {
  const width = (OUTER - INNER) / tracks.length;
  const [far, near] = [OUTER - track * width, OUTER - (track + 0.85) * width];
  const [from, to] = [sector + 0.05, sector + 0.95].map((at) => (2 * Math.PI * at) / tracks[track]);
  const point = (radius, angle) => `${(radius * Math.sin(angle)).toFixed(2)} ${(-radius * Math.cos(angle)).toFixed(2)}`;
  const arc = (radius, angle, turn) => `A${radius} ${radius} 0 0 ${turn} ${point(radius, angle)}`;
  return `M${point(far, from)}${arc(far, to, 1)}L${point(near, to)}${arc(near, from, 0)}Z`;
}

// The units at which a file has a fault: that the drive could not read, that something else has too, or the last one.
function faultyUnits({ faults, units }, { taken, isBad }) {
  const found = units.filter((unit) => isBad(unit) || taken.get(unit).length > 1);
  return faults.length && found.length === 0 ? units.slice(-1) : found;
}

function sectorsOf(disk) {
  const faulty = new Set(disk.files.flatMap((file) => faultyUnits(file, disk)));
  const kindOf = (unit) => {
    if (disk.isBad(unit) || faulty.has(unit)) return "fault";
    return (disk.system.has(unit) && "system") || (disk.taken.has(unit) && "used") || "free";
  };
  const sector = (track, at) => {
    const unit = disk.unitAt(track, at);
    return { unit, path: svg("path", { d: outline(track, disk.tracks, at), class: kindOf(unit) }) };
  };
  return disk.tracks.flatMap((count, track) => Array.from({ length: count }, (_, at) => sector(track, at)));
}

export function diskMap(kind, bytes) {
  const disk = readDump(kind, bytes);
  const [cells, damaged] = [sectorsOf(disk), disk.files.filter(({ faults }) => faults.length).length];
  const summary = `${counted(disk.files.length, "file")}, ${damaged || "none"} of them damaged.`;
  const says = element("figcaption", summary, { role: "status" });
  const faultWords = ({ faults }) => faults.map(explained).join("; ") || "No fault";
  const blocks = ({ units }) => counted(new Set(units).size, "block");
  const choose = (file, pressed) => {
    const isOff = pressed.getAttribute("aria-pressed") === "true";
    for (const one of buttons) one.setAttribute("aria-pressed", String(one === pressed && !isOff));
    for (const { unit, path } of cells) path.classList.toggle("chosen", !isOff && file.units.includes(unit));
    says.textContent = isOff ? summary : `${shownName(kind, file.name)}: ${blocks(file)}. ${faultWords(file)}.`;
  };
  const buttons = disk.files.map((file) => {
    const words = `${shownName(kind, file.name)} ${file.type}${file.faults.length ? ", damaged" : ""}`;
    return button(words, ({ currentTarget }) => choose(file, currentTarget), { ariaPressed: "false" });
  });
  const fields = { class: "map", viewBox: "-100 -100 200 200", role: "img", "aria-label": "Map of the disk's sectors" };
  const legend = Object.entries(WORDS).map(([name, words]) => element("span", words, { className: `key ${name}` }));
  const drawn = svg("svg", fields, ...cells.map(({ path }) => path));
  return box("figure", "disk-map", drawn, box("p", "choices", ...legend), says, box("div", "choices", ...buttons));
}
