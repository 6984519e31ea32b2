// Titles and notes that the museum gives its disks, in tables beside the pages: `accession,title,note`.
import { recordsOf } from "./csv.js";
import { box, element } from "./shared.js";

const [COLUMNS, titles] = ["accession,title,note", new Map()];

// Reads tables, of which a later one goes before an earlier one. A table that is not there, or is none, has no titles.
export async function readTitles(paths) {
  for (const text of await Promise.all(paths.map(textOfOwn))) {
    const [heads, ...records] = recordsOf(text) ?? [];
    if (heads?.join() !== COLUMNS) continue;
    for (const [accession, title = "", note = ""] of records) {
      if (/^[1-9][0-9]{0,5}$/.test(accession)) titles.set(Number(accession), { title, note });
    }
  }
}

// The text of a file that the museum may have put beside the pages.
export async function textOfOwn(path) {
  const reply = await fetch(path, { cache: "no-store", credentials: "omit", redirect: "error" }).catch(() => null);
  return reply?.ok ? reply.text().catch(() => "") : "";
}

export const titleOf = (accession) => titles.get(accession)?.title ?? "";
export const noteOf = (accession) => titles.get(accession)?.note ?? "";

// Whether the title or the note of a disk has some words, which are in small letters.
export const isTitled = (accession, words) =>
  titles.has(accession) && `${titleOf(accession)}\n${noteOf(accession)}`.toLowerCase().includes(words);

// Something that stands for a disk, with its title below where it has one.
export function withTitle(shown, accession) {
  return box("div", "", shown, titleOf(accession) && element("span", titleOf(accession), { className: "title" }));
}
