// One disk: its title, what may be read of it, and its directory as its own machine shows it.
import { UNTOLD, closedNow, closedWords, deedWords, rulesOf } from "./room.closed.js";
import { allDisks, familyOf, known, lastShown, listingOf, mayRead, nameOfDisk, nameOfFile } from "./room.lists.js";
import { typeWords } from "./room.lists.js";
import { askAbout, citation, inSight, link, neighbours, numberOf, permission, quoting } from "./room.parts.js";
import { directoryScreen } from "./screen.js";
import { box, button, cell, counted, element, kindWords, loaded, refusal, row, table } from "./shared.js";
import { noteOf } from "./titles.js";

function fileRow(kind, accession, file, hasUsers) {
  const [name, { word, colour, why }] = [nameOfFile(kind, file), permission(kind, file)];
  const way = (words, more) => link(words, `${accession}/${file.slot}`, more);
  const may = box("span", "", way(word, { ariaLabel: `${word}: ${name}`, tabIndex: -1, className: `badge ${colour}` }));
  if (why) may.append(" ", element("small", why));
  const type = box("span", "", file.type, " ", element("small", typeWords(kind, file)));
  const bytes = cell("Bytes", file.size === null ? "" : file.size.toLocaleString("en"), "number");
  const [user, said] = [hasUsers ? [cell("User", `user ${file.user}`)] : [], cell("You may", may, "may")];
  return row([cell("Name", way(name), "name"), cell("Type", type, "type"), bytes, ...user, said]);
}

// A button that makes the zip, with how far it is and a button that stops it.
function zipWay({ accession, kind, files, quotes }) {
  const readable = files.filter(mayRead);
  const stop = element("button", "Stop", { id: "stop-zip", type: "button", hidden: true });
  const says = element("div", null, { id: "zip-says", role: "status" });
  const save = async () => {
    const module = await loaded(import("./room.zip.js")).catch((fault) => says.replaceChildren(refusal(fault)));
    module?.saveZip({ accession, kind, start, stop, says });
  };
  const words = `Download ${counted(readable.length, "file")} as a zip`;
  const start = button(words, save, { id: "zip", className: "primary" });
  return [box("div", "cluster", ...(readable.length ? [start, stop] : []), ...quotes.buttons), says, quotes.says];
}

// The directory on the screen of the machine: a picture, of which the table is the text.
function machine(disk) {
  const [isCpm, screen] = [disk.kind === "cpm8", directoryScreen(disk)];
  const words = `The directory as ${isCpm ? "CP/M shows it on a terminal" : "a C64 lists files"}`;
  Object.assign(screen, { role: "img", ariaLabel: `${words}: the same files as in the table` });
  screen.setAttribute("aria-details", "files");
  const dim = disk.files.every(mayRead) ? "" : " What you may not read is dim.";
  const caption = element("figcaption", `${words}, with the files of the table.${dim}`, { className: "quiet" });
  const figure = box("figure", "", box("div", `monitor ${familyOf(disk.kind)}`, screen), caption);
  return Object.assign(figure, { ariaLabel: words });
}

async function otherDisks(accession) {
  const isIt = (disk) => disk.accession === accession;
  const disks = lastShown().some(isIt) ? lastShown() : known(await allDisks().catch(() => []));
  const at = disks.findIndex(isIt);
  const wayTo = (disk) => ({ words: nameOfDisk(disk.accession), place: disk.accession });
  return at < 0 ? null : neighbours("disk", disks, at, wayTo);
}

export async function showDisk(number, signal) {
  const accession = Number(number);
  const [{ kind, deed, files }, title] = [await listingOf(accession), nameOfDisk(accession)];
  const sight = inSight(files.length, files.filter(mayRead).length);
  const hasUsers = files.some((file) => file.user);
  const columns = ["Name", "Type", "Bytes", ...(hasUsers ? ["User"] : []), "You may"];
  const list = table("Files", columns, files.map((file) => fileRow(kind, accession, file, hasUsers)));
  Object.assign(list, { id: "files", className: "files" });
  const none = element("p", "There is no file on it that you may see.", { className: "callout" });
  const rules = files.length ? `What decides about the files that you see: ${rulesOf(files)}. ` : "";
  const staff = askAbout(accession);
  const why = box("p", "quiet", rules, deedWords(deed), staff);
  const closed = element("p", "Looking for closed files ..", { className: "callout" });
  const say = (words) => (words ? closed.replaceChildren(`${words} `, staff) : closed.remove());
  closedNow(accession, files, signal).then(closedWords).catch(() => UNTOLD).then(say);
  const quotes = quoting(() => citation(accession, kind));
  const text = box("div", "", ...zipWay({ accession, kind, files, quotes }), files.length ? list : none, closed, why);
  const aside = files.length ? machine({ kind, accession, files }) : "";
  const head = [element("p", `Disk ${accession} \u00b7 ${kindWords(kind)} \u00b7 ${sight}`, { className: "quiet" })];
  if (noteOf(accession)) head.push(element("p", noteOf(accession), { className: "note" }));
  const parts = [...head, box("div", "split", text, aside), await otherDisks(accession)].filter(Boolean);
  return { heading: title, title: `${title}${numberOf(accession)}`, parts };
}
