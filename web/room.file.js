// One file: what is in it as a picture, a listing, a text, a screen or bytes, what is known of it, and how to cite it.
import { BASIC_WORDS, basicListing } from "./basic.js";
import { pictureIn } from "./pictures.js";
import { whyClosed } from "./room.closed.js";
import { kept, listingOf, mayRead, nameOfDisk, nameOfFile, typeWords } from "./room.lists.js";
import { askAbout, citation, facts, link, neighbours, numberOf, quoting } from "./room.parts.js";
import { fileName } from "./safe.js";
import { blocksOf, canvasOf, textScreen } from "./screen.js";
import { Refused, ask, box, button, counted, digestOf, element, kindWords, meaning, part, textOf } from "./shared.js";
import { cbmText, cpmText, hexText, isInSmall, petsciiText, wordStarText } from "./texts.js";

// A window in which a line of bytes is short.
const NARROW = matchMedia("(max-width: 42rem)");

// What shows the bytes anew at another width of the window.
let showAnew = () => {};

NARROW.addEventListener("change", () => part("bytes") && showAnew());

// The ways to show bytes: an id and a word of each one's button, what to say of it, and its text or its picture.
function viewsOf(kind, type, bytes) {
  const views = kind === "cpm8" ? cpmViews(bytes, type) : cbmViews(bytes);
  const isProgram = views.length === 0 && kind !== "cpm8" && type === "PRG";
  const says = `${isProgram ? noListing(bytes) : "Shown as bytes"}: the place, hexadecimal digits, and ASCII.`;
  return [...views, { id: "as-hex", word: "Bytes", says, text: () => hexText(bytes, NARROW.matches ? 8 : 16) }];
}

// Where a program of the 1541 is loaded, and where BASIC begins in its machines.
const addressOf = (bytes) => (bytes[0] ?? 0) + 256 * (bytes[1] ?? 0);
const addressWords = (at) => `${at} ($${at.toString(16).toUpperCase().padStart(4, "0")})`;
const OF_BASIC = [0x0401, 0x0801, 0x1001, 0x1201, 0x1c01];

function noListing(bytes) {
  const at = addressOf(bytes);
  const more = OF_BASIC.includes(at) ? "as one does, but its lines are not whole" : "so it is machine code or data";
  return `This is not a BASIC program: it loads at ${addressWords(at)}, ${more}. Here are its bytes`;
}

function cpmViews(bytes, type) {
  const plain = cpmText(bytes);
  const text = plain ?? wordStarText(bytes);
  const [word, read] = type === "BAS" ? ["Listing", "Shown as a listing of BASIC."] : ["Text", "Shown as text."];
  const says = plain === null ? "Shown as text of WordStar, without its marks for print." : read;
  return text === null ? [] : [{ id: "as-text", word, says, text: () => text }];
}

// Those of the 1541 are in either set of letters: a listing at first in that with which the machine starts.
function cbmViews(bytes) {
  const [listing, image, screen] = [basicListing(bytes, false), pictureIn(bytes), textScreen(bytes)];
  const [letters, views] = [{ isSmall: listing === null && isInSmall(bytes) }, []];
  if (listing) {
    const rest = listing.rest ? `, without the ${counted(listing.rest, "byte")} after it` : "";
    const text = () => basicListing(bytes, letters.isSmall).text;
    views.push({ id: "as-basic", word: "Listing", says: `Shown as a listing of BASIC${rest}.`, text, letters });
  }
  const isPlain = cbmText(bytes) !== null;
  const text = () => (isPlain ? cbmText : petsciiText)(bytes, letters.isSmall);
  if (text() !== null) {
    const says = isPlain ? "Shown as text." : "Shown as text, without its codes for colours and the cursor.";
    const onScreen = "Shown as it came on the screen of a C64.";
    if (screen && !listing) views.push({ id: "as-screen", word: "Screen", says: onScreen, make: () => screen });
    views.push({ id: "as-text", word: "Text", says, text, letters });
  }
  const view = image && { id: "as-picture", word: "Picture", says: `Shown as ${image.words}.`, make: image.make };
  return image ? (image.isSure ? [view, ...views] : [...views, view]) : views;
}

// A listing in which words, texts in quotes, remarks and numbers of lines can be told apart.
const KINDS = '^(?<place>\\d+)|(?<quoted>"[^"\\n]*"?)|(?<code>\\{[^}]*\\})|(?<remark>\\brem.*)';
const SIGNS = new RegExp(`${KINDS}|(?<word>${BASIC_WORDS})`, "gim");

function coloured(text) {
  const parts = [];
  let at = 0;
  for (const { 0: found, index, groups } of text.matchAll(SIGNS)) {
    const className = Object.keys(groups).find((kind) => groups[kind] !== undefined);
    parts.push(text.slice(at, index), element("span", found, { className }));
    at = index + found.length;
  }
  return [...parts, text.slice(at)];
}

function choices(views) {
  const made = views.map((view) => button(view.word, () => showBytes(views, view), { id: view.id }));
  const swap = () => {
    const shown = views.find(({ id }) => part(id).ariaPressed === "true");
    shown.letters.isSmall = !shown.letters.isSmall;
    showBytes(views, shown);
  };
  if (views.some((view) => view.letters)) made.push(button("Lower case", swap, { id: "letters" }));
  return box("div", "cluster", ...made);
}

function showBytes(views, chosen) {
  showAnew = () => showBytes(views, chosen);
  for (const { id } of views) part(id).ariaPressed = String(id === chosen.id);
  const letters = part("letters");
  const isSmall = chosen.letters?.isSmall === true;
  if (letters) Object.assign(letters, { hidden: !chosen.letters, ariaPressed: String(isSmall) });
  part("shown-as").textContent = chosen.says;
  const [text, image] = [part("bytes"), part("picture")];
  [text.hidden, image.hidden] = [chosen.make !== undefined, chosen.make === undefined];
  text.className = `bytes ${chosen.id}`;
  if (chosen.make) {
    const fields = { role: "img", ariaLabel: `${chosen.says} ${part("heading").textContent}` };
    image.replaceChildren(Object.assign(canvasOf(chosen.make()), fields));
  } else {
    text.replaceChildren(...(chosen.id === "as-basic" ? coloured(chosen.text()) : [chosen.text()]));
  }
}

function factsOf({ kind, accession, file, bytes, digest, files }) {
  const place = files.findIndex((one) => one.slot === file.slot) + 1;
  const inUser = file.user ? `, of user ${file.user}` : "";
  const blocks = kind === "cpm8" ? counted(bytes.length / 128, "record") : counted(blocksOf(bytes.length), "block");
  const known = basicListing(bytes, false) ? "a BASIC program" : pictureIn(bytes)?.words;
  const words = (kind !== "cpm8" && known) || typeWords(kind, file).split(",")[0];
  const pairs = {
    Disk: box("span", "", link(nameOfDisk(accession), accession), numberOf(accession)),
    Place: `file ${place} of ${files.length} on its list, at slot ${file.slot} of the directory${inUser}`,
    "Printed name": nameOfFile(kind, file) === file.name ? null : element("span", file.name, { className: "name" }),
    Type: [file.type, words, `of ${kindWords(kind)}`].filter(Boolean).join(", "),
    Size: `${counted(bytes.length, "byte")}, ${blocks}`,
  };
  if (file.type === "PRG") pairs["Load address"] = addressWords(addressOf(bytes));
  pairs["SHA-256"] = digest && element("span", digest, { className: "digest" });
  pairs["Open by"] = `${meaning(file.rule)} (${file.rule})`;
  return facts(pairs);
}

// Links to the files with the same bytes that were read before, which are known until the key changes.
async function copiesOf(place, digest, words) {
  const read = await kept("read", async () => new Map());
  const same = [...read].filter(([other, one]) => digest && other !== place && one.digest === digest);
  read.set(place, { digest, words });
  const links = same.flatMap(([other, one]) => [", ", link(one.words, other)]).slice(1);
  return links.length ? box("p", "", "The same bytes as ", ...links, ".") : "";
}

// The listing says how to read the bytes, and comes first. A file that it lacks, and that comes, was opened in between.
export async function showFile(number, slot, signal) {
  const accession = Number(number);
  const { kind, files } = await listingOf(accession);
  const file = files.find((one) => one.slot === Number(slot));
  const heading = file && nameOfFile(kind, file);
  const named = (fault) => {
    const closed = { accession, kind, slot: Number(slot), files, rule: textOf(fault.said?.rule) };
    const why = fault.said?.error === "denied" ? whyClosed(closed, file, signal) : null;
    throw Object.assign(fault, { heading, why });
  };
  const bytes = new Uint8Array(await (await ask(`/images/${accession}/files/${slot}`).catch(named)).arrayBuffer());
  if (file === undefined) throw new Refused("changed", {});
  const [digest, views] = [await digestOf(bytes).catch(() => ""), viewsOf(kind, file.type, bytes)];
  const name = fileName(kind, heading, file.type);
  const save = element("a", "Download", { id: "download", className: "button primary", download: name });
  const words = `\u201c${heading}\u201d, ${`${file.type} file`.trim()}, ${counted(bytes.length, "byte")}, slot ${slot}`;
  const quotes = quoting(() => citation(accession, kind, words, digest));
  const known = factsOf({ kind, accession, file, bytes, digest, files });
  const same = await copiesOf(`${accession}/${slot}`, digest, `${heading} (${nameOfDisk(accession)})`);
  const ways = box("div", "cluster", save, ...quotes.buttons);
  const question = box("p", "quiet", askAbout(accession, slot, heading));
  const aside = box("aside", "card", known, same, ways, quotes.says, question);
  aside.ariaLabel = "About the file";
  const image = element("div", null, { id: "picture", className: `monitor ${kind === "cpm8" ? "cpm8" : "d64"}` });
  const stage = element("pre", null, { id: "bytes", tabIndex: 0, role: "region", ariaLabel: "What is in the file" });
  const main = box("div", "", choices(views), element("p", null, { id: "shown-as", className: "quiet" }), image, stage);
  const fill = () => {
    save.href = URL.createObjectURL(new Blob([bytes], { type: "application/octet-stream" }));
    showBytes(views, views[0]);
  };
  const readable = files.filter(mayRead);
  const wayTo = (one) => ({ words: nameOfFile(kind, one), place: `${accession}/${one.slot}` });
  const others = neighbours("file", readable, readable.indexOf(file), wayTo);
  const [title, parts] = [`${heading}, ${nameOfDisk(accession)}`, [box("div", "split", main, aside), others]];
  return { heading, isName: true, title, parts, fill, leave: () => URL.revokeObjectURL(save.href) };
}
