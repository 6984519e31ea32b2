// The home of the page for readers: a search, facets with counts, an order, a list or screens, all in the address.
import { askStaff, welcome } from "./about.js";
import { TOGETHER, allDisks, allFiles, familyOf, found, isForBasic, kept, known, letterOf } from "./room.lists.js";
import { listingOf, mayRead, nameOfDisk, nameOfFile, plain, showsNow, typeWords, wordsOf } from "./room.lists.js";
import { inSight, link, permission, ways } from "./room.parts.js";
import { box, counted, element, kindWords, loaded, own, part } from "./shared.js";
import { noteOf } from "./titles.js";

const [PAGE, MOST_MATCHES, MOST_TYPES] = [48, 5, 9];
// Of how many disks that were found the page asks which files are closed, and up to how many it reads the list of all
// files before somebody looks for something; and how long it waits for the next letter, in milliseconds.
const [[FEW, SMALL, PAUSE], HAS_ROOM] = [[6, 500, 250], matchMedia("(min-width: 60rem)")];
HAS_ROOM.addEventListener("change", () => part("choices")?.toggleAttribute("open", HAS_ROOM.matches));
const SORTS = { title: "Title", number: "Number", files: "Most files" };
const LOOKS = { list: "List", screens: "Directories" };
const KINDS = { "": "All", d64: kindWords("d64"), cpm8: kindWords("cpm8") };
const TYPES = { picture: "Pictures", PRG: "Programs (BASIC, machine code)", TXT: "Texts, data" };
const USUAL = { sort: "title", as: "list", page: "1" };
const wordsFor = (type) => [...new Set(["d64", "cpm8"].map((kind) => typeWords(kind, { type })))].filter(Boolean);
const nameOf = (type) => TYPES[type] ?? `${type} ${wordsFor(type).join(" or ")}`.trim();

// What draws screens, which the first list does without.
const machines = () => loaded(import("./screen.js"));

// What an address asks for; of types that are one choice, any stands for it.
export function choicesIn(query) {
  const { type = "", ...others } = Object.fromEntries(new URLSearchParams(query));
  return { ...others, type: own(TOGETHER, type) || type };
}

function placeOf(choices) {
  const said = Object.entries(choices).filter(([name, value]) => value && value !== USUAL[name]);
  return said.length ? `?${new URLSearchParams(said)}` : "";
}

// A text in which the words that were looked for are marked.
function marked(text, words) {
  if (words.length === 0) return text;
  const [made, low] = [box("span", ""), plain(text)];
  const pieces = words.flat(2).filter((piece) => low.length === text.length && low.includes(piece));
  for (let at = 0; at < text.length; ) {
    const next = pieces.map((piece) => [low.indexOf(piece, at), piece.length]).filter(([place]) => place >= 0);
    const [place, length] = next.sort(([one], [other]) => one - other)[0] ?? [text.length, 0];
    made.append(text.slice(at, place), length ? element("mark", text.slice(place, place + length)) : "");
    at = place + length;
  }
  return made;
}

// Choices of one name side by side, each a link, and how many disks or files each has.
function chips(label, name, words, choices, counts = null) {
  const made = ways(label, "chips", element("span", label, { className: "quiet" }));
  for (const [value, text] of Object.entries(words)) {
    const chip = link(text, placeOf({ ...choices, page: "", [name]: value }), { className: "chip" });
    if (counts) chip.append(element("small", ` ${(counts.get(value) ?? 0).toLocaleString("en")}`));
    if ((choices[name] ?? USUAL[name] ?? "") === value) chip.ariaCurrent = "true";
    made.append(chip);
  }
  return made;
}

// The kinds of disks, the order, and the types of files of which there are most; folded where the window has no room.
function choicesBelow({ kinds, types, all }, choices) {
  const sum = [...kinds.values()].reduce((before, one) => before + one, 0);
  types.delete("");
  const most = [...types].sort(([, one], [, other]) => other - one).slice(0, MOST_TYPES).map(([type]) => type);
  const shown = most.includes(choices.type) || !choices.type ? most : [...most, choices.type];
  const names = Object.fromEntries(shown.map((type) => [type, nameOf(type)]));
  const bar = box("div", "bar", chips("Disks", "kind", KINDS, choices, kinds.set("", sum)));
  bar.append(chips("Sort by", "sort", SORTS, choices), chips("Show as", "as", LOOKS, choices));
  if (shown.length) bar.append(chips("Files", "type", { "": "All", ...names }, choices, types.set("", all)));
  const [ariaLabel, open] = ["Filter and sort", HAS_ROOM.matches || part("choices")?.open === true];
  return Object.assign(box("details", "", element("summary", ariaLabel), bar), { id: "choices", ariaLabel, open });
}

function diskCard(disk, matches, files, machine, words) {
  const { accession, kind } = disk;
  const title = link("", accession, { className: "disk-title" });
  title.append(marked(nameOfDisk(accession), words));
  const sight = inSight(disk.files, files?.get(accession)?.filter(mayRead).length);
  const facts = `Disk ${accession} \u00b7 ${kindWords(kind)} \u00b7 ${sight}`;
  const note = noteOf(accession) ? box("p", "", marked(noteOf(accession), words)) : null;
  const named = matches.slice(0, MOST_MATCHES).map((file) => {
    const way = link("", `${accession}/${file.slot}`, { className: "name" });
    way.append(marked(nameOfFile(kind, file), words));
    const { word, colour } = permission(kind, file);
    const badge = colour === "good" ? "" : element("span", word, { className: `badge ${colour}` });
    return box("li", badge && "closed", way, element("small", ` ${typeWords(kind, file)} `), badge);
  });
  const more = matches.length - MOST_MATCHES;
  if (more > 0) named.push(box("li", "", "and ", link(counted(more, "more file"), accession)));
  const body = box("div", "", title, element("p", facts, { className: "quiet" }), note);
  if (named.length) body.append(box("ul", "matches", ...named));
  const sleeve = box("span", "sleeve");
  sleeve.style.setProperty("--hue", accession * 72);
  const front = machine?.directoryScreen({ ...disk, files: files.get(accession) ?? [] }, true) ?? sleeve;
  front.ariaHidden = "true";
  return box("li", `disk ${familyOf(kind)}`, front, body);
}

function pages(hits, choices) {
  const last = Math.max(1, Math.ceil(hits.length / PAGE));
  const now = Math.min(last, Math.max(1, Math.trunc(Number(choices.page)) || 1));
  const way = (page, words) => link(words, placeOf({ ...choices, page: String(page) }), { className: "button" });
  const back = now > 1 ? way(now - 1, "Previous page") : null;
  const where = element("span", `Page ${now} of ${last.toLocaleString("en")}`);
  const made = ways("Pages", "cluster pages", back, where, now < last ? way(now + 1, "Next page") : null);
  return { shown: hits.slice((now - 1) * PAGE, now * PAGE), nav: last > 1 ? made : null };
}

// Where titles begin with each letter, in a list of many pages.
function letters(hits, choices) {
  if ((choices.sort ?? "title") !== "title" || isForBasic(choices.q) || hits.length <= 3 * PAGE) return null;
  const first = new Map();
  hits.forEach((disk, at) => {
    const letter = letterOf(disk);
    if (!first.has(letter) && /[a-z]/.test(letter ?? "")) first.set(letter, String(Math.floor(at / PAGE) + 1));
  });
  const links = [...first].map(([letter, page]) => link(letter.toUpperCase(), placeOf({ ...choices, page })));
  return links.length > 1 ? ways("By the first letter", "letters", ...links) : null;
}

function summary(hits, counts, { q, type, kind }, isRead) {
  const [disks, files] = [counted(hits.length, "disk"), counts.files ? ` and ${counted(counts.files, "file")}` : ""];
  if ((q || type) && !isRead) return "Reading the list of all files.";
  if (hits.length && (q || type)) return `Found: ${disks}${files}.`;
  if (hits.length) return `${disks} with ${inSight(counts.files, isRead ? counts.read : undefined)}.`;
  const other = wordsOf(q).length > 1 ? "fewer words" : "another word";
  const ways = [q && other, type && "all types of files", kind && "all kinds of disks"].filter(Boolean);
  return `Nothing was found. Try ${ways.join(", or ")}.`;
}

// Says of each disk that was found how many of its files are closed, and why; the disk says whom to ask.
async function sayClosed(shown, cards, files, isOver) {
  const { closedNow, closedWords } = await loaded(import("./room.closed.js"));
  for (const [at, { accession }] of shown.entries()) {
    const read = () => closedNow(accession, files.get(accession) ?? []);
    const words = isOver() ? "" : closedWords(await kept(`closed ${accession}`, read, files.asked));
    if (words) cards[at].lastChild.append(box("p", "closed", link(words, accession)));
  }
}

// The box to search in: what is typed there changes the address.
function searchBox(q) {
  const field = element("input", null, { id: "q", type: "search", value: q ?? "", maxLength: 64, spellcheck: false });
  Object.assign(field, { autocapitalize: "none", autocomplete: "off", placeholder: "letter, *.PRG" });
  const label = element("label", "Search titles, notes, names and kinds of files, and numbers ", { htmlFor: "q" });
  label.append(element("small", "(not what is in the files)"));
  const button = element("button", "Search", { type: "submit", className: "primary" });
  const form = box("form", "search", label, field, button);
  let waiting = 0;
  // what the address asks for stands in the field, unless the reader is typing
  const follow = (asked) => waiting || field.value.trim() === asked || Object.assign(field, { value: asked });
  Object.assign(form, { role: "search", follow });
  const go = () => {
    clearTimeout(waiting);
    waiting = 0;
    const { page, ...now } = choicesIn(location.hash.split("?")[1]);
    const wanted = `#/${placeOf({ ...now, q: field.value.trim() })}`;
    if (wanted !== (location.hash || "#/")) location.replace(wanted);
  };
  field.addEventListener("input", () => {
    clearTimeout(waiting);
    waiting = setTimeout(go, PAUSE);
  });
  form.addEventListener("submit", (event) => {
    event.preventDefault();
    go();
  });
  return form;
}

// A disk for each day, on the screen of its machine; none where the window has no room for it.
async function showDay(disks, place) {
  const some = disks.filter(({ files }) => files > 3);
  if (some.length === 0 || !HAS_ROOM.matches) return;
  const { accession } = some[Math.floor(Date.now() / 86400000) % some.length];
  const [listing, { directoryScreen }] = [await kept("today", () => listingOf(accession)), await machines()];
  const screen = directoryScreen(listing, true, 3);
  screen.ariaHidden = "true";
  const caption = box("figcaption", "quiet", "On the screen today: ", link(nameOfDisk(accession), accession));
  const figure = box("figure", "", box("div", `monitor ${familyOf(listing.kind)}`, screen), caption);
  place.append(Object.assign(figure, { ariaLabel: "On the screen today" }));
}

// The view of the home. It stays where only the choices change: `change` draws what they say.
export async function showHome(choices, progress) {
  let disks = await allDisks();
  const [form, day, results] = [searchBox(choices.q), box("div", "today"), box("div", "")];
  results.id = "results";
  let [items, files, drawn] = [known(disks), null, 0];
  async function draw(now, mine) {
    const { hits, matches, counts } = await found(items, files, now);
    const machine = files && now.as === "screens" ? await machines() : null;
    if (mine !== drawn) return;
    const [words, { shown, nav }] = [wordsOf(now.q), pages(hits, now)];
    const cards = shown.map((disk) => diskCard(disk, matches.get(disk) ?? [], files, machine, words));
    const list = cards.length ? box("ul", `disks as-${now.as === "screens" ? "screens" : "list"}`, ...cards) : "";
    showsNow(hits);
    const heading = element("h2", now.q || now.type || now.kind ? "What was found" : "All disks");
    const head = hits.length ? heading : askStaff("what you look for", `I look for: ${now.q ?? ""}`);
    results.replaceChildren(...[head, choicesBelow(counts, now), letters(hits, now), list, nav].filter(Boolean));
    // both lists are no older than this says
    progress(summary(hits, counts, now, files), Math.min(disks.asked, files?.asked ?? disks.asked));
    if (files && now.q && hits.length <= FEW) sayClosed(shown, cards, files, () => mine !== drawn).catch(() => {});
  }
  async function change(now) {
    const mine = (drawn += 1);
    form.follow(now.q ?? "");
    const newest = await allDisks();
    if (newest !== disks) [disks, items] = [newest, known(newest)];
    if (disks.length <= SMALL || now.q || now.type || now.as === "screens") {
      if (!files) await draw(now, mine);
      files = await allFiles((words) => mine === drawn && progress(words));
    }
    await draw(now, mine);
  }
  const parts = disks.length ? [form, day, results] : [element("p", "There is no disk of which you may see a file.")];
  const isFirst = disks.length ? change(choices) : progress("", disks.asked);
  isFirst?.then(() => showDay(disks, day)).catch(() => day.remove());
  return { heading: welcome(), parts, change, ready: isFirst, leave: () => (drawn += 1) };
}
