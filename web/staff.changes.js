// The changes of the journal, each of which has two lines there: one when it came, and one with what became of it.
import { kindWords, own, textOf } from "./shared.js";
import { AUDIENCES, RULES, quoted, ruleWords } from "./staff.words.js";

// A text of which so many signs are shown at most: fewer of a donor, so that what follows is shown, too.
const short = (text, most = 300) => (text.length > most ? `${text.slice(0, most)} ..` : text);

// What comes of reading something that may be no whole line, text or rule; where it is none, something else.
export function tried(read, otherwise) {
  try {
    return read();
  } catch {
    return otherwise;
  }
}

// The body of a change as an object; an empty one where it is none. A rule as the desk shows it, from its body.
export const bodyOf = ({ body }) => tried(() => Object(JSON.parse(body)), {});
export const ruleOfBody = (body) => ({ from: null, until: null, ...body, audiences: [...body.audiences].sort() });

// What a body says, or nothing where the page cannot read it: the desk may have refused it.
const said = (change, words, text = tried(() => words(bodyOf(change)), "")) => text && `: ${short(text)}`;
const ruleSaid = (change, names) => said(change, (body) => ruleWords(ruleOfBody(body), names));

// What the rule said that is dropped, where the journal has it for sure.
const droppedSaid = ({ stood }, names, words = stood.length === 1 ? ruleSaid({ body: stood[0] }, names) : "") =>
  words && `, which said${words}`;

const deedSaid = (change) =>
  said(change, ({ donor, signed }) => textOf(donor) && `${quoted(short(donor, 250))}, signed on ${textOf(signed)}`);

const keySaid = (change, { digest }) =>
  `Put a key${own(AUDIENCES, textOf(bodyOf(change).audience)).replace(/^./, " of $&")}, SHA-256 ${digest}`;

// The parts of a path, by their names.
const [NUMBER, DIGEST] = ["[0-9]+", "[0-9A-Fa-f]{64}"];
const PARTS = { deed: NUMBER, accession: NUMBER, rank: NUMBER, kind: "[a-z0-9]+", digest: DIGEST, check: "check" };

// What is changed at a path, which names its parts, by its method: the words.
const partIn = (_, name) => `(?<${name}>${PARTS[name]})`;
const way = (path, words) => ({ ...words, path: new RegExp(`^${path.replace(/:([a-z]+)/g, partIn)}$`) });

// (older lines may say that another one stood there, where none was read that does)
const putWords = ({ hasReplaced }, what) => `Put ${what}${hasReplaced ? " in the place of another" : ""}`;

const wayOfRules = (path, name, of) => way(path, {
  PUT: (change, parts, names) => putWords(change, RULES[name].words(parts[of], parts.rank)) + ruleSaid(change, names),
  DELETE: (change, parts, names) => `Drop ${RULES[name].words(parts[of], parts.rank)}${droppedSaid(change, names)}`,
});

const diskPut = (_, { accession, kind, deed, digest }) =>
  `Put disk ${accession}, ${kindWords(kind)}, under deed ${deed}, SHA-256 ${digest}`;

const PATHS = [
  way("/deeds/:deed", { PUT: (change, { deed }) => putWords(change, `deed ${deed}`) + deedSaid(change) }),
  wayOfRules("/deeds/:deed/rules/:rank", "rules", "deed"),
  wayOfRules("/images/:accession/rules/:rank", "takedowns", "accession"),
  way("/accessions/:accession/:kind/:deed/:digest", { PUT: diskPut }),
  way("/badges/:digest", { PUT: keySaid, DELETE: (_, { digest }) => `Drop the key with SHA-256 ${digest}` }),
  way("/images/:accession/:check", { POST: (_, { accession }) => `Check disk ${accession}` }),
];

// The words for a method at a path, and the parts of that; or none.
function wayOf({ method, path }, [plain] = path.split("?")) {
  const found = PATHS.map((one) => ({ words: own(one, method), groups: one.path.exec(plain)?.groups }));
  return found.find(({ words, groups }) => words && groups) ?? null;
}

// What a change does; `names` has those of the files of its disk, by their slots.
export const changeWords = (change, names, found = wayOf(change)) =>
  found ? found.words(change, found.groups, names) : `${change.method} ${short(change.path)}`;

const REFUSED = {
  400: "the desk could not read it, or a value was beyond its limits", 401: "the desk did not know the key",
  403: "the key was not one of the staff", 404: "there was no such disk, deed or address",
  405: "that cannot be done there", 409: "it did not fit what stood, or it was the last key of the staff",
  413: "it was longer than the desk takes", 422: "the bytes were not those that it named",
};
const CHECKED = "done: what it found is not in the journal; Checks has what the latest check of each disk found";
export const UNKNOWN = "nobody knows whether the desk did it";

// What became of a change: it was done, or refused, or nobody knows, as where it took too long or its sender left.
const isRefused = ({ status }) => /^4[0-9]{2}$/.test(status) && status !== "408" && status !== "499";
export const isUnknown = (change) => change.status !== "200" && !isRefused(change);

export function outcomeWords(change) {
  const { status } = change;
  if (status === "200") return change.isCheck ? CHECKED : "done";
  if (isRefused(change)) return `refused: ${own(REFUSED, status) || status}`;
  return status === "begun" ? UNKNOWN : `${UNKNOWN} (${status})`;
}

// A name or a reason as it was typed.
const typed = (text) => tried(() => decodeURIComponent(text), text);

// All changes that were read, from lines in any order.
export class AllChanges {
  byId = new Map();
  unread = 0;
  oldest = "";

  take(line) {
    const came = tried(() => JSON.parse(line), null);
    if (typeof came?.id !== "string" || typeof came.moment !== "string" || !Number.isFinite(came.at)) this.unread += 1;
    else this.add(came);
  }

  // The line that came when it ended decides.
  add(came) {
    const [known, { moment, at, status }] = [this.byId.get(came.id), came];
    if (this.oldest === "" || moment < this.oldest) this.oldest = moment;
    if (known === undefined) this.byId.set(came.id, changeOf(came));
    else if (status !== "begun") Object.assign(known, { moment, at, status: textOf(status) });
  }

  // From the newest on, each with the bodies of what may have stood at its place before, undefined where no line says,
  // null for nothing; and whether it has surely replaced another.
  inOrder() {
    const [all, stands] = [Array.from(this.byId.values()).sort((one, other) => one.at - other.at), new Map()];
    for (const change of all) {
      const stood = (change.stood = stands.get(change.place) ?? [undefined]);
      change.hasReplaced = stood.every((one) => typeof one === "string" && one !== change.body);
      const then = change.method === "PUT" ? change.body : null;
      if (!isRefused(change)) stands.set(change.place, isUnknown(change) ? [...stood, then] : [then]);
    }
    return all.reverse();
  }
}

function changeOf({ moment, at, status, method, path, staff, note, body }) {
  const change = { moment, at, status: textOf(status), method: textOf(method), path: textOf(path), body: textOf(body) };
  const [name, reason] = [typed(textOf(staff)), typed(textOf(note))];
  const { accession, deed, check, digest } = wayOf(change)?.groups ?? {};
  const place = change.path.split("?")[0].toLowerCase().replace(/^(\/accessions\/.*)\/[0-9a-f]{64}$/, "$1");
  const more = { accession, deed, digest: digest?.toLowerCase(), isCheck: check !== undefined };
  return { ...change, place, name, reason, search: `${name}\n${reason}`.toLowerCase(), ...more };
}
