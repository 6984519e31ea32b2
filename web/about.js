// Whose room it is: the museum's own table beside the pages, `name,value`, in the head, the foot and the mails.
import { recordsOf } from "./csv.js";
import { box, element, part } from "./shared.js";
import { textOfOwn } from "./titles.js";

const NAMES = ["museum", "room", "welcome", "mail", "phone", "address", "hours", "imprint", "privacy"];
const [LONGEST, MAIL] = [500, /^[^\s@?&]+@[^\s@?&]+$/];
const about = {};

export const room = () => about.room ?? "The reading room";
export const holder = () => about.museum ?? about.room ?? "";
export const house = () => holder() || room();
export const welcome = () => about.welcome ?? "Read what is on the old floppy disks of the museum.";

// A page of the web or of this site; nothing else becomes a link.
function pageOf(address) {
  if (!URL.canParse(address, location.href)) return null;
  const { protocol, href } = new URL(address, location.href);
  return ["http:", "https:"].includes(protocol) ? href : null;
}

// How to ask the staff about a disk or a file: their address, which begins a mail, and what they give as their phone.
export function askStaff(what, of) {
  const phone = about.phone ? [", or call ", element("span", about.phone, { className: "phone" })] : [];
  const [subject, body] = [of, `\n\n${location.href}`].map(encodeURIComponent);
  const link = element("a", about.mail, { href: `mailto:${about.mail}?subject=${subject}&body=${body}` });
  const whom = about.mail ? ["Write to ", link] : ["Turn to the museum's staff"];
  return box("span", "", ...whom, ` about ${what}`, ...phone, ".");
}

// Rows that are no name and value, values that are too long, and links to anything but pages are left out.
function take([name, value, ...more]) {
  const isWanted = NAMES.includes(name) && value && value.length <= LONGEST && more.length === 0;
  const kept = ["imprint", "privacy"].includes(name) ? isWanted && pageOf(value) : value;
  if (isWanted && kept && (name !== "mail" || MAIL.test(value))) about[name] = kept;
}

function foot() {
  const mail = about.mail && element("a", about.mail, { href: `mailto:${about.mail}` });
  const lines = [about.museum, about.address, about.hours].map((text) => text && element("p", text));
  const pages = [["Imprint", about.imprint], ["Privacy", about.privacy]].filter(([, href]) => href);
  const links = pages.map(([words, href]) => element("a", words, { href }));
  const rows = [[mail, about.phone].filter(Boolean), links].filter((row) => row.length);
  return [...lines.filter(Boolean), ...rows.map((row) => box("p", "cluster", ...row))];
}

export async function readAbout() {
  (recordsOf(await textOfOwn("about.csv")) ?? []).forEach(take);
  part("museum").textContent = about.museum ?? "";
  // the staff's page has its own name and its own foot
  part("room")?.replaceChildren(room());
  part("foot")?.prepend(...foot());
}
