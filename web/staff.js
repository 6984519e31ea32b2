// The staff's page: a key, and one view at a time of what stands at the desk and of the work with it.
import { readAbout } from "./about.js";
import { ask, element, listenForKey, loaded, part, refusal, useNow } from "./shared.js";
import { readTitles } from "./titles.js";
import { listenForDeeds, showDeeds } from "./staff.deeds.js";
import { open } from "./staff.desk.js";

// The views by their sections: the heading, and what each does when it comes before the reader; whether it keeps what
// it shows where the reader leaves it. What not every visit needs is loaded then, and listens to its form from then on.
const rulesView = (name) => import("./staff.rules.js").then(({ viewOf }) => viewOf(name));
const VIEWS = {
  deeds: { heading: "Deeds", open: showDeeds },
  rules: { heading: "Rules of deeds", of: "Rules of deed", load: () => rulesView("rules") },
  disks: { heading: "Disks", load: () => import("./staff.disks.js"), keeps: true },
  takedowns: { heading: "Takedowns", of: "Takedowns of disk", load: () => rulesView("takedowns") },
  keys: { heading: "Keys", load: () => import("./staff.keys.js") },
  checks: { heading: "Checks", load: () => import("./staff.checks.js") },
  disk: { heading: "One disk", of: "Disk", load: () => import("./staff.disk.js"), keeps: true },
  eyes: { heading: "Who sees what", load: () => import("./staff.eyes.js"), isLook: true, keeps: true },
  timeline: { heading: "Timeline", load: () => import("./staff.timeline.js"), isLook: true },
  journal: { heading: "Journal", load: () => import("./staff.journal.js"), isLook: true },
};

let taken = false;

// The museum's name, and its titles of disks: those for everybody, and those for the staff, which go before them.
const own = Promise.all([readTitles(["titles.csv", "staff.titles.csv"]), readAbout()]);

function place(hash = location.hash) {
  const [, name, number] = /^#\/([a-z]+)(?:\/([1-9][0-9]{0,5})?)?$/.exec(hash) ?? [];
  return Object.hasOwn(VIEWS, name ?? "") ? { name, number } : { name: "deeds" };
}

async function loadView(view) {
  const { listen: start, open: show = () => {} } = await loaded(view.load());
  start();
  view.open = show;
}

function showView(focuses) {
  if (!taken) return;
  const { name, number } = place();
  for (const other of Object.keys(VIEWS)) {
    part(other).hidden = other !== name;
    if (other !== name && !VIEWS[other].keeps) part(other).querySelector(".stands").replaceChildren();
  }
  for (const link of part("places").querySelectorAll("a")) link.ariaCurrent = link.hash === `#/${name}` ? "page" : null;
  part("who").hidden = VIEWS[name].isLook === true;
  const { heading, of } = VIEWS[name];
  const title = of && number ? `${of} ${number}` : heading;
  part("heading").textContent = title;
  document.title = `${title} \u2013 the staff's page`;
  if (focuses) {
    part("status").replaceChildren();
    part("heading").focus();
  }
  return open(name, async (tools) => {
    await own;
    if (!VIEWS[name].open) await loadView(VIEWS[name]);
    return VIEWS[name].open(number, tools);
  });
}

// Without a key the page loads again, so that nothing is left on it. The desk's keys are for the staff alone.
async function useKey(given) {
  if (given === "") return location.reload();
  useNow(given);
  part("main").setAttribute("aria-busy", "true");
  const said = await ask("/staff/keys").then(() => element("p", "The desk takes this key."), refusal);
  taken = !said.classList.contains("refused");
  if (!taken) useNow("");
  part("work").hidden = part("places").hidden = part("forget").hidden = !taken;
  part("caller").textContent = taken ? "You work with a key of the staff." : "You have given no key.";
  part("status").replaceChildren(said);
  part("main").setAttribute("aria-busy", "false");
  showView(false);
}

function listen() {
  // each view has its form, then what came of its work, then what stands
  for (const view of Object.keys(VIEWS).map(part)) {
    view.querySelector("form").after(element("div", null, { className: "result", role: "status", tabIndex: -1 }));
    view.append(element("div", null, { className: "stands" }));
  }
  listenForDeeds();
  for (const button of part("sure").querySelectorAll("button")) {
    button.addEventListener("click", () => part("sure").close(button.value));
  }
  // no form of the page loads another one
  document.addEventListener("submit", (event) => event.preventDefault());
  part("who").addEventListener("input", ({ target }) => target.setCustomValidity(""));
  window.addEventListener("hashchange", () => {
    // a question that somebody leaves by a link is answered by no
    for (const dialog of document.querySelectorAll("dialog[open]")) dialog.close("");
    showView(true);
  });
  // a link to the view that is open already opens it again
  part("places").addEventListener("click", ({ target }) => {
    if (target.hash === location.hash) showView(true);
  });
  // what a view needs comes while somebody types the key, or goes to its link (where it does not, its opening says so)
  const come = ({ hash }) => VIEWS[place(hash).name].load?.().catch(() => {});
  for (const move of ["pointerover", "focusin"]) part("places").addEventListener(move, ({ target }) => come(target));
  come(location);
  listenForKey(useKey);
}

listen();
