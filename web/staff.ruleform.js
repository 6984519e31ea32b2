// The form for a rule of a deed or a takedown: made, filled with a rule that stands, and read.
import { box, element, own, part } from "./shared.js";
import { AUDIENCES, EFFECTS, LIMITS, RULES, SELECTORS, isDay, selection } from "./staff.words.js";

export const options = (select, words, names = Object.keys(words)) =>
  select.append(...names.map((name) => element("option", words[name], { value: name })));

const audienceBox = (value) =>
  box("label", "", element("input", null, { type: "checkbox", name: "audiences", value }), ` ${AUDIENCES[value]}`);

// Gives its limits to each field of a form. A day is typed as it is shown.
export function limitFields(form) {
  for (const field of form.elements) {
    const limits = own(LIMITS, field.name) || {};
    Object.assign(field, limits);
    if (limits !== LIMITS.day) continue;
    field.addEventListener("input", () => {
      const isFine = field.value === "" || isDay(field.value);
      field.setCustomValidity(isFine ? "" : "Type a day of the calendar, as in 2026-01-31.");
    });
  }
}

// Adds the fields of a rule to a form.
export function makeRuleForm(name, form) {
  form.append(part("rule-fields").content.cloneNode(true));
  form.querySelector("fieldset").append(...Object.keys(AUDIENCES).map(audienceBox));
  options(form.elements.how, Object.fromEntries(Object.entries(SELECTORS).map(([way, { choice }]) => [way, choice])));
  options(form.elements.effect, EFFECTS, RULES[name].effects);
  form.elements.how.addEventListener("change", () => chooseWay(form.elements));
  form.addEventListener("change", () => needAudience(form));
  limitFields(form);
  needAudience(form);
}

// Shows the field for a value where the way to select takes one.
function chooseWay({ how, what }) {
  const [{ field, limits }, label] = [own(SELECTORS, how.value) || SELECTORS.all, what.closest("label")];
  label.hidden = what.disabled = field === undefined;
  label.querySelector("span").textContent = field ?? "";
  Object.assign(what, { value: "", ...limits });
}

const chosenAudiences = (form) => Array.from(form.querySelectorAll("[name=audiences]:checked"), (box) => box.value);

const needAudience = (form, lacks = chosenAudiences(form).length === 0) =>
  form.querySelector("[name=audiences]").setCustomValidity(lacks ? "Choose for whom it is." : "");

// Fills a form with a rule that stands.
export function fillRule(form, rule) {
  const [{ how, what, effect, from, until }, [way, value]] = [form.elements, selection(rule)];
  for (const box of form.querySelectorAll("[name=audiences]")) box.checked = rule.audiences.includes(box.value);
  how.value = way;
  chooseWay(form.elements);
  if (SELECTORS[way].field !== undefined) what.value = String(value);
  [effect.value, from.value, until.value] = [rule.effect, rule.from ?? "", rule.until ?? ""];
  needAudience(form);
}

// The rule that a form holds, without its rank: the body that puts it. While nobody has chosen files it selects none.
export function ruleIn(form) {
  const { how, what, effect, from, until } = form.elements;
  const select = how.value ? { [how.value]: SELECTORS[how.value].sent(what.value) } : {};
  const [first, end] = [from.value || null, until.value || null];
  return { audiences: chosenAudiences(form), effect: effect.value, from: first, select, until: end };
}
