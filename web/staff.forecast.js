// What each audience gets by some rules, as this page reckons it: of a disk that is not sent yet, or earlier.
import { audienceCounts, given } from "./staff.verdicts.js";
import { AUDIENCES, selection } from "./staff.words.js";

const MATCHES = {
  all: () => true, prefix: (words, file) => file.name.startsWith(words), slot: (slot, file) => file.slot === slot,
  user: (user, file) => file.user === user, type: (type, file) => file.type === type,
};

// Whether a rule is for a file and an audience on a day.
export function isFor(rule, file, audience, day) {
  const [[how, what], isOn] = [selection(rule), (rule.from ?? "") <= day && (!rule.until || day < rule.until)];
  return isOn && rule.audiences.includes(audience) && MATCHES[how](what, file);
}

// The effects for each file on a day, by audience: the first rule that matches decides.
export function forecast(files, rules, day) {
  const effectOf = (file, audience) => rules.find((rule) => isFor(rule, file, audience, day))?.effect ?? "deny";
  const effectsFor = (audience) => files.map((file) => given(effectOf(file, audience), file.isServed));
  return Object.fromEntries(Object.keys(AUDIENCES).map((audience) => [audience, effectsFor(audience)]));
}

export const forecastWords = (forecasts) => audienceCounts(
  (of, effect) => forecasts.flatMap((one) => one[of]).filter((one) => one === effect).length, "these disks");
