// Names for saved files that no machine takes for something else: no path, device, option or hidden file; not too long.

const [LONGEST, DEVICES] = [60, /^(con|prn|aux|nul|clock\$?|conin\$|conout\$|com[0-9]|lpt[0-9]) *(\.|$)/i];

// A name for a file, from a text of any signs.
export function safeName(text) {
  const plain = text.replace(/[^A-Za-z0-9 ._()-]/g, "_");
  const trimmed = plain.replace(/\.{2,}/g, "_").replace(/^[ .-]+/, "_").slice(0, LONGEST).replace(/[ .]+$/, "");
  if (/^_*$/.test(trimmed)) return "file";
  return DEVICES.test(trimmed) ? `_${trimmed}` : trimmed;
}

// The name for a file of a disk. The 1541 keeps the type beside the name; then it stands behind it.
export function fileName(kind, shown, type) {
  const name = safeName(shown);
  return kind === "cpm8" ? name : `${name}.${safeName(type).toLowerCase()}`;
}

// Gives each of some names another, where small and capital letters are alike, by a number behind it.
export function different(names) {
  const used = new Set();
  return names.map((name) => {
    const [, front, end] = /^(.*?)(\.[^.]*)?$/.exec(name);
    let made = name;
    for (let count = 2; used.has(made.toLowerCase()); count += 1) made = `${front} (${count})${end ?? ""}`;
    used.add(made.toLowerCase());
    return made;
  });
}
