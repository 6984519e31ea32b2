"""What the sources in Rattle say, as far as lines and names show it. Each file is read once."""

import collections
import functools
import pathlib
import re

ROOT = pathlib.Path(__file__).parents[2]
CRATES = ROOT / "crates"
# What begins a function, or a constant that stands in none; and what a definition in specs/.
PUBLIC = r"(?:pub(?:\([^)]*\))? )?"
HEAD = rf"(?: *{PUBLIC}(?:const |unsafe |final )*(fn)|{PUBLIC}(?:const|static)) (\w+)"
DEFINITION = r"(?: *(?:abbrev|unfoldable) pub| *pub (?:record|data)|pub) ([^\s:]+)(?=[ :])"
EDIT = re.compile(r"(?:test: .*\n)?(?:file: .*\n(?:old: .*\nnew:.*\n)+)+")
# A clause: what it belongs to (none where the name is that of a function), its name and its file.
Clause = collections.namedtuple("Clause", "owner name path")

@functools.cache
def text_of(path):
    """The text of a file of the repository, empty where there is none."""
    return (ROOT / path).read_text(encoding="utf-8") if (ROOT / path).is_file() else ""

@functools.cache
def lines_of(path):
    return text_of(path).split("\n")

def parts_of(path):
    """The crate of a path, the folder in it, and the rest; empty parts where it is none in a crate."""
    found = re.fullmatch(r"crates/(\w+)/([\w-]+)/(.+)", path)
    return found.groups() if found else ("", "", "")

@functools.cache
def items(path, begin=HEAD):
    """The functions and constants of a file, or its definitions, by name: the texts from each head to the next one."""
    found, name = collections.defaultdict(str), ""
    for line in lines_of(path):
        head = re.match(begin, line)
        name = head[head.lastindex] if head else name
        found[name] += f"{line}\n"
    return dict(found)

def item_at(path, line):
    """Whether a function or a constant stands at a line, counted from 0, or under attributes there, and its name."""
    lines = lines_of(path)
    line = next((number for number in range(line, len(lines)) if not re.match(r" *#\[", lines[number])), line)
    found = (re.match(HEAD, text) for text in reversed(lines[: line + 1]))
    return next(((bool(head[1]), head[2]) for head in found if head), (False, ""))

@functools.cache
def proofs_of(crate):
    """The folders with proofs of a crate, each with the names of what it is a proof of and in."""
    folders = [str(folder.relative_to(ROOT)) for folder in (CRATES / crate / "proofs").rglob("*/")]
    return [(folder, [part.removeprefix("+") for part in folder.split("/")]) for folder in folders]

def proof_folders(path, name):
    """Those of a function of a file in src/: below that of the file, or of a type whose methods it has; of `Type::name`
    those of this type."""
    owner, _, name = name.rpartition("::")
    module, types = path[:-3].replace("/src/", "/proofs/"), re.findall(r"(?m)^impl(?:<[^>]*>)? (\w+)", text_of(path))
    found = [(folder, parts[:-1]) for folder, parts in proofs_of(parts_of(path)[0]) if parts[-1] == name]
    found = [(folder, parts) for folder, parts in found if any(part.startswith(owner) for part in parts)]
    return [folder for folder, parts in found if folder.startswith(f"{module}/") or {*types} & {*parts}]

def pairs_of(path):
    """The changes of a wrong body: the file, the old text and the new one of each. None where it has another form."""
    text, folder, found = text_of(path), "/".join(path.split("/")[:2]), []
    for part in re.split(r"(?m)^file: ", text)[1:] if EDIT.fullmatch(text) else ():
        file = f"{folder}/{part.splitlines()[0].strip()}"
        found += [(file, old, new) for old, new in re.findall(r"old: (.*)\nnew: ?(.*)\n", part)]
    return found

def applied(pairs, texts=()):
    """The texts of files with some changes, one after the other; None where an old text does not stand there once."""
    made = dict(texts)
    for file, old, new in pairs:
        text = made.get(file, text_of(file))
        if text.count(old) != 1:
            return None
        made[file] = text.replace(old, new)
    return made

def owner_text(clause):
    """The text of the function, trait, trait of a type or record that a clause belongs to."""
    text, owner = text_of(clause.path), clause.owner or clause.name
    (trait, _, type_name), (kind, _, name) = owner.rpartition(" for "), owner.rpartition("::")
    if kind and not trait:
        text = (re.search(rf"(?ms)^(?:impl|pub trait)\b[^\n]*\b{kind}\b.*", text) or [""])[0]
    pattern = rf"(?m)^ *(?:pub )?fn {name}\b(?:.*\n)+?(?= *\{{|.*;$)"
    pattern += rf"|^ *(?:pub )?(?:trait|record) {name}\b(?:.*\n)+?(?=\S|\Z)"
    pattern = rf"(?ms)^impl\b[^\n]*\b{trait}\b[^\n]* for {type_name}\b.*?^\}}" if trait else pattern
    return (re.search(pattern, text) or [""])[0]

@functools.cache
def clause_text(clause):
    """The lines of a clause, up to the next one of what it belongs to; empty where it is not there."""
    name = re.escape(clause.name)
    begin = rf"ensures {name} \{{|ghost {name}(?::| =)|pub {name} :" if clause.owner else r"ensures \{"
    found = re.search(rf"(?m)^ *(?:{begin}).*\n(?:(?! *(?:ensures|requires|ghost|fn|pub|//)).*\n)*", owner_text(clause))
    return found[0] if found else ""

def has_definition(path, name):
    """Whether specs have a definition of this name, or a record with this field (`NAME.FIELD`)."""
    owner, _, field = name.rpartition(".")
    return bool(clause_text(Clause(owner, field, path)) if owner else name in items(path, DEFINITION))

@functools.cache
def cites(path, text):
    """The definitions of specs/ that a text of a file cites, each a path and a name."""
    meant = {name: (path, name) for name in items(path, DEFINITION)}
    for module, names, known in re.findall(r"use Rattle\.([\w.]+)(?:\.\{(.*)\}| as (\w+))", text_of(path)):
        file = f"crates/{module.replace('.', '/')}.antt"
        for name, other in re.findall(r"(\w+)(?: as (\w+))?", names or " ".join(items(file, DEFINITION))):
            meant[f"{known}.{name}" if known else other or name] = (file, name)
    return {meant[word] for word in re.findall(r"\w+\.\w+|\w+", re.sub("--.*", "", text)) if word in meant}

def cited(path, name):
    """Those that the contract of a function or an invariant of its file cites, directly or through others."""
    text = rf"(?m)^ *{PUBLIC}(?:const |unsafe |final )*fn {name}\b(?:.*\n)+?(?= *\{{|.*;$)|^ *ghost (?!use).*"
    found, due = set(), cites(path, "".join(re.findall(text, text_of(path))))
    while due - found:
        more = {one for file, own in due - found for one in cites(file, items(file, DEFINITION).get(own, own))}
        found, due = found | due, more
    return found
