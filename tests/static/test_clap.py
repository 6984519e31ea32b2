"""The texts of help in rd_commands are those that `clap` makes of the command line; and the line of one command, which
the program builds, answers as that of all does. `rt try` runs `clap`, with no proof, in a minute or two; what help.rt
would be by it is then in out/help.txt, and `rt fmt` lays that out in its place."""

import re
import subprocess

import pytest
from static.rattle import CRATES, ROOT, text_of

pytestmark = pytest.mark.timeout(1200)
LINE, HELP = text_of("crates/rd_commands/src/command_line.rt"), text_of("crates/rd_commands/src/help.rt")
TEXT = re.compile(r'pub const (\w+)_HELP: &str =\s+"([^"]*)";')
TEXTS = dict(TEXT.findall(HELP))
COMMANDS = re.findall(r'Command::new\(alloc, "([\w-]+)"\)', LINE)[:-1]
NAMES = {**{name: name.upper().replace("-", "_") for name in COMMANDS}, "help": "HELP"}
# The words that ask for a text of help.
ASKS = {"DESK": ["--help", "-h", "help", "--help cat", "-h cat"], "HELP": ["help help"]}
ASKS |= {NAMES[name]: [f"{name} --help", f"{name} -h", f"help {name}"] for name in COMMANDS}
OPERANDS = {"cat": "d64 disk.d64 0", "list": "d64 disk.d64", "files": "d64 disk.d64 --to folder",
    "copy": "--store f --to g", "serve": "--store f --port 8041", "import": "--store f --sheet s",
    "check": "--store f --acc 12", "show": "deeds --store f"}
# What is wrong behind the operands of a command, and in their place.
MISTAKES = "--explian|--nothing=1|-x|more and more|--explain --explain|--explain=1|--help=1|--store".split("|")
WRONG = [f"{name} {OPERANDS.get(name, '--store f')} {mistake}" for name in COMMANDS for mistake in MISTAKES]
WRONG += [f"{name} {words}".strip() for name in COMMANDS for words in ("", "list", "help", "-- -x")]
MAIN = """#![tactic(auto)]

mod command_line;

use anyhow::Result;

fn main(rt: HostRuntime) -> Result<()> {
    for line in rt.lines(rt.alloc()) {
        let line = line?;
        let mut words = Vec::new(rt.alloc());
        for word in line.as_str().split(' ') { words.push(word)?; }
        if let Err(error) = command_line::desk_for(rt.alloc(), words.as_slice())?
            .try_get_matches_from(words.as_slice()) { print!(rt; "=== {error}")?; }
        if let Err(error) = command_line::desk_command(rt.alloc())?
            .try_get_matches_from(words.as_slice()) { print!(rt; "=== {error}")?; }
    }
    Ok(())
}
"""

def constants(use):
    """The lines that make the constants which a line takes from other crates."""
    sources = "\n".join(file.read_text(encoding="utf-8") for file in sorted(CRATES.glob("rd_*/src/*.rt")))
    names = [name.strip() for name in (use[1] or use[2]).split(",")]
    made = r"(?m)^pub(?:\(crate\))? ((?:const|static) {}: [^;]*(?:; \d+\])?[^;]*;)"
    return "".join(re.search(made.format(name), sources)[1] + "\n" for name in names)

@pytest.fixture(scope="module")
def answers(tmp_path_factory):
    """What `clap` answers to words, by the line of one command and by that of all. The line is built without its
    clauses and what they use, and with the constants that it takes from others."""
    crate, asked = tmp_path_factory.mktemp("helps") / "crates" / "helps", [*sum(ASKS.values(), []), *WRONG]
    source = re.sub(r"(?m)^ghost use .*\n|^    (?:ensures|requires).*\n(?: {8}.*\n)*", "", LINE)
    source = re.sub(r"use (?:crate|rd_\w+)(?:::\w+)*::(?:\{([^}]*)\}|([A-Z_]+));\n", constants, source)
    (crate / "src").mkdir(parents=True)
    (crate.parent.parent / "crates.txt").write_text("helps: anyhow clap\n")
    (crate / "src" / "main.rt").write_text(MAIN)
    (crate / "src" / "command_line.rt").write_text(source.replace("\nfn desk_command", "\npub(crate) fn desk_command"))
    how = {"cwd": crate, "input": "\n".join([*asked, ""]), "capture_output": True, "text": True}
    ran = subprocess.run(["rt", "try", "--seconds", "900"], **how)
    parts = ran.stdout.split("=== ")[1:]
    assert ran.returncode == 0 and len(parts) == 2 * len(asked), ran.stdout + ran.stderr
    found = {words: (one, all_) for words, one, all_ in zip(asked, parts[::2], parts[1::2])}
    made = TEXT.sub(lambda text: f'pub const {text[1]}_HELP: &str = "{found[ASKS[text[1]][0]][0]}";', HELP)
    (ROOT / "out").mkdir(exist_ok=True)
    (ROOT / "out" / "help.txt").write_text(made, encoding="utf-8")
    return found

def test_each_command_has_a_text():
    given = r'bytes_eq name \(codes "([\w-]+)"\) then (\w+)_HELP\.now'
    assert dict(re.findall(given, text_of("crates/rd_commands/specs/Helps.antt"))) == NAMES
    assert set(TEXTS) == {"DESK", *NAMES.values()}

def test_texts_are_those_of_clap(answers):
    assert not [words for name in TEXTS for words in ASKS[name] if answers[words][0] != TEXTS[name]]

def test_line_of_one_command_answers_as_that_of_all(answers):
    assert not [(words, one, every) for words, (one, every) in answers.items() if one != every]
