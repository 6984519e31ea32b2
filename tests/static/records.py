"""The records of rules and promises, in records/*.record, as lines of a word and, behind one blank, its text. The first
line of a record says what it is of; records/README.md has the words, and what is checked of each."""

import functools

from static.rattle import ROOT, Clause

# What a record may be of, and the words of its other lines.
WORDS = {"rule": "page says defined coded proved tested refused note", "definitions": "file",
    "promise": "says clause rests needs tested refused note", "unproved": "says coded tested refused note"}

class Record:
    """A record: what it is of, its title, and its other lines, each a word and a text."""

    def __init__(self, place, kind, title):
        self.place, self.kind, self.title, self.lines = place, kind, title, []

    def __str__(self):
        return f"{self.place}: {self.title}"

    def texts(self, word):
        return [text for other, text in self.lines if other == word]

    def named(self, word):
        """The texts of a word, each as a path and the name behind it, or none."""
        return [text.partition(" ")[::2] for text in self.texts(word)]

    def clauses(self):
        """The clauses of a promise; the owner of each stands before a colon."""
        return [Clause(*text.rpartition(": ")[::2], path) for path, text in self.named("clause")]

@functools.cache
def read():
    """All records, and the lines that are none."""
    found, faults = [], []
    for file in sorted((ROOT / "records").glob("*.record")):
        of_file = []
        for number, line in enumerate(file.read_text(encoding="utf-8").splitlines(), 1):
            word, _, text = line.partition(" ")
            if word in WORDS:
                of_file.append(Record(f"{file.relative_to(ROOT)}:{number}", word, text))
            elif of_file and word in WORDS[of_file[-1].kind].split() and text:
                of_file[-1].lines.append((word, text))
            elif word not in ("", "#"):
                faults.append(f"{file.relative_to(ROOT)}:{number}: no such line here: {line!r}")
        found += of_file
    return found, faults

def of_kind(*kinds):
    return [record for record in read()[0] if record.kind in kinds]
