"""The lines of the files in crates/rd_trials/data, and the sample images that some of them build (docs/TRIALS.md)."""

import functools
import pathlib

from support.server import ROOT

def lines_of(name):
    """The word and the text of each line of a file, without notes and empty lines."""
    lines = pathlib.Path(ROOT, "crates/rd_trials/data", name).read_text(encoding="utf-8").split("\n")
    return [(word, text) for word, _, text in (line.partition(" ") for line in lines) if word not in ("", "#")]

def bytes_of(text):
    """The bytes that a text stands for: its escapes are some of Python's."""
    return text.encode().decode("unicode_escape").encode("latin-1")

def built(data, word, text):
    """Bytes, with what a line adds to them or changes in them."""
    if word == "image":
        return data + image(text)
    if word == "cut":
        return data[: int(text)]
    if word in ("send", "fill"):
        count, _, unit = text.partition(" ") if word == "fill" else ("1", " ", text)
        return data + int(count) * bytes_of(unit)
    assert word in ("over", "over-each"), word
    place, step, count, unit = (text if word == "over-each" else text.replace(" ", " 1 1 ", 1)).split(" ", 3)
    made, unit = bytearray(data), bytes_of(unit)
    for at in range(int(place), int(place) + int(step) * int(count), int(step)):
        made[at : at + len(unit)] = unit
    return bytes(made)

def image(name):
    """The sample image that a file builds."""
    return functools.reduce(lambda data, line: built(data, *line), lines_of(name), b"")
