"""Dumps of disks of each kind: the damaged ones of the repository, and others that are drawn from them."""

import pathlib

from support import cbm_image, cpm_image, samples, trials
from support.server import ROOT

BASES = {"d64": [samples.PROGRAM_DISK, samples.bytes_of("images", "museum.d64"), samples.LOOP_DISK],
    "d64e": [samples.MARKED_DISK, samples.bytes_of("images", "damaged.d64")],
    "cpm8": [samples.RECORD_DISK, samples.LONG_DISK,
             *(samples.bytes_of("images", name) for name in ("welcome.img", "damaged.img"))]}
SIZES = {kind: len(images[0]) for kind, images in BASES.items()}

def drawn(one, kind):
    """A dump of which some bytes of the directory, of links and of error bytes are others; `one` draws of options."""
    image, start = bytearray(one(BASES[kind])), cpm_image.slot_place(0) if kind == "cpm8" else cbm_image.place(18, 1)
    for _ in range(one([0, 1, 3, 12])):
        links = [] if kind == "cpm8" else [256 * one(range(683)) + one([0, 1]), -1 - one(range(683))]
        image[one([start + one(range(96)), *links])] = one([0, 1, 2, 16, 17, 18, 128, 130, 132, one(range(256))])
    return bytes(image)

def of_repository():
    """The kind and the bytes of each image that a reader may try or a trial reads, by its file's name."""
    folders = [pathlib.Path(ROOT, folder) for folder in ("images", "crates/rd_trials/data")]
    paths = [path for folder in folders for path in sorted(folder.iterdir())]
    found = {path.name: trials.image(path.name) if path.suffix == ".image" else path.read_bytes() for path in paths}
    kinds = {size: kind for kind, size in SIZES.items()}
    return {name: (kinds[len(data)], data) for name, data in found.items() if len(data) in kinds}
