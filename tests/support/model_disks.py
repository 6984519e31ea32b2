"""What is on a disk, by docs/FORMATS.md alone: its files as `list` shows them, their bytes, and what a survey says."""

import collections
import struct

from support import cbm_image, cpm_image
from support.cbm_image import MAP

TYPES, GIVEN = ["DEL", "SEQ", "PRG", "USR", "REL", *["OTHER"] * 11], ("SEQ", "PRG", "USR")
# A file: its fields as texts, by the names of `list`, and its bytes, or None where it has a fault or is not given out.
File = collections.namedtuple("File", "fields data")
# A disk: its files, and what a survey says of it.
Disk = collections.namedtuple("Disk", "files report")

def read(kind, image):
    return cpm_disk(image) if kind == "cpm8" else cbm_disk(image)

def printed(data, others=b"%"):
    """Bytes as the desk prints them."""
    return "".join(chr(byte) if 32 <= byte < 127 and byte not in others else f"%{byte:02X}" for byte in data)

def known(slot, user, type_, name, data, faults=()):
    size, words = "" if data is None else str(len(data)), " ".join(faults)
    return File({"slot": str(slot), "user": user, "type": type_, "size": size, "faults": words, "name": name}, data)

def disk_of(files, directory="end", label="", blocks=None, size_differs=0):
    """A disk of files, with what a survey says of it."""
    served, faulty = sum(file.data is not None for file in files), sum(file.fields["faults"] != "" for file in files)
    about = {"directory": directory, "label": label, "map": blocks, "size_differs": size_differs}
    return Disk(files, {**about, "files": len(files), "served": served, "faulty": faulty})

def chain(image, block):
    """The blocks from one on along their links, and how they end."""
    blocks = {}
    while block[1] < cbm_image.SECTORS.get(block[0], 0):
        if block in blocks:
            return [*blocks], "loop"
        blocks[block] = True
        block = tuple(cbm_image.block_of(image, block)[:2])
        if block[0] == 0:
            return [*blocks], "end"
    return [*blocks], "off"

def claimed(image, type_, kind, first, side):
    """The blocks that a file claims, and how its chains end: none where it was never closed."""
    starts = {"REL": [first, side], **dict.fromkeys(GIVEN, [first])}.get(type_, [])
    chains = [chain(image, tuple(start)) for start in starts if kind & 128]
    return [block for blocks, _ in chains for block in blocks], [end for _, end in chains]

def cbm_disk(image):
    directory, end = chain(image, (18, 1))
    slots = b"".join(cbm_image.block_of(image, block) for block in directory)
    entries = []
    for slot, (kind, first, name, side, size) in enumerate(struct.iter_unpack("<2xB2s16s2s7xH", slots)):
        if kind:
            type_ = TYPES[kind & 15]
            entries.append((slot, kind, type_, name, size, *claimed(image, type_, kind, first, side)))
    taken = collections.Counter([(18, 0), *directory, *(block for *_, blocks, _ in entries for block in blocks)])
    files, marks = [], image[cbm_image.SIZE :] or bytes(cbm_image.BLOCKS)
    for slot, kind, type_, name, _, blocks, ends in entries:
        holds = {
            "not-closed": not kind & 128, "off-disk": "off" in ends, "loop": "loop" in ends,
            "crossed": any(taken[block] > 1 for block in blocks),
            "read-error": any(marks[cbm_image.place(*block) // 256] > 1 for block in blocks)}
        faults, data = [word for word in holds if holds[word]], None
        if type_ in GIVEN and not faults:
            *whole, last = [cbm_image.block_of(image, block) for block in blocks]
            data = b"".join(block[2:] for block in whole) + last[2 : last[1] + 1]
        files.append(known(slot, "", type_, printed(name.rstrip(b"\xa0")), data, faults))
    differ = sum(len(blocks) != size for *_, size, blocks, ends in entries if ends)
    free, counts, label = cbm_image.free_blocks(image), image[MAP : MAP + 140 : 4], image[MAP + 140 : MAP + 156]
    marked = collections.Counter(track for track, _ in free)
    about = {
        "claimed_free": len(free & {*taken}), "unclaimed_used": len({*cbm_image.ALL_BLOCKS} - free - {*taken}),
        "wrong_counts": sum(count != marked[track] for track, count in enumerate(counts, 1))}
    return disk_of(files, end, printed(label.rstrip(b"\xa0")), about, differ)

def cpm_disk(image):
    found, files = {}, []
    for slot, at in enumerate(map(cpm_image.slot_place, range(64))):
        user, name, low, _, high, count, blocks = struct.unpack("<B11s4B16s", image[at : at + 32])
        if user < 16:
            key = user, bytes(byte & 127 for byte in name)
            found.setdefault(key, (slot, []))[1].append((32 * (high & 63) + (low & 31), count, blocks))
    taken = collections.Counter(block for _, entries in found.values() for *_, blocks in entries for block in blocks)
    for (user, name), (slot, entries) in found.items():
        extents = sorted(extent for extent, *_ in entries)
        pointers = {block for *_, blocks in entries for block in blocks if block}
        holds = {
            "bad-count": any(count > 128 for _, count, _ in entries), "duplicate": len({*extents}) < len(extents),
            "gap": any(extent and extent - 1 not in extents for extent in extents),
            "short": any(count < 128 and extent < extents[-1] for extent, count, _ in entries),
            "hole": any(0 in blocks[: (count + 7) // 8] for _, count, blocks in entries),
            "off-disk": max(pointers, default=0) > 242,
            "crossed": any(block == 1 or taken[block] > 1 for block in pointers)}
        faults, data = [word for word in holds if holds[word]], None
        if not faults:
            records = [8 * blocks[n // 8] + n % 8 for _, count, blocks in sorted(entries) for n in range(count)]
            data = b"".join(image[at : at + 128] for at in map(cpm_image.place, records))
        stem, type_ = (printed(part.rstrip(b" "), b"%.") for part in (name[:8], name[8:]))
        files.append(known(slot, str(user), type_, f"{stem}.{type_}" if type_ else stem, data, faults))
    return disk_of(files)
