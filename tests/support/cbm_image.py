"""Reads and writes images of Commodore 1541 disks.

It shares no code with the program: blocks are placed by counting the sectors of the tracks."""

import struct

SECTORS = {track: 21 if track < 18 else 19 if track < 25 else 18 if track < 31 else 17 for track in range(1, 36)}
ALL_BLOCKS = [(track, sector) for track, count in SECTORS.items() for sector in range(count)]
BLOCKS = len(ALL_BLOCKS)
# The bytes of an image, without and with an error byte for each block behind it.
SIZE, MARKED_SIZE = 256 * BLOCKS, 257 * BLOCKS
# The blocks that files can have beside a directory that has a track of its own, and those of its entries.
DATA_BLOCKS = [(track, sector) for track, sector in ALL_BLOCKS if track != 18]
ENTRY_BLOCKS = [(18, sector) for sector in range(1, SECTORS[18])]
# Where the map of free blocks begins: for each track how many sectors are free, and three bytes with a bit for each.
MAP = 256 * ALL_BLOCKS.index((18, 0)) + 4

def place(track, sector):
    """The byte of the image at which a block begins."""
    return 256 * ALL_BLOCKS.index((track, sector))

def block_of(image, block):
    return image[place(*block) : place(*block) + 256]

def mark_place(track, sector):
    """The byte of an image with error bytes that is the block's."""
    return SIZE + place(track, sector) // 256

def marks_by_chance(random_, counts):
    """The error bytes of a disk, of which one of these counts report an error."""
    marks = bytearray(random_.choice([0, 1]) for _ in range(BLOCKS))
    for block in random_.sample(range(BLOCKS), random_.choice(counts)):
        marks[block] = random_.randint(2, 255)
    return bytes(marks)

def put_chain(image, blocks, data):
    """Writes bytes to the first of some blocks, each with a link to the next, or how far it is used; tells how many."""
    parts = [data[at : at + 254] for at in range(0, len(data), 254)]
    for here, after, part in zip(blocks, [*blocks[1 : len(parts)], None], parts):
        link = bytes(after) if after else bytes([0, len(part) + 1])
        image[place(*here) : place(*here) + 2 + len(part)] = link + part
    return len(parts)

def put_directory(image, free, label, entries):
    """Writes a directory of entries (type, first block, name, size), the map of free blocks, and the disk's name."""
    rows = [struct.pack("<2xB2s16s9xH", kind, bytes(first), name.ljust(16, b"\xa0"), size)
            for kind, first, name, size in entries]
    groups = [b"".join(rows[at : at + 8])[2:].ljust(254, b"\x00") for at in range(0, len(rows) or 1, 8)]
    free = set(free) - set(ENTRY_BLOCKS[: put_chain(image, ENTRY_BLOCKS, b"".join(groups))])
    bits = [sum(1 << sector for sector in range(count) if (track, sector) in free) for track, count in SECTORS.items()]
    head = b"\x12\x01A\x00" + b"".join(struct.pack("<I", one.bit_count() | (one << 8)) for one in bits)
    image[MAP - 4 : MAP + 163] = head + label.ljust(16, b"\xa0") + b"\xa0\xa0RR\xa02A"

def filled(label, files):
    """An image with files, each the byte of its type, its name and its bytes: block after block, and at most 144."""
    image, free, entries = bytearray(SIZE), DATA_BLOCKS, []
    for kind, name, data in files:
        entries.append((kind, free[0], name, put_chain(image, free, data)))
        free = free[entries[-1][3] :]
    put_directory(image, {*free, *ENTRY_BLOCKS}, label, entries)
    return bytes(image)

def free_blocks(image):
    counted = [one for (one,) in struct.iter_unpack("<I", image[MAP : MAP + 140])]
    return {(track, sector) for track, sector in ALL_BLOCKS if (counted[track - 1] >> (8 + sector)) & 1}
