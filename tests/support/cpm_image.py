"""Writes images of CP/M 2.2 eight-inch disks, and says where their sectors lie.

It shares no code with the program: it places sectors by the skew table that the manual prints."""

import itertools

SKEW = [1, 7, 13, 19, 25, 5, 11, 17, 23, 3, 9, 15, 21, 2, 8, 14, 20, 26, 6, 12, 18, 24, 4, 10, 16, 22]
SIZE = 256256

def text(lines):
    """A text as CP/M keeps one: lines end with CR LF, and 1A hex fills the last record."""
    data = lines.replace("\n", "\r\n").encode("ascii") + b"\x1a"
    return data + b"\x1a" * (-len(data) % 128)

def place(logical):
    """The byte of the image at which a logical sector begins, counted from 0 after the two system tracks."""
    return 128 * (26 * (2 + logical // 26) + SKEW[logical % 26] - 1)

def slot_place(slot):
    """The same of a slot of the directory."""
    return place(slot // 4) + 32 * (slot % 4)

def filled(files):
    """An image with files, each eleven bytes of name and type, and its bytes in whole records: block after block."""
    placed, block = [], 2
    for name, data in files:
        placed.append((name, data, range(block, block + -(-len(data) // 1024))))
        block = placed[-1][2].stop
    return of_entries(placed)

def of_entries(files):
    """An image of files that are names, contents and blocks, an entry for each sixteen blocks, in order."""
    image, slots = bytearray(b"\xe5" * SIZE), itertools.count()
    for name, data, blocks in files:
        records = len(data) // 128
        for extent in range(-(-records // 128) or 1):
            head = b"\x00" + name + bytes([extent, 0, 0, min(128, records - 128 * extent)])
            at = slot_place(next(slots))
            image[at : at + 32] = head + bytes(blocks[16 * extent : 16 * extent + 16]).ljust(16, b"\x00")
        for record in range(records):
            at = place(8 * blocks[record // 8] + record % 8)
            if blocks[record // 8]:
                image[at : at + 128] = data[128 * record : 128 * record + 128]
    return bytes(image)
