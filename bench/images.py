"""The images that the bench reads, one for each case, made byte by byte."""

SKEW = [0, 6, 12, 18, 24, 4, 10, 16, 22, 2, 8, 14, 20, 1, 7, 13, 19, 25, 5, 11, 17, 23, 3, 9, 15, 21]


def sector(n):
    """The byte at which logical sector n of a CP/M disk begins."""
    return 128 * (26 * (2 + n // 26) + SKEW[n % 26])


def cpm(entries):
    """A CP/M image with these entries: user, name, extent, records, blocks. Blocks hold their number."""
    image = bytearray(b"\xe5" * 256256)
    for slot, (user, name, extent, records, blocks) in enumerate(entries):
        head = bytes([user]) + name.ljust(11).encode() + bytes([extent % 32, 0, extent // 32, records])
        at = sector(slot // 4) + 32 * (slot % 4)
        image[at : at + 32] = head + bytes(blocks).ljust(16, b"\0")
        for block in blocks:
            for record in range(8):
                at = sector(8 * block + record)
                image[at : at + 128] = bytes((block + record + i) % 251 for i in range(128))
    return bytes(image)


def whole_file(name, blocks):
    """The entries of one file that has these blocks, all full."""
    parts = [blocks[i : i + 16] for i in range(0, len(blocks), 16)]
    return [(0, name, n, 8 * len(part), part) for n, part in enumerate(parts)]


def tracks():
    """The tracks of a 1541 disk with their numbers of sectors."""
    return [(t, 21 if t < 18 else 19 if t < 25 else 18 if t < 31 else 17) for t in range(1, 36)]


BLOCKS = [(t, s) for t, count in tracks() for s in range(count)]


def full_d64():
    """A 1541 image with one program of all 681 blocks that files can have."""
    image = bytearray((7 * n + n // 256) % 251 for n in range(174848))
    chain = [n for n, place in enumerate(BLOCKS) if place not in ((18, 0), (18, 1))]
    for n, after in zip(chain, chain[1:] + [None]):
        image[256 * n : 256 * n + 2] = bytes(BLOCKS[after]) if after is not None else b"\x00\xff"
    free = b"\x12\x01A\x00" + bytes(140) + b"MUSEUM".ljust(18, b"\xa0") + b"RD\xa02A".ljust(94, b"\0")
    image[256 * 357 : 256 * 358] = free
    entry = b"\0\0\x82" + bytes(BLOCKS[0]) + b"LONG".ljust(16, b"\xa0") + bytes(9) + (681).to_bytes(2, "little")
    image[256 * 358 : 256 * 359] = b"\x00\xff" + entry[2:] + bytes(224)
    return bytes(image)


def crowded_d64():
    """A 1541 image whose directory is full: 144 programs of four blocks, each block far from the one before it."""
    image = bytearray((7 * n + n // 256) % 251 for n in range(174848))
    free = [n for n, (track, _) in enumerate(BLOCKS) if track != 18]
    scattered = [free[i * 131 % len(free)] for i in range(4 * 144)]
    directory = [BLOCKS.index((18, sector)) for sector in range(1, 19)]
    image[256 * 357 : 256 * 358] = full_d64()[256 * 357 : 256 * 358]
    for n, after in zip(directory, directory[1:] + [None]):
        link = bytes(BLOCKS[after]) if after is not None else b"\x00\xff"
        image[256 * n : 256 * n + 256] = link + bytes(254)
    for slot in range(144):
        chain = scattered[4 * slot : 4 * slot + 4]
        for n, after in zip(chain, chain[1:] + [None]):
            image[256 * n : 256 * n + 2] = bytes(BLOCKS[after]) if after is not None else b"\x00\x80"
        entry = b"\x82" + bytes(BLOCKS[chain[0]]) + (b"FILE%03d" % slot).ljust(16, b"\xa0")
        at = 256 * directory[slot // 8] + 32 * (slot % 8) + 2
        image[at : at + 30] = entry + bytes(9) + (4).to_bytes(2, "little")
    return bytes(image)


def cases():
    """For each case its name, its kind, its image, and the name and slot of the file to be read. cpmcp reads no block
    above 239, which ALL.DAT alone has."""
    scattered = [2 + (i * 97) % 238 for i in range(64)]
    many = [(0, f"F{n:02}     DAT", 0, 1, [2 + n]) for n in range(64)]
    return [
        ("one record", "cpm8", cpm([(0, "ONE     DAT", 0, 1, [2])]), "ONE.DAT", 0),
        ("246,784 bytes", "cpm8", cpm(whole_file("ALL     DAT", list(range(2, 243)))), "ALL.DAT", 0),
        ("243,712 bytes", "cpm8", cpm(whole_file("BIG     DAT", list(range(2, 240)))), "BIG.DAT", 0),
        ("64 one-record files", "cpm8", cpm(many), "F63.DAT", 63),
        ("a fragmented file", "cpm8", cpm(whole_file("BIG     DAT", scattered)[::-1]), "BIG.DAT", 0),
        ("a full D64", "d64", full_d64(), "LONG", 0),
        ("144 files of a D64", "d64", crowded_d64(), "FILE143", 143),
    ]
