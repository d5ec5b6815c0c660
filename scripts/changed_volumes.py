#!/usr/bin/env python3
"""Changes each byte of each field of a volume, one at a time, and compares what `nfs41 check` says
of it with a reading of docs/FORMAT.md in which no crate has a part.

    scripts/changed_volumes.py [NFS41 [EACH [NFS41D]]]

It takes the proved programs crates/nfs41/out/nfs41 and crates/nfs41d/out/nfs41d, or those that are
named, and needs nothing else. The programs make a volume of version 2 and one of version 3, with
directories, files and the seat of a persistent session. Each is tried as it was left, with the commit
record set; and as the next mount leaves it; that of version 2 also as one of version 1 in the middle
of a migration. Each byte is changed in its lowest bit, in its highest one and in all. Where the
reading finds a tree, `check` has to print the volume, and where it does not `refused: Damaged` or
`refused: NotVolume`, as the reading says. Of the changes each EACH-th one is made (1); where 3 does
not divide it they are of all three kinds.

Prints a line for each of the five, with how many changes there were and after how many a tree
stands, and the first differences. The last line is `as expected`; else the status is 1.
"""
import os
import pathlib
import subprocess
import sys
import tempfile

TOP = pathlib.Path(__file__).resolve().parent.parent
SECTOR, ZERO = 4096, bytes(4096)
LOG, BITMAP, SEATS, BEHIND_SEATS, MARK, NODES = 2, 98, 100, 145, 147, 148
SLOT_SECTORS, MAX_OWNER, MAX_RESULT = 4, 1024, 16360
RUNS, NAMES, RECORD = 500, 15, 272
SCRIPT = f"""A hello 7 7
A session persist
A call root ; mkdir a 755 ; mkdir b 755 ; mkdir c 755
A take
A call root ; create f 644 ; write 0 2 {'07' * 40} ; write 4990 2 {'07' * 10}
A take
A call root ; create g 640 ; write 0 2 6669727374 ; write 8192 2 7468697264
A take
"""


class Unfit(Exception):
    """Why no tree stands there."""


def need(holds):
    if not holds:
        raise Unfit("Damaged")


def number(content, place, width):
    return int.from_bytes(content[place : place + width], "big")


def is_zero(content):
    return content.count(0) == len(content)


class Reading:
    """What stands on the sectors of a volume."""

    def __init__(self, image):
        self.sectors = [image[at : at + SECTOR] for at in range(0, len(image), SECTOR)]
        self.nodes, self.links, self.named = [], [], set()
        self.read_superblock()
        self.read_record()
        self.read_mark()
        self.read_seats()
        for place in range(self.places):
            self.read_place(place)
        for node in self.nodes:
            self.read_blocks(node)
        self.check_links()
        self.check_sectors()

    def read_superblock(self):
        first = self.sectors[0]
        self.version, self.size, self.places, self.count = (number(first, at, 4) for at in (8, 12, 16, 20))
        if first[:8] != b"NFS41VOL" or self.size != len(self.sectors) or self.version not in (1, 2, 3):
            raise Unfit("NotVolume")
        if self.version == 3:
            self.read_large(first)
        else:
            self.read_small(first)
        self.later = (self.count + 1) << 32

    def read_small(self, first):
        if not (256 <= self.size <= 65536 and 2 <= self.places <= 16384 and 164 + self.places <= self.size):
            raise Unfit("NotVolume")
        need(is_zero(first[24:]))
        self.log, self.log_sectors = LOG, 96
        self.seats_start, self.seat_count, self.slots = SEATS, 5, 2
        self.data_end = self.targets_end = self.size
        self.most_names, self.most_bytes = 1024, 1 << 24

    def read_large(self, first):
        """What the superblock of version 3 has behind the restart count."""
        self.log_sectors, self.seat_count, self.slots = (number(first, *it) for it in ((24, 4), (28, 2), (30, 2)))
        self.most_names, self.most_bytes, self.identity = number(first, 32, 4), number(first, 40, 8), first[48:64]
        are_counts = 2 <= self.places <= 4194304 and 288 <= self.log_sectors <= 1022
        are_counts = are_counts and 1 <= self.seat_count <= 64 and 1 <= self.slots <= 8
        are_limits = 1 <= self.most_names <= 1024 and 1 <= self.most_bytes <= 1 << 24
        tail = self.seat_count * self.seat_sectors() + self.log_sectors
        if not (are_counts and are_limits and 164 + self.places + tail <= self.size):
            raise Unfit("NotVolume")
        need(is_zero(first[36:40]) and is_zero(first[64:]))
        self.data_end = self.seats_start = self.size - tail
        self.log = self.targets_end = self.size - self.log_sectors

    def seat_sectors(self):
        return 1 + SLOT_SECTORS * self.slots

    def seat_starts(self):
        return [self.seats_start + self.seat_sectors() * k for k in range(self.seat_count)]

    def read_record(self):
        """The commit record: from here on the sectors are those that are read through it."""
        record, k = self.sectors[1], number(self.sectors[1], 4, 4)
        self.targets = []
        if is_zero(record):
            return
        need(number(record, 0, 4) == 1 and 1 <= k <= self.log_sectors and is_zero(record[8 + 4 * k :]))
        self.targets = [number(record, 8 + 4 * i, 4) for i in range(k)]
        need(all(BITMAP <= it < self.targets_end for it in self.targets))
        need(self.version == 3 or len(set(self.targets)) == k)
        for i, target in enumerate(self.targets):
            self.sectors[target] = self.sectors[self.log + i]

    def read_mark(self):
        mark, self.moved = self.sectors[MARK], None
        if self.version == 3:
            need(all(self.sectors[it] == ZERO for it in range(BITMAP, NODES)))
        elif not is_zero(mark):
            self.moved = number(mark, 4, 4)
            need(mark[:4] == b"MIGR" and is_zero(mark[8:]) and 1 <= self.moved <= self.places)
            need(self.version == 1 or self.moved == self.places)

    def read_seat(self, first):
        """The first sector of a seat, its id and its owner's length, or None where it is free."""
        head, whole = self.sectors[first], self.sectors[first : first + self.seat_sectors()]
        if all(it == ZERO for it in (whole[:1] if self.version == 3 else whole)):
            return None
        slots, length = number(head, 24, 4), number(head, 28, 4)
        need(head[:4] == b"SESS" and 1 <= slots <= self.slots and length <= MAX_OWNER and is_zero(head[32 + length :]))
        need(1 <= number(head, 4, 4) <= self.count)
        for slot in range(self.slots):
            self.read_slot(first + 1 + SLOT_SECTORS * slot, slot < slots)
        return first, head[4:20], length

    def read_slot(self, first, may_hold):
        text = b"".join(self.sectors[first : first + SLOT_SECTORS])
        if not is_zero(text):
            length = number(text, 12, 4)
            need(may_hold and number(text, 0, 4) == 1 and length <= MAX_RESULT)
            need(is_zero(text[16:24]) and is_zero(text[24 + length :]))

    def read_seats(self):
        self.seats = [it for first in self.seat_starts() if (it := self.read_seat(first))]
        ids = [it[1] for it in self.seats]
        need(len(ids) == len(set(ids)) and all(self.sectors[it] == ZERO for it in range(BEHIND_SEATS, MARK)))
        need(not ids or (self.version > 1 and self.moved is None))

    def read_place(self, place):
        """The inode at a place of the node table."""
        content = self.sectors[NODES + place]
        if content == ZERO:
            return
        if self.version > 1 or place < (self.moved or 0):
            entries, most = number(content, 84, 2), 72
            need(content[:4] == b"NOD2" and content[5] == 0 and is_zero(content[86:128]))
        else:
            entries, most = content[5], 40
            need(content[:4] == b"NODE" and is_zero(content[84:128]))
        node = Node(NODES + place, content, entries)
        need(node.kind in (1, 2) and 0 < node.number < self.later and number(content, 24, 8) < self.later)
        need(entries <= most and is_zero(content[128 + 16 * entries :]))
        node.check_entries()
        need(node.number not in [it.number for it in self.nodes])
        self.nodes.append(node)

    def read_blocks(self, node):
        most, width = (self.most_names, NAMES) if node.is_directory else (self.most_bytes, SECTOR)
        need(node.size <= most)
        self.read_runs(node, -(-node.size // width))
        if node.is_directory:
            self.read_names(node)
        else:
            used, last = node.size % SECTOR, node.blocks[-1] if node.blocks else 0
            need(not (used and last) or is_zero(self.sectors[last][used:]))

    def name_sector(self, sector):
        need(NODES + self.places <= sector < self.data_end and sector not in self.named)
        self.named.add(sector)

    def read_runs(self, node, most):
        """The sector of each block, 0 for a hole."""
        left = number(node.content, 6, 2)
        need(left <= 4500)
        for i in range(9):
            at, here = number(node.content, 48 + 4 * i, 4), min(left, RUNS)
            need(here or at == 0)
            if here:
                self.name_sector(at)
                node.run_sectors.append((at, here))
                self.read_run_sector(node, self.sectors[at], here, most)
            left -= here
        node.blocks += [0] * (most - len(node.blocks))

    def read_run_sector(self, node, content, runs, most):
        need(content[:4] == b"RUNS" and is_zero(content[4:96]) and is_zero(content[96 + 8 * runs :]))
        for place in range(96, 96 + 8 * runs, 8):
            first, count, start = number(content, place, 2), number(content, place + 2, 2), number(content, place + 4, 4)
            need(len(node.blocks) <= first and 0 < count and first + count <= most)
            node.blocks += [0] * (first - len(node.blocks))
            for sector in range(start, start + count):
                self.name_sector(sector)
                node.blocks.append(sector)

    def read_names(self, node):
        for i, block in enumerate(node.blocks):
            need(block)
            here, content = min(node.size - NAMES * i, NAMES), self.sectors[block]
            for place in range(0, RECORD * here, RECORD):
                self.read_name(node, content[place : place + RECORD])
            need(is_zero(content[RECORD * here :]))

    def read_name(self, node, record):
        target, stamp, length = number(record, 0, 8), number(record, 8, 8), record[16]
        name = record[17 : 17 + length]
        need(0 < stamp < self.later and length and is_zero(record[17 + length :]) and is_name(name))
        self.links.append((node.number, name, target, stamp))

    def check_links(self):
        """Each name leads to a node, each node but the root has one, and all are reached from it."""
        need(len({it[:2] for it in self.links}) == len(self.links) == len({it[3] for it in self.links}))
        numbers = {it.number for it in self.nodes}
        above = {target: directory for directory, _, target, _ in self.links}
        need(len(above) == len(self.links) and set(above) == numbers - {1})
        need(any(it.number == 1 and it.is_directory for it in self.nodes))
        for at in numbers:
            for _ in numbers:
                at = above.get(at, 1)
            need(at == 1)

    def check_sectors(self):
        """The room that all nodes are charged, and the bitmap."""
        charge = sum(len(it.blocks) + -(-len(it.blocks) // RUNS) for it in self.nodes)
        need(charge + self.places + NODES <= self.data_end)
        if self.version == 3:
            return
        bits = bytearray(2 * SECTOR)
        for sector in self.named:
            i = sector - NODES - self.places
            bits[i // 8] |= 128 >> i % 8
        need(self.sectors[BITMAP] + self.sectors[BITMAP + 1] == bits)


class Node:
    def __init__(self, sector, content, entries):
        self.sector, self.content, self.entries = sector, content, entries
        self.kind, self.number, self.size = content[4], number(content, 8, 8), number(content, 40, 8)
        self.is_directory, self.blocks, self.run_sectors = self.kind == 2, [], []

    def check_entries(self):
        """Of at most 64 of the ACEs no mode is made."""
        others = 0
        for place in range(128, 128 + 16 * self.entries, 16):
            kind, whom, flags, spare = self.content[place : place + 4]
            rights, who, rest = (number(self.content, place + at, 4) for at in (4, 8, 12))
            need(kind <= 1 and whom <= 4 and spare == rest == 0 and rights & ~0x1F01E7 == 0)
            need(whom > 2 or who == 0)
            need(flags < 16 and (not flags & 12 or flags & 3) if self.is_directory else flags == 0)
            others += whom > 2 or flags & 11 != 0
        need(others <= 64)


def is_name(name):
    try:
        name.decode()
    except UnicodeDecodeError:
        return False
    return b"\0" not in name and b"/" not in name and name not in (b".", b"..")


def parts_of(reading):
    """Returns the fields, and some of the bytes that nothing uses: sector, first byte, end."""
    parts = [(0, 0, 68), (1, 0, 12 + 4 * len(reading.targets)), (2, 0, 2), (BITMAP, 0, 16), (MARK, 0, 12)]
    parts += [(it, 0, 2) for it in (reading.log, reading.data_end - 1, reading.size - 1)]
    parts += [(it, SECTOR - 2, SECTOR) for it in (0, 1, 99, 144, 146, MARK)]
    parts += [(first + at, 0, 2) for first in reading.seat_starts() for at in (0, 1, 5)]
    parts += [(first, SECTOR - 2, SECTOR) for first in reading.seat_starts()] + [(BEHIND_SEATS, 0, 2)]
    for first, _, length in reading.seats:
        parts += [(first, 0, 34 + length), (first, 1054, 1058), (first + 1, 2, 30), (first + 4, SECTOR - 2, SECTOR)]
        end = 24 + number(reading.sectors[first + 1], 12, 4)
        parts.append((first + 1 + end // SECTOR, end % SECTOR, end % SECTOR + 2))
    parts += [(NODES + it, 0, 2) for it in range(reading.places) if reading.sectors[NODES + it] == ZERO]
    return parts + [part for node in reading.nodes for part in parts_of_node(reading, node)]


def parts_of_node(reading, node):
    yield node.sector, 0, 128 + 16 * node.entries + 2
    yield node.sector, SECTOR - 2, SECTOR
    for at, runs in node.run_sectors:
        yield at, 0, 6
        yield at, 94, 96 + 8 * runs + 8
    for i, block in enumerate(node.blocks if node.is_directory else []):
        for record in range(min(node.size - NAMES * i, NAMES)):
            place = RECORD * record
            yield block, place, place + 19 + reading.sectors[block][place + 16]
            yield block, place + RECORD - 2, place + RECORD + 2
    if not node.is_directory and node.blocks and node.blocks[-1]:
        yield node.blocks[-1], node.size % SECTOR - 2, node.size % SECTOR + 2


def changes_of(reading):
    """Returns the sector, the byte and what is changed of it. A sector that the commit record names is changed in the log, and
    where nothing reads it: at home, and in the log for an earlier target of the same number."""
    homes = {target: reading.log + i for i, target in enumerate(reading.targets)}
    earlier = [reading.log + i for i, target in enumerate(reading.targets) if homes[target] != reading.log + i]
    parts = parts_of(reading) + [(it, 0, 1) for it in [*homes, *earlier]]
    read = [(homes.get(sector, sector) if to > 1 else sector, first, to) for sector, first, to in parts]
    return sorted({(sector, place, change) for sector, first, to in read for place in range(first, to) for change in (1, 128, 255)})


def expected_of(image):
    """Returns the exit status and the line that a check has to answer."""
    try:
        reading = Reading(image)
    except Unfit as why:
        return 1, f"refused: {why}\n"
    layout = f" layout 3 identity {reading.identity.hex()}" if reading.version == 3 else ""
    return 0, f"volume {reading.size} {reading.places} run {reading.count}{layout}\n"


def checked(nfs41, path):
    done = subprocess.run([nfs41, "check", path], stdin=subprocess.DEVNULL, capture_output=True, text=True)
    return done.returncode, done.stdout + done.stderr


def try_volume(nfs41, path, name, each):
    image = path.read_bytes()
    wrong = [] if checked(nfs41, path) == expected_of(image) else [f"{name}: no {expected_of(image)}"]
    changes = changes_of(Reading(image))[::each]
    fit, file = 0, os.open(path, os.O_WRONLY)
    for sector, place, change in changes:
        at = SECTOR * sector + place
        byte = bytes([image[at] ^ change])
        os.pwrite(file, byte, at)
        expected, found = expected_of(image[:at] + byte + image[at + 1 :]), checked(nfs41, path)
        os.pwrite(file, image[at : at + 1], at)
        fit += expected[0] == 0
        if found != expected:
            wrong.append(f"{name}: sector {sector}, byte {place}, {byte}: {found} for {expected}")
    os.close(file)
    print(f"{name}: {len(changes)} changes, a tree after {fit}", flush=True)
    return wrong


def take_back(image, moved):
    """Makes the volume one of version 1 of which so many places are moved, without seats."""
    image = bytearray(image)
    image[11] = 1
    image[SECTOR * SEATS : SECTOR * BEHIND_SEATS] = bytes(SECTOR * (BEHIND_SEATS - SEATS))
    image[SECTOR * MARK : SECTOR * MARK + 8] = b"MIGR" + moved.to_bytes(4, "big")
    for at in range(SECTOR * (NODES + moved), SECTOR * (NODES + number(image, 16, 4)), SECTOR):
        if image[at : at + 4] == b"NOD2":
            image[at + 3], image[at + 5], image[at + 85] = ord("E"), image[at + 85], 0
    return image


def try_version(nfs41, path, version, each):
    """A new volume is filled, and mounted again."""
    script = path.with_name("script.txt")
    script.write_text(SCRIPT)
    subprocess.run([nfs41, "run", path, script], check=True, stdout=subprocess.DEVNULL)
    wrong = try_volume(nfs41, path, f"version {version}, as it was left", each)
    subprocess.run([nfs41, "serve", path, "0", "0"], check=True, stdout=subprocess.DEVNULL)
    return wrong + try_volume(nfs41, path, f"version {version}, mounted again", each)


def main(nfs41=TOP / "crates/nfs41/out/nfs41", each="1", nfs41d=TOP / "crates/nfs41d/out/nfs41d"):
    wrong, each = [], int(each)
    with tempfile.TemporaryDirectory() as folder:
        path = pathlib.Path(folder, "small.img")
        subprocess.run([nfs41, "format", path, "256", "16"], check=True, stdout=subprocess.DEVNULL)
        wrong += try_version(nfs41, path, 2, each)
        path.write_bytes(take_back(path.read_bytes(), 13))
        wrong += try_volume(nfs41, path, "version 1, in a migration", each)
        path = pathlib.Path(folder, "large.img")
        words = ("format", "--nodes", "16", "--log", "288", "--seats", "3", path, "2268K")
        subprocess.run([nfs41d, *words], check=True, stdout=subprocess.DEVNULL)
        wrong += try_version(nfs41, path, 3, each)
    for line in wrong[:20]:
        print(line)
    if wrong:
        sys.exit(f"{len(wrong)} differences")
    print("as expected")


if __name__ == "__main__":
    main(*sys.argv[1:])
