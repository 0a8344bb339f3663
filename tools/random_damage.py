#!/usr/bin/env python3
"""Volumes with random damage to their structures: what stands there, not what comes of it.

    random_damage.py FILE NUMBER          writes the volume of that number, and prints what was done to it
    random_damage.py --stock FILE NUMBER  the same of the stock volumes

The volumes that are damaged are made ones of seeds 0 to 15 with clusters of 512 to 65,536 bytes (bench/make_reference.py), and, where
ntfs-3g is installed and volumes can be mounted, some of the stock driver, with attribute lists, directories of several levels,
links, named, sparse and compressed streams. Each damage depends on its number alone, but for what the stock tools write.
"""
import pathlib
import random
import sys
import tempfile
from struct import pack_into, unpack_from

sys.dont_write_bytecode = True
TOP = pathlib.Path(__file__).resolve().parent.parent
sys.path[:0] = [str(TOP / "bench"), str(TOP / "tools")]
import breaks
import check
import stock_volumes
from measure import has_stock_tools, stock_volume, write_sparse

SEED = 20261201
LIST, NAME, DATA, ROOT, ALLOCATION, BITMAP = 0x20, 0x30, 0x80, 0x90, 0xA0, 0xB0
# Place and bytes of the fields of a record, of any attribute, of a resident and of a non-resident one, of a list's entry, of
# a key, of an index entry and of a node.
RECORD_FIELDS = ((0, 4), (4, 2), (6, 2), (8, 8), (0x10, 2), (0x12, 2), (0x14, 2), (0x16, 2), (0x18, 4), (0x1C, 4), (0x20, 8),
                 (0x20, 4), (0x26, 2), (0x28, 2), (0x2C, 4))
HEAD_FIELDS = ((0, 4), (4, 4), (8, 1), (9, 1), (10, 2), (12, 2), (14, 2))
RESIDENT_FIELDS = ((0x10, 4), (0x14, 2), (0x16, 1))
EXTENT_FIELDS = ((0x10, 8), (0x18, 8), (0x20, 2), (0x28, 8), (0x30, 8), (0x38, 8))
LIST_FIELDS = ((0, 4), (4, 2), (6, 1), (7, 1), (8, 8), (0x10, 6), (0x16, 2), (0x18, 2), (0x1A, 1))
KEY_FIELDS = ((0, 6), (6, 2), (8, 8), (0x40, 1), (0x41, 1), (0x42, 2), (0x44, 1))
ENTRY_FIELDS = ((0, 6), (6, 2), (8, 2), (10, 2), (12, 2))
NODE_FIELDS = ((0, 4), (4, 4), (8, 4), (12, 1))
BOOT_FIELDS = ((3, 1), (0x0B, 2), (0x0D, 1), (0x28, 8), (0x30, 8), (0x38, 8), (0x40, 1), (0x44, 1))


class NoPlace(Exception):
    """The damage finds nothing to damage, or no room."""


class Base:
    """A sound volume, and where its structures lie."""

    def __init__(self, name, image):
        self.name, self.image = name, image
        volume = check.Volume(image)
        for rule in (check.rule_c1, check.rule_c2, check.rule_c3, check.rule_c4):
            rule(volume)
        self.geometry, self.runs, self.live = volume.geometry, volume.map.runs, list(volume.records)
        self.count = volume.map.size // volume.geometry.record
        self.nodes = [place for number, record in volume.base_records() if record.flags & check.DIRECTORY
                      for place in self.blocks(volume, number)]
        self.bits = self.stream(volume, 6, DATA, check.UNNAMED)
        self.upcase = self.stream(volume, 10, DATA, check.UNNAMED)

    def stream(self, volume, number, kind, name):
        return check.gather(volume, number, kind, name).runs

    def blocks(self, volume, number):
        """The runs and places of a directory's index blocks."""
        found = check.gather(volume, number, ALLOCATION, check.I30)
        if found is not None and not found.resident:
            for place in range(0, found.size, self.geometry.block):
                if check.read_runs(self.image, self.geometry.cluster, found.runs, place, 4) == b"INDX":
                    yield found.runs, place


class Damage:
    """A volume under damage, and what was done."""

    def __init__(self, base, dice):
        self.base, self.dice, self.image, self.done = base, dice, bytearray(base.image), []

    # ---- bytes

    def put_stream(self, runs, at, data):
        cluster, start = self.base.geometry.cluster, 0
        for run in runs:
            stop = start + run.length * cluster
            low, high = max(at, start), min(at + len(data), stop)
            if low < high and run.lcn is not None:
                place = run.lcn * cluster + low - start
                self.image[place:place + high - low] = data[low - at:high - at]
            start = stop

    def read_stream(self, runs, at, size):
        return bytearray(check.read_runs(self.image, self.base.geometry.cluster, runs, at, size))

    def load(self, number):
        size = self.base.geometry.record
        block = self.read_stream(self.base.runs, number * size, size)
        try:
            return bytearray(check.unfix(block, b"FILE"))
        except check.Fault:
            raise NoPlace

    def store(self, number, block):
        """The record, refixed, and mostly its copy in the mirror."""
        size = self.base.geometry.record
        block = refixed(block)
        self.put_stream(self.base.runs, number * size, block)
        if number < 4 and self.dice.random() < 0.9:
            place = self.base.geometry.mirror * self.base.geometry.cluster + number * size
            self.image[place:place + size] = block

    def number(self):
        """A record in use, often one of those with fixed numbers."""
        return self.dice.choice(self.base.live[:12] if self.dice.random() < 0.3 else self.base.live)

    def changed(self, old, size):
        """Another number of so many bytes, near the old one, near a limit or any."""
        dice, most = self.dice, 256 ** size
        near = lambda: old + dice.choice((-8, -2, -1, 1, 2, 8, 512, -512, 1024))
        flipped = lambda: old ^ 1 << dice.randrange(8 * size)
        limit = lambda: dice.choice((0, 1, most - 1, most // 2, most // 2 - 1, 1 << 48, (1 << 48) + 1, 0xFFFFFFFF))
        other = lambda: dice.choice(self.base.live)
        return dice.choice((near, near, flipped, flipped, limit, other, lambda: dice.randrange(64), lambda: dice.randrange(most)))() % most

    def change(self, block, place, size, what):
        """Another number in a field."""
        if not 0 <= place <= len(block) - size:
            raise NoPlace
        old = int.from_bytes(block[place:place + size], "little")
        new = self.changed(old, size)
        block[place:place + size] = new.to_bytes(size, "little")
        self.done.append(f"{what}, {size} bytes at {place:#x}: {old:#x} is {new:#x}")

    # ---- what is damaged

    def attribute(self, wanted=lambda kind: True):
        """A record, its bytes, and the places of one of its attributes and of the next one."""
        number = self.number()
        block = self.load(number)
        found = [place for place, kind, _ in parts(block) if kind != check.END and wanted(kind)]
        if not found:
            raise NoPlace
        place = self.dice.choice(found)
        return number, block, place, place + unpack_from("<I", block, place + 4)[0]

    def spoil_boot(self):
        sector = self.image[:512]
        self.change(sector, *self.dice.choice(BOOT_FIELDS), "boot sector")
        self.image[:512] = sector

    def spoil_header(self):
        number = self.number()
        block = self.load(number)
        self.change(block, *self.dice.choice(RECORD_FIELDS), f"header of record {number}")
        self.store(number, block)

    def spoil_raw(self):
        number, size = self.dice.randrange(self.base.count), self.base.geometry.record
        block = self.read_stream(self.base.runs, number * size, size)
        self.change(block, self.dice.choice((self.dice.randrange(0x40), self.dice.randrange(size), 510, size - 2)), 1, f"raw record {number}")
        self.put_stream(self.base.runs, number * size, block)

    def spoil_attribute(self):
        number, block, place, _ = self.attribute()
        form = EXTENT_FIELDS if block[place + 8] else RESIDENT_FIELDS
        at, size = self.dice.choice(HEAD_FIELDS + form + form)
        self.change(block, place + at, size, f"record {number}, attribute at {place:#x}")
        self.store(number, block)

    def spoil_body(self):
        number, block, place, end = self.attribute()
        self.change(block, self.dice.randrange(place + 24, end), 1, f"record {number}, body of the attribute at {place:#x}")
        self.store(number, block)

    def spoil_key(self):
        number, block, place, _ = self.attribute(lambda kind: kind == NAME)
        at, size = self.dice.choice(KEY_FIELDS)
        self.change(block, place + unpack_from("<H", block, place + 0x14)[0] + at, size, f"record {number}, $FILE_NAME at {place:#x}")
        self.store(number, block)

    def spoil_list(self):
        number, block, place, end = self.attribute(lambda kind: kind == LIST)
        if block[place + 8]:
            runs, size = self.runs_of(block, place, end), unpack_from("<Q", block, place + 0x30)[0]
            data = self.read_stream(runs, 0, min(size, 1 << 20))
            self.put_stream(runs, 0, self.spoilt_list(data, number))
            return
        size, offset = unpack_from("<IH", block, place + 0x10)
        data = self.spoilt_list(block[place + offset:place + offset + size], number)
        new = block[place:place + offset] + data.ljust((len(data) + 7) // 8 * 8, b"\0")
        pack_into("<I", new, 4, len(new))
        pack_into("<I", new, 0x10, len(data))
        self.store(number, spliced(block, place, end - place, new))

    def spoilt_list(self, data, number):
        """The bytes of a list with a field, the order, or the number of its entries changed."""
        entries, at = [], 0
        while at + 26 <= len(data):
            length = unpack_from("<H", data, at + 4)[0]
            if length < 26:
                raise NoPlace
            entries.append(data[at:at + length])
            at += length
        if not entries:
            raise NoPlace
        one, other = self.dice.randrange(len(entries)), self.dice.randrange(len(entries))
        how = self.dice.choice(("field", "field", "field", "swap", "double", "drop"))
        if how == "field":
            self.change(entries[one], *self.dice.choice(LIST_FIELDS), f"list of record {number}, entry {one}")
        elif how == "swap":
            entries[one], entries[other] = entries[other], entries[one]
        elif how == "double":
            entries.insert(other, entries[one])
        else:
            del entries[one]
        if how != "field":
            self.done.append(f"list of record {number}: {how} {one} {other}")
        return b"".join(entries)

    def runs_of(self, block, place, end):
        try:
            return check.decode_pairs(bytes(block[place + unpack_from("<H", block, place + 0x20)[0]:end]))
        except check.Fault:
            raise NoPlace

    def spoil_runs(self):
        """Another run list that is spelled right."""
        number, block, place, end = self.attribute()
        if not block[place + 8]:
            raise NoPlace
        runs = self.runs_of(block, place, end)
        if not runs:
            raise NoPlace
        at, dice = dice_place(self.dice, runs), self.dice
        lcn, length = runs[at]
        near = None if lcn is None else max(0, lcn + dice.choice((-1, 1, -length, length)))
        how = dice.choice(("length", "place", "hole", "split", "swap", "drop", "any"))
        if how == "swap":
            other = dice_place(dice, runs)
            runs[at], runs[other] = runs[other], runs[at]
        else:
            runs[at:at + 1] = {
                "length": [check.Run(lcn, max(1, length + dice.choice((-1, 1))))],
                "place": [check.Run(near, length)],
                "hole": [check.Run(None if lcn is not None else dice.randrange(self.base.geometry.clusters), length)],
                "split": [check.Run(lcn, length)] if length == 1 else [check.Run(lcn, 1), check.Run(None if lcn is None else lcn + 1, length - 1)],
                "drop": [],
                "any": [check.Run(dice.randrange(self.base.geometry.clusters), length)],
            }[how]
        offset = unpack_from("<H", block, place + 0x20)[0]
        spelled = breaks.maker.mapping_pairs(runs)
        new = block[place:place + offset] + spelled
        new = new.ljust(max(end - place, (len(new) + 7) // 8 * 8), b"\0")
        pack_into("<I", new, 4, len(new))
        if dice.random() < 0.7:
            pack_into("<q", new, 0x18, unpack_from("<Q", new, 0x10)[0] + check.length_of(runs) - 1)
        self.store(number, spliced(block, place, end - place, new))
        self.done.append(f"record {number}, runs of the attribute at {place:#x}: {how} {at}")

    def spoil_parts(self):
        """An attribute goes, comes twice, or goes to another place or another record."""
        number, block, place, end = self.attribute()
        raw, how = bytearray(block[place:end]), self.dice.choice(("drop", "double", "shift", "send"))
        target, to = number, place
        if how != "double":
            block = spliced(block, place, end - place, bytearray())
        if how == "send":
            self.store(number, block)
            target = self.number()
            block = self.load(target)
        if how != "drop":
            to = self.dice.choice([at for at, _, _ in parts(block)])
            block = spliced(block, to, 0, raw)
        self.store(target, block)
        self.done.append(f"record {number}, attribute at {place:#x}: {how} to {to:#x} of record {target}")

    def spoil_record(self):
        """A record goes, or is put in the place of another."""
        number, target = self.number(), self.dice.choice((self.number(), self.dice.randrange(self.base.count)))
        block = self.load(number)
        how = self.dice.choice(("dies", "copy", "copy", "base"))
        if how == "dies":
            pack_into("<H", block, 0x16, unpack_from("<H", block, 0x16)[0] & ~1)
            target = number
        elif how == "copy":
            pack_into("<I", block, 0x2C, target)
        else:
            sequence = self.dice.choice((0, 1, unpack_from("<H", self.load(target), 0x10)[0])) if target in self.base.live else 1
            pack_into("<Q", block, 0x20, sequence << 48 | target)
            target, number = number, target
        self.store(target, block)
        self.done.append(f"record {target}: {how} of {number}")

    def spoil_root(self):
        number, block, place, _ = self.attribute(lambda kind: kind == ROOT)
        value = place + unpack_from("<H", block, place + 0x14)[0]
        if self.dice.random() < 0.2:
            self.change(block, value + self.dice.choice((0, 4, 8)), 4, f"index root of record {number}")
        else:
            self.spoil_node(block, value + 0x10, f"index root of record {number}")
        self.store(number, block)

    def spoil_block(self):
        if not self.base.nodes:
            raise NoPlace
        runs, at = self.dice.choice(self.base.nodes)
        raw = self.read_stream(runs, at, self.base.geometry.block)
        try:
            block = bytearray(check.unfix(raw, b"INDX"))
        except check.Fault:
            raise NoPlace
        how = self.dice.random()
        if how < 0.1:
            self.change(raw, self.dice.randrange(len(raw)), 1, f"raw index block at {at:#x}")
            self.put_stream(runs, at, raw)
            return
        if how < 0.2:
            self.change(block, 0x10, 8, f"index block at {at:#x}, own VCN")
        else:
            self.spoil_node(block, 0x18, f"index block at {at:#x}")
        self.put_stream(runs, at, refixed(block))

    def spoil_node(self, block, node, what):
        """A field of a node's header, or of one of its entries."""
        places = list(entries_of(block, node))
        if self.dice.random() < 0.15 or not places:
            return self.change(block, node + self.dice.choice(NODE_FIELDS)[0], 4, f"{what}, header")
        place, length, flags = self.dice.choice(places)
        how = self.dice.choice(("field", "field", "key", "child", "swap", "drop"))
        if how == "key" and not flags & 2:
            at, size = self.dice.choice(KEY_FIELDS)
            self.change(block, place + 16 + at, size, f"{what}, key at {place:#x}")
        elif how == "child" and flags & 1:
            self.change(block, place + length - 8, 8, f"{what}, child at {place:#x}")
        elif how == "swap" and not flags & 2:
            other, size, _ = self.dice.choice(places[:-1])
            first, second = min((place, length), (other, size)), max((place, length), (other, size))
            if first[0] != second[0]:
                a, b = first[0], second[0]
                piece = block[b:b + second[1]] + block[a + first[1]:b] + block[a:a + first[1]]
                block[a:b + second[1]] = piece
                self.done.append(f"{what}, entries at {a:#x} and {b:#x} change places")
        elif how == "drop" and not flags & 2:
            end = places[-1][0] + places[-1][1]
            block[place:end] = block[place + length:end] + bytes(length)
            pack_into("<I", block, node + 4, unpack_from("<I", block, node + 4)[0] - length)
            self.done.append(f"{what}, entry at {place:#x} goes")
        else:
            self.change(block, place + self.dice.choice(ENTRY_FIELDS)[0], 2, f"{what}, entry at {place:#x}")

    def spoil_bits(self):
        place = self.dice.randrange(-(-self.base.geometry.clusters // 8))
        byte = self.read_stream(self.base.bits, place, 1)
        self.change(byte, 0, 1, f"$Bitmap's byte {place}")
        self.put_stream(self.base.bits, place, byte)

    def spoil_upcase(self):
        unit = self.dice.choice((self.dice.randrange(0x20, 0x80), self.dice.randrange(65536)))
        word = self.read_stream(self.base.upcase, 2 * unit, 2)
        self.change(word, 0, 2, f"$UpCase's unit {unit:#x}")
        self.put_stream(self.base.upcase, 2 * unit, word)

    def spoil_mirror(self):
        place = self.base.geometry.mirror * self.base.geometry.cluster + self.dice.randrange(4 * self.base.geometry.record)
        byte = self.image[place:place + 1]
        self.change(byte, 0, 1, f"mirror's byte at {place:#x}")
        self.image[place:place + 1] = byte

    # ---- so that later rules are reached

    def mend_table_bits(self):
        """The bits of record 0's bitmap are those of the live records."""
        volume = self.read(check.rule_c4)
        found = check.gather(volume, 0, BITMAP, check.UNNAMED)
        if found is None:
            raise NoPlace
        bits = bytearray(check.stream_bytes(volume, found, 0, found.size))
        for number in volume.records:
            if number < 8 * len(bits):
                bits[number // 8] |= 1 << number % 8
        if not found.resident:
            return self.put_stream(found.runs, 0, bits)
        block = self.load(0)
        place = next(place for place, kind, _ in parts(block) if kind == BITMAP)
        value = place + unpack_from("<H", block, place + 0x14)[0]
        block[value:value + len(bits)] = bits
        self.store(0, block)

    def mend_bits(self):
        """The bits of $Bitmap are those of the owned clusters."""
        volume = self.read(check.rule_c8)
        count = len(volume.owned)
        bits = self.read_stream(self.base.bits, 0, -(-count // 8))
        for place in range(count):
            bits[place // 8] = bits[place // 8] & ~(1 << place % 8) | volume.owned[place] << place % 8
        self.put_stream(self.base.bits, 0, bits)

    def read(self, last):
        """The volume as the rules up to one leave it, but for C5."""
        volume = check.Volume(bytes(self.image))
        for rule in (check.rule_c1, check.rule_c2, check.rule_c3, check.rule_c4, check.rule_c6, check.rule_c7, check.rule_c8):
            rule(volume)
            if rule is last:
                return volume


KINDS = [
    (Damage.spoil_boot, 2), (Damage.spoil_header, 10), (Damage.spoil_raw, 6), (Damage.spoil_attribute, 14), (Damage.spoil_body, 8),
    (Damage.spoil_key, 6), (Damage.spoil_list, 10), (Damage.spoil_runs, 10), (Damage.spoil_parts, 12), (Damage.spoil_record, 6),
    (Damage.spoil_root, 6), (Damage.spoil_block, 12), (Damage.spoil_bits, 1), (Damage.spoil_upcase, 3), (Damage.spoil_mirror, 2),
]


def dice_place(dice, things):
    return dice.randrange(len(things))


def refixed(block):
    """The record or index block refixed, where its array is one."""
    offset, count = unpack_from("<HH", block, 4)
    if count != 1 + len(block) // 512 or offset + 2 * count > 510:
        return bytes(block)
    return breaks.refixed(block)


def spliced(block, place, old, new):
    used = unpack_from("<I", block, 0x18)[0]
    if used > len(block) or used - old + len(new) > len(block):
        raise NoPlace
    return breaks.spliced(block, place, old, bytearray(new))


def parts(block):
    """Place, type and name of each attribute, the end mark last."""
    found, place = [], unpack_from("<H", block, 0x14)[0]
    while place + 24 <= len(block):
        kind, length = unpack_from("<II", block, place)
        if kind == check.END:
            return found + [(place, kind, b"")]
        if length < 24 or place + length > len(block):
            break
        offset = unpack_from("<H", block, place + 10)[0]
        found.append((place, kind, bytes(block[place + offset:place + offset + 2 * block[place + 9]])))
        place += length
    raise NoPlace


def entries_of(block, node):
    """Place, length and flags of each entry of a node, the end entry last."""
    place = node + unpack_from("<I", block, node)[0]
    while place + 16 <= len(block):
        length, _, flags = unpack_from("<HHH", block, place + 8)
        if length < 16 or place + length > len(block):
            return
        yield place, length, flags
        if flags & 2:
            return
        place += length


def damaged(base, number):
    """The image of a number, and what was done to it."""
    dice = random.Random(SEED + number)
    damage = Damage(base, dice)
    spoils, weights = zip(*KINDS)
    for _ in range(dice.choice((1, 1, 1, 2, 2, 3))):
        for spoil in dice.choices(spoils, weights, k=20):
            try:
                spoil(damage)
                break
            except (NoPlace, IndexError, ValueError):
                continue
    for mend in (damage.mend_table_bits, damage.mend_bits):
        if dice.random() < 0.75:
            try:
                mend()
            except (check.Refused, check.Fault, NoPlace, StopIteration):
                continue
    return f"random damage {number} of {base.name}: {'; '.join(damage.done)}", bytes(damage.image)


# ---- volumes

MADE = [(seed, 1024, 4096) for seed in range(16)] * 2 + [(seed, 2048, 512) for seed in range(16)]
MADE += [(seed, 1024, cluster) for seed in range(4) for cluster in (1024, 2048, 8192, 16384)] + [(0, 1024, 65536)]


def made_base(volume):
    return Base("the volume of seed {}, {} clusters of {} bytes".format(*volume), breaks.maker.image(*volume))


def made(first, end):
    """Name and image of the damaged volumes of the generator with numbers from one up to an end."""
    numbers = {}
    for number in range(first, end):
        numbers.setdefault(random.Random(SEED + number).choice(MADE), []).append(number)
    for volume in sorted(numbers):
        base = made_base(volume)
        for number in numbers[volume]:
            yield damaged(base, number)


STOCK = [
    (1024, 12, stock_volumes.all_kinds),
    (4096, 20, stock_volumes.all_kinds),
    (2048, 12, lambda top: stock_volumes.folder_of(top, 700)),
    (512, 3, lambda top: stock_volumes.fragmented(top, 512, 9000)),
    (512, 8, lambda top: stock_volumes.fragmented(top, 512, 9000)),
]


def stock_base(folder, cluster, size, fill):
    volume = pathlib.Path(folder) / "volume"
    stock_volume(volume, cluster, size * stock_volumes.MEBIBYTE)
    stock_volumes.filled(volume, fill)
    image = bytearray(volume.read_bytes())
    read = check.Volume(bytes(image))
    for rule in (check.rule_c1, check.rule_c2, check.rule_c3, check.rule_c4):
        rule(read)
    # What the journal holds is nobody's concern; zeros make the files sparse.
    for run in check.gather(read, 2, DATA, check.UNNAMED).runs:
        image[run.lcn * cluster:(run.lcn + run.length) * cluster] = bytes(run.length * cluster)
    return Base(f"a stock volume of {size} MiB with clusters of {cluster} bytes", bytes(image))


def stock(first, end):
    """The same of the stock driver's."""
    if not has_stock_tools():
        raise SystemExit("ntfs-3g isn't installed")
    with tempfile.TemporaryDirectory() as folder:
        for place, (cluster, size, fill) in enumerate(STOCK):
            base = stock_base(folder, cluster, size, fill)
            for number in range(first + (place - first) % len(STOCK), end, len(STOCK)):
                yield damaged(base, number)


def main(words):
    if len(words) not in (2, 3):
        sys.exit(__doc__)
    number, volumes = int(words[-1]), stock if words[0] == "--stock" else made
    for name, image in volumes(number, number + 1):
        write_sparse(words[-2], image)
        print(name)


if __name__ == "__main__":
    main(sys.argv[1:])
