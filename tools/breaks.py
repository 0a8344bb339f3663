#!/usr/bin/env python3
"""Breaks volumes of the independent generator in known ways, and compares what check.py says with what was expected by hand.

    breaks.py [-v] [WORD]         with -v each damage is printed, with WORD only damages whose name has it are run
    breaks.py --image FILE NAME   writes the volume with the damage of that name, and prints the line that is expected

A damage is a name, a volume (seed, clusters, bytes of a cluster), steps that give edits (byte offset, new bytes), and the
line that is expected. The expected lines were written from the rules in words, before check.py was run on the damage.
"""
import pathlib
import sys
from struct import pack, pack_into, unpack_from

sys.dont_write_bytecode = True
sys.path.insert(0, str(pathlib.Path(__file__).resolve().parent.parent / "bench"))
import check
import make_reference as maker

RECORD = 1024
STD, LIST, NAME, INFO, DATA, ROOT, ALLOC, BITS = 0x10, 0x20, 0x30, 0x70, 0x80, 0x90, 0xA0, 0xB0
made = {}


def u16(n):
    return pack("<H", n)


def u32(n):
    return pack("<I", n)


def u64(n):
    return pack("<Q", n % 2**64)


def ref(record, sequence=1):
    return u64(sequence << 48 | record)


def round8(n):
    return (n + 7) // 8 * 8


def units(name):
    return name.encode("utf-16-le")


# ---- a volume and its edits

class Volume:
    """A made volume; what is put into it is kept as edits too."""

    def __init__(self, seed, clusters, cluster):
        key = seed, clusters, cluster
        if key not in made:
            made.clear()  # one at a time, since some are large
            made[key] = maker.image(*key)
        self.image = bytearray(made[key])
        self.edits = []
        self.cluster = cluster
        self.areas = maker.layout(*key)

    def put(self, at, data):
        self.edits.append((at, bytes(data)))
        self.image[at:at + len(data)] = data

    def place(self, area):
        return self.areas[area][0] * self.cluster

    def record_place(self, r):
        first = self.areas["mft first"][1] * self.cluster
        at = r * RECORD
        return self.place("mft first") + at if at < first else self.place("mft second") + at - first

    def copy_place(self, r):
        return self.place("mirror") + r * RECORD

    def load(self, r):
        """A record with its true last words."""
        at = self.record_place(r)
        return unfixed(self.image[at:at + RECORD])

    def store(self, r, block, mirror=True):
        """Refixes a record and writes it, and its copy where it has one."""
        block = refixed(block)
        self.put(self.record_place(r), block)
        if r < 4 and mirror:
            self.put(self.copy_place(r), block)


def unfixed(block):
    block = bytearray(block)
    array, count = unpack_from("<HH", block, 4)
    for i in range(1, count):
        block[512 * i - 2:512 * i] = block[array + 2 * i:array + 2 * i + 2]
    return block


def refixed(block):
    block = bytearray(block)
    array, count = unpack_from("<HH", block, 4)
    number = (unpack_from("<H", block, array)[0] + 1) % 65536
    if number in (0, 0xFFFF):
        number = 1
    pack_into("<H", block, array, number)
    for i in range(1, count):
        block[array + 2 * i:array + 2 * i + 2] = block[512 * i - 2:512 * i]
        pack_into("<H", block, 512 * i - 2, number)
    return bytes(block)


def attributes(block):
    """Place, type and name of each attribute of an unfixed record; the end mark last."""
    at = unpack_from("<H", block, 0x14)[0]
    while True:
        kind, = unpack_from("<I", block, at)
        if kind == 0xFFFFFFFF:
            yield at, kind, ""
            return
        length, = unpack_from("<I", block, at + 4)
        offset, = unpack_from("<H", block, at + 10)
        yield at, kind, bytes(block[at + offset:at + offset + 2 * block[at + 9]]).decode("utf-16-le", "replace")
        at += length


def find(block, kind, name="", nth=0):
    return [at for at, k, n in attributes(block) if (k, n) == (kind, name)][nth]


def spliced(block, at, old, new):
    """The record with so many bytes at a place replaced, what follows shifted, and bytes in use adapted."""
    used, = unpack_from("<I", block, 0x18)
    body = block[:at] + new + block[at + old:used]
    assert len(body) <= len(block), "no room"
    pack_into("<I", body, 0x18, len(body))
    return body.ljust(len(block), b"\0")


# ---- attributes

def resident(kind, value, name="", instance=9, name_offset=24, value_offset=None, flags=0):
    value_offset = 24 + round8(2 * len(name)) if value_offset is None else value_offset
    body = bytearray(round8(max(value_offset + len(value), 24)))
    pack_into("<IIBBHHHIH", body, 0, kind, len(body), 0, len(name), name_offset, flags, instance, len(value), value_offset)
    body[name_offset:name_offset + 2 * len(name)] = units(name)
    body[value_offset:value_offset + len(value)] = value
    return body


def extent(kind, lowest, highest, pairs, size, initialised=None, name="", instance=9, flags=0):
    offset = 64 + round8(2 * len(name))
    initialised = size if initialised is None else initialised
    body = bytearray(round8(offset + len(pairs)))
    pack_into("<IIBBHHHQqH", body, 0, kind, len(body), 1, len(name), 64, flags, instance, lowest, highest, offset)
    pack_into("<QQQ", body, 0x28, size, size, initialised)
    body[64:64 + 2 * len(name)] = units(name)
    body[offset:offset + len(pairs)] = pairs
    return body


def entry(kind, record, instance, lowest=0, name="", sequence=1):
    head = pack("<IHBBQQH", kind, 0, len(name), 26, lowest, sequence << 48 | record, instance) + units(name)
    head = bytearray(head.ljust(max(32, round8(len(head))), b"\0"))
    pack_into("<H", head, 4, len(head))
    return bytes(head)


def own_entries(block, r):
    """The entries of a list of a record's own attributes."""
    return [entry(kind, r, unpack_from("<H", block, at + 14)[0],
                  unpack_from("<Q", block, at + 16)[0] if block[at + 8] else 0, name)
            for at, kind, name in attributes(block) if kind not in (0xFFFFFFFF, LIST)]


def key(parent, name, namespace=3, sequence=1):
    return pack("<Q56xBB", sequence << 48 | parent, len(name), namespace) + units(name)


def index_entry(record, parent, name, namespace=3, child=None, sequence=1):
    body = key(parent, name, namespace)
    length = 16 + round8(len(body)) + (0 if child is None else 8)
    flags = 0 if child is None else 1
    raw = pack("<QHHHH", sequence << 48 | record, length, len(body), flags, 0) + body
    raw = raw.ljust(16 + round8(len(body)), b"\0")
    return raw + (b"" if child is None else u64(child))


def end_entry(child=None):
    return pack("<QHHHH", 0, 16, 0, 2, 0) if child is None else pack("<QHHHHQ", 0, 24, 0, 3, 0, child)


def root_value(entries, block=4096):
    return pack("<IIIIIIII", 0x30, 1, block, 1, 16, 16 + len(entries), 16 + len(entries), 0) + entries


def index_block(vcn, entries):
    block = bytearray(4096)
    block[:4] = b"INDX"
    pack_into("<HH", block, 4, 0x28, 9)
    pack_into("<QIII", block, 0x10, vcn, 0x28, 0x28 + len(entries), 4096 - 0x18)
    block[0x40:0x40 + len(entries)] = entries
    return refixed(block)


# ---- steps: each takes a volume and puts edits into it

def at(place, data):
    """Raw bytes."""
    return lambda v: v.put(place, data)


def boot(place, data):
    return at(place, data)


def field(r, place, data, mirror=True):
    """Bytes of a record, which is refixed."""
    def step(v):
        block = v.load(r)
        block[place:place + len(data)] = data
        v.store(r, block, mirror)
    return step


def raw_record(r, place, data):
    """Bytes of a record as it stands, fixups and mirror left alone."""
    return lambda v: v.put(v.record_place(r) + place, data)


def raw_copy(r, place, data):
    """Bytes of a mirror record as it stands."""
    return lambda v: v.put(v.copy_place(r) + place, data)


def attribute(r, kind, place, data, name="", nth=0, mirror=True):
    """Bytes of an attribute."""
    def step(v):
        block = v.load(r)
        start = find(block, kind, name, nth) + place
        block[start:start + len(data)] = data
        v.store(r, block, mirror)
    return step


def pairs(r, data, kind=DATA, name="", mirror=True):
    """Other mapping pairs, closing 0 included; the attribute grows where they don't fit."""
    def step(v):
        block = v.load(r)
        start = find(block, kind, name)
        length, = unpack_from("<I", block, start + 4)
        offset, = unpack_from("<H", block, start + 0x20)
        new = block[start:start + offset] + data
        new = new.ljust(max(length, round8(len(new))), b"\0")
        pack_into("<I", new, 4, len(new))
        v.store(r, spliced(block, start, length, new), mirror)
    return step


def vcns(r, lowest, highest, kind=DATA, name=""):
    return attribute(r, kind, 0x10, pack("<Qq", lowest, highest), name)


def sizes(r, size, initialised, kind=DATA, name=""):
    return attribute(r, kind, 0x30, u64(size) + u64(initialised), name)


def insert(r, raw):
    """A further attribute, behind those of the same or a lower type."""
    def step(v):
        block = v.load(r)
        kind, = unpack_from("<I", raw, 0)
        start = next(start for start, k, _ in attributes(block) if k > kind)
        v.store(r, spliced(block, start, 0, bytearray(raw)))
    return step


def remove(r, kind, name="", nth=0):
    def step(v):
        block = v.load(r)
        start = find(block, kind, name, nth)
        v.store(r, spliced(block, start, unpack_from("<I", block, start + 4)[0], bytearray()))
    return step


def replace(r, kind, raw, name=""):
    def step(v):
        block = v.load(r)
        start = find(block, kind, name)
        v.store(r, spliced(block, start, unpack_from("<I", block, start + 4)[0], bytearray(raw)))
    return step


def relist(r, change):
    """Another attribute list: the function gets the entries' bytes in a list and gives such a list."""
    def step(v):
        block = v.load(r)
        start = find(block, LIST)
        length, = unpack_from("<I", block, start + 4)
        size, offset = unpack_from("<IH", block, start + 0x10)
        value, entries = bytes(block[start + offset:start + offset + size]), []
        while value:
            n = unpack_from("<H", value, 4)[0]
            entries.append(value[:n])
            value = value[n:]
        raw = resident(LIST, b"".join(change(entries)), instance=unpack_from("<H", block, start + 14)[0])
        v.store(r, spliced(block, start, length, raw))
    return step


def edited(index, place, data):
    """A change of a list: bytes of one entry."""
    def change(entries):
        new = bytearray(entries[index])
        new[place:place + len(data)] = data
        return entries[:index] + [bytes(new)] + entries[index + 1:]
    return change


def give_list(r, change=lambda entries: entries):
    """A resident list of the record's own attributes, changed or not."""
    return lambda v: insert(r, resident(LIST, b"".join(change(own_entries(v.load(r), r)))))(v)


def bits(on=(), off=()):
    """Bits of $Bitmap."""
    def step(v):
        for clusters, value in ((on, 1), (off, 0)):
            for b in clusters:
                place = v.place("bitmap") + b // 8
                byte = v.image[place]
                v.put(place, bytes([byte | 1 << b % 8 if value else byte & ~(1 << b % 8)]))
    return step


def mft_bit(r, value):
    """A bit of record 0's $BITMAP."""
    def step(v):
        block = v.load(0)
        place = find(block, BITS) + 24 + r // 8
        block[place] = block[place] | 1 << r % 8 if value else block[place] & ~(1 << r % 8)
        v.store(0, block)
    return step


def new_record(r, source, *more):
    """A copy of a record under another number."""
    def step(v):
        block = v.load(source)
        pack_into("<I", block, 0x2C, r)
        v.store(r, block)
    return [step, mft_bit(r, 1), *more]


def edit_root(change):
    """The root's index block, unfixed, changed by a function and refixed."""
    def step(v):
        place = v.place("root index")
        block = unfixed(v.image[place:place + 4096])
        v.put(place, refixed(change(block)))
    return step


def root_entries(block):
    """Place and name of each entry of the root's block; the end entry last."""
    place = 0x18 + unpack_from("<I", block, 0x18)[0]
    while True:
        length, _, flags = unpack_from("<HHH", block, place + 8)
        if flags & 2:
            yield place, None
            return
        n = block[place + 16 + 0x40]
        yield place, bytes(block[place + 16 + 0x42:place + 16 + 0x42 + 2 * n]).decode("utf-16-le")
        place += length


def root_entry(name, place, data):
    """Bytes of the root's entry of that name (None: its end entry)."""
    def change(block):
        start = [p for p, n in root_entries(block) if n == name][0] + place
        block[start:start + len(data)] = data
        return block
    return edit_root(change)


def swap_entries(first, second):
    """Two entries of the root, of the same length, change places."""
    def change(block):
        a, b = ([p for p, n in root_entries(block) if n == name][0] for name in (first, second))
        length, other = unpack_from("<H", block, a + 8)[0], unpack_from("<H", block, b + 8)[0]
        assert length == other
        block[a:a + length], block[b:b + length] = block[b:b + length], block[a:a + length]
        return block
    return edit_root(change)


def drop_entry(name):
    """An entry of the root goes."""
    def change(block):
        start = [p for p, n in root_entries(block) if n == name][0]
        length, used = unpack_from("<H", block, start + 8)[0], unpack_from("<I", block, 0x1C)[0]
        end = 0x18 + used
        block[start:end] = block[start + length:end] + bytes(length)
        pack_into("<I", block, 0x1C, used - length)
        return block
    return edit_root(change)


def root_field(place, data):
    def change(block):
        block[place:place + len(data)] = data
        return block
    return edit_root(change)


def dead(r):
    return field(r, 0x16, u16(0))


def copy(source, target, size):
    return lambda v: v.put(target, v.image[source:source + size])


def directory(r, entries):
    """Record r becomes a directory with these entries in its root."""
    def step(v):
        block = v.load(r)
        if any(kind == ROOT for _, kind, _ in attributes(block)):
            replace(r, ROOT, resident(ROOT, root_value(entries), "$I30"), "$I30")(v)
        else:
            insert(r, resident(ROOT, root_value(entries), "$I30"))(v)
        field(r, 0x16, u16(3))(v)
    return step


def chain(blocks, last_child=None):
    """Record 23's index becomes a root and so many blocks below each other, at clusters 200 on; inner.txt in the last."""
    def step(v):
        directory(23, end_entry(0))(v)
        insert(23, extent(ALLOC, 0, blocks - 1, b"\x21" + bytes([blocks]) + u16(200) + b"\0", blocks * 4096, name="$I30"))(v)
        for i in range(blocks):
            entries = end_entry(i + 1) if i + 1 < blocks else index_entry(24, 23, "inner.txt") + end_entry(last_child)
            v.put((200 + i) * 4096, index_block(i, entries))
        bits(on=range(200, 200 + blocks))(v)
    return step


def nonresident_list(r, size=None, initialised=None, lowest=0, more=b"", cluster=300):
    """The record's resident list goes to a cluster of its own."""
    def step(v):
        block = v.load(r)
        start = find(block, LIST)
        length, offset = unpack_from("<IH", block, start + 0x10)
        value = bytes(block[start + offset:start + offset + length]) + more
        v.put(cluster * v.cluster, value)
        whole = len(value) if size is None else size
        replace(r, LIST, extent(LIST, lowest, lowest, b"\x21\x01" + u16(cluster) + b"\0", whole, initialised))(v)
        bits(on=[cluster])(v)
    return step


def array_at_2a(r, told):
    """The record's fixup array goes to 0x2A, over the place of its number, so that it tells none."""
    def step(v):
        block = v.load(r)
        block[0x2C:0x30] = u32(told)
        pack_into("<H", block, 4, 0x2A)
        pack_into("<H", block, 0x2A, 1)
        v.store(r, block)
    return step


def array_to(r, offset, first=0x38):
    """The record's fixup array goes to another place, and its attributes too."""
    def step(v):
        block = v.load(r)
        used, = unpack_from("<I", block, 0x18)
        moved = block[:0x38] + bytes(first - 0x38) + block[0x38:used]
        pack_into("<I", moved, 0x18, len(moved))
        pack_into("<H", moved, 0x14, first)
        pack_into("<H", moved, 4, offset)
        moved = moved.ljust(RECORD, b"\0")
        pack_into("<H", moved, offset, 1)
        v.store(r, moved)
    return step


def mirror_refixed(r):
    """A mirror record with another sequence number of its fixups."""
    def step(v):
        place = v.copy_place(r)
        v.put(place, refixed(unfixed(v.image[place:place + RECORD])))
    return step


def cut(length):
    """The image ends there."""
    def step(v):
        del v.image[length:]
    return step


# ---- the table

V0, V1, V2, V3 = (0, 1024, 4096), (1, 1024, 4096), (2, 1024, 4096), (3, 1024, 4096)
ODD = (0, 1030, 4096)  # N isn't a multiple of 64
SMALL, LARGE = (0, 2048, 512), (0, 1024, 65536)
OK, OK_ODD, OK_SMALL, OK_LARGE = "accepted 119", "accepted 119", "accepted 595", "accepted 59"


def bad(rule, record):
    return f"damaged: rule {rule} record {record}"


def geometry(f, value):
    return f"bad geometry: field {f} value {value}"


# V0 lies so: boot 0-1, $MFT 3-10 and 68-75, mirror 12, journal 14-29, bitmap 31, upcase 33-64, root's index 66,
# sparse 77, half 79-80, packed 82-85, listed 87 and 89, file00 91, file01 93-94, ..., file15 142-145, bad cluster 512.
# SMALL: boot 0-15, $MFT 17-80 and 488-551, mirror 82-89, journal 91-218, bitmap 220, upcase 222-477, root's index 479-486.

TABLE = [
    # the boot sector and the length
    ("geometry: no magic", V0, [boot(3, b"NTFS   \0")], "not an NTFS volume"),
    ("geometry: sector 513", V0, [boot(0x0B, u16(513))], geometry(1, 513)),
    ("geometry: sector 8192", V0, [boot(0x0B, u16(8192))], geometry(1, 8192)),
    ("geometry: sectors per cluster 3", V0, [boot(0x0D, b"\3")], geometry(2, 3)),
    ("geometry: sectors per cluster 0", V0, [boot(0x0D, b"\0")], geometry(2, 0)),
    ("geometry: cluster of 131072", V0, [boot(0x0B, u16(1024)), boot(0x0D, b"\x80")], geometry(3, 131072)),
    ("geometry: record byte 0", V0, [boot(0x40, b"\0")], geometry(4, 0)),
    ("geometry: record of 512", V0, [boot(0x40, b"\xF7")], geometry(4, 247)),
    ("geometry: record of 1 cluster", V0, [boot(0x40, b"\1")], bad("C3", 0)),  # three words don't fix up 4096 bytes
    ("geometry: record of 2 clusters of 512", SMALL, [boot(0x40, b"\2")], OK_SMALL),
    ("geometry: block of 512", V0, [boot(0x44, b"\xF7")], geometry(5, 247)),
    ("geometry: block byte 0", V0, [boot(0x44, b"\0")], geometry(5, 0)),
    ("geometry: block of 3 clusters", V0, [boot(0x44, b"\3")], geometry(5, 3)),
    ("geometry: block of 17 clusters", V0, [boot(0x44, b"\x11")], geometry(5, 17)),
    ("geometry: block of 2^128 bytes", V0, [boot(0x44, b"\x80")], geometry(5, 128)),
    ("geometry: block of 1 cluster", V0, [boot(0x44, b"\1")], OK),
    ("geometry: block of 16 clusters", V0, [boot(0x44, b"\x10")], bad("C13", 5)),
    ("geometry: no sectors", V0, [boot(0x28, u64(0))], geometry(6, 0)),
    ("geometry: 7 sectors", V0, [boot(0x28, u64(7))], geometry(6, 7)),
    ("geometry: 2^32 clusters", V0, [boot(0x28, u64(2**35))], geometry(6, 2**35)),
    ("geometry: 2^32 - 1 clusters", V0, [boot(0x28, u64(2**35 - 1))],
     f"image has 4198400 bytes, needs {(2**32 - 1) * 4096}"),
    ("geometry: $MFT at N", V0, [boot(0x30, u64(1024))], geometry(7, 1024)),
    ("geometry: $MFT at 2^64 - 1", V0, [boot(0x30, u64(2**64 - 1))], geometry(7, 2**64 - 1)),
    ("geometry: $MFT at the last cluster of 512", SMALL, [boot(0x30, u64(2047))], geometry(7, 2047)),
    ("geometry: mirror at N", V0, [boot(0x38, u64(1024))], geometry(8, 1024)),
    ("geometry: mirror in the last 7 of 512", SMALL, [boot(0x38, u64(2041))], geometry(8, 2041)),
    ("geometry: mirror in the last 8 of 512", SMALL, [boot(0x38, u64(2040))], bad("C15", 1)),
    ("geometry: $MFT and mirror bad", V0, [boot(0x38, u64(1024)), boot(0x30, u64(1024))], geometry(7, 1024)),
    ("geometry: no 55 AA", V0, [boot(0x1FE, b"\0\0")], OK),
    ("length: 511 bytes", V0, [cut(511)], "image has 511 bytes, needs 512"),
    ("length: 512 bytes", V0, [cut(512)], "image has 512 bytes, needs 4194304"),
    ("length: one byte short", V0, [cut(4194303)], "image has 4194303 bytes, needs 4194304"),
    ("length: N clusters", V0, [cut(4194304)], OK),
    ("length: backup differs", V0, [at(4194304, b"\0" * 512)], OK),

    # C3
    ("C3: record 0 torn", V0, [raw_record(0, 510, b"\x77\x77")], bad("C3", 0)),
    ("C3: record 0 torn in the last stride", V2, [raw_record(0, 1022, b"\x77\x77")], bad("C3", 0)),
    ("C3: record 0 begins BAAD", V0, [raw_record(0, 0, b"BAAD")], bad("C3", 0)),
    ("C3: record 0 not in use", V0, [dead(0)], bad("C3", 0)),
    ("C3: record 0 allocates 2048", V0, [field(0, 0x1C, u32(2048))], bad("C3", 0)),
    ("C3: fixup array at 0x28", V0, [raw_record(0, 4, u16(0x28))], bad("C3", 0)),
    ("C3: fixup array odd", V0, [raw_record(0, 4, u16(0x31))], bad("C3", 0)),
    ("C3: fixup count 2", V0, [raw_record(0, 6, u16(2))], bad("C3", 0)),
    ("C3: $MFT from VCN 1", V0, [vcns(0, 1, 8)], bad("C3", 0)),
    ("C3: no $DATA", V0, [attribute(0, DATA, 0, u32(0x100))], bad("C3", 0)),
    ("C3: hole in record 0's extent", V0, [pairs(0, b"\1\x08\0")], bad("C3", 0)),
    ("C3: LCN at N in record 0's extent", V0, [pairs(0, b"\x11\x07\x03\x21\x01\xFD\x03\0")], bad("C3", 0)),  # 7 at 3, 1 at 1024
    ("C3: record 0's pairs one VCN short", V0, [pairs(0, b"\x11\x07\x03\0")], bad("C3", 0)),  # the next begins at 8, not 7
    ("C3: record 0's pairs don't end", V0, [pairs(0, b"\x11\x08\x03\x11\x01\x7F\x31\x01")], bad("C3", 0)),
    ("C3: initialised above size", V0, [sizes(0, 65536, 65537)], bad("C3", 0)),
    ("C3: size above the VCNs", V0, [sizes(0, 65537, 65536)], bad("C3", 0)),
    ("C3: 11 records", V0, [sizes(0, 11 * 1024, 11 * 1024)], bad("C3", 0)),
    ("C3: extension not initialised", V0, [sizes(0, 65536, 28 * 1024 + 1023)], bad("C3", 0)),
    ("C3: extension just initialised", V0, [sizes(0, 65536, 29 * 1024)], bad("C9", 6)),  # file00 and others are dead then
    ("C3: further extent at VCN 9", V0, [relist(0, edited(3, 8, u64(9))), vcns(28, 9, 16)], bad("C3", 0)),
    ("C3: entry with another lowest VCN", V0, [relist(0, edited(3, 8, u64(7)))], bad("C3", 0)),
    ("C3: entry of a dead record", V0, [relist(0, edited(3, 0x10, ref(30)))], bad("C3", 0)),
    ("C3: entry of a record in the part not yet known", V0,
     [*new_record(50, 28), relist(0, edited(3, 0x10, ref(50)))], bad("C3", 0)),
    ("C3: entry of a record far outside", V0, [relist(0, edited(3, 0x10, ref(2**47)))], bad("C3", 0)),
    ("C3: entry with another instance", V0, [relist(0, edited(3, 0x18, u16(7)))], bad("C3", 0)),
    ("C3: entry of a record without the extent", V0, [relist(0, edited(3, 0x10, ref(27)))], bad("C3", 0)),
    ("C3: entry too short", V0, [relist(0, edited(0, 4, u16(25)))], bad("C3", 0)),
    ("C3: last entry passes the end", V0, [relist(0, edited(4, 4, u16(33)))], bad("C3", 0)),
    ("C3: name of an entry passes it", V0, [relist(0, edited(0, 6, b"\4"))], bad("C3", 0)),
    ("C3: 25 bytes behind the last entry", V0, [relist(0, lambda e: e + [bytes([0, 0, 0, 0, 25] + [0] * 20)])], bad("C3", 0)),
    ("C3: extension dead", V0, [dead(28)], bad("C3", 0)),
    ("C3: extension torn", V0, [raw_record(28, 1022, b"\x77\x77")], bad("C3", 0)),
    ("C3: extension doesn't parse", V0, [field(28, 0x18, u32(1032))], bad("C3", 0)),
    ("C3: resident where the extension should be", V0,
     [replace(28, DATA, resident(DATA, b"", instance=0)), relist(0, edited(3, 8, u64(0)))], bad("C3", 0)),
    ("C3: extension without a base", V0, [field(28, 0x20, u64(0))], bad("C3", 0)),
    ("C3: hole in the extension", V0, [pairs(28, b"\1\x08\0")], bad("C3", 28)),
    ("C3: extension's pairs have a size of 9", V0, [pairs(28, b"\x19\x08\0")], bad("C3", 28)),
    ("C3: extension's LCN below 0", V0, [pairs(28, b"\x11\x08\xFF\0")], bad("C3", 28)),
    ("C3: extension passes N by one", V0, [pairs(28, b"\x21\x08\xF9\x03\0")], bad("C3", 28)),  # 8 at 1017
    ("C3: extension passes N by one, seed 2", V2, [pairs(28, b"\x21\x08\xF9\x03\0")], bad("C3", 28)),
    ("C3: extension of 7 VCNs", V0, [pairs(28, b"\x11\x07\x44\0")], bad("C3", 0)),  # size above the VCNs
    ("C3: extension of 9 VCNs is C7's", V0, [pairs(28, b"\x11\x09\x44\0")], bad("C7", 28)),
    ("C3: sequence of the entry is C11's", V0, [relist(0, edited(3, 0x10, ref(28, 2)))], bad("C11", 0)),
    ("C3: number of the extension is C4's", V0, [field(28, 0x2C, u32(29))], bad("C4", 28)),
    ("C3: number of record 0 is C4's", V0, [field(0, 0x2C, u32(1))], bad("C4", 0)),
    ("C3: reference of upper bits 0", V0, [relist(0, edited(3, 0x10, u64(28)))], OK),
    ("C3: base of upper bits 2", V0, [field(0, 0x10, u16(2)), relist(0, lambda e: [x[:0x16] + u16(0) + x[0x18:] for x in e]),
                                     field(28, 0x20, ref(0, 2))], bad("C14", 5)),  # the root's entry has sequence 1
    ("C3: large clusters, 11 records", LARGE, [sizes(0, 11 * 1024 + 1023, 11 * 1024)], bad("C3", 0)),
    ("C3: small clusters, one VCN short", SMALL, [pairs(0, b"\x11\x3F\x11\0")], bad("C3", 0)),

    # C4
    ("C4: record 0's number", V3, [field(0, 0x2C, u32(5))], bad("C4", 0)),
    ("C4: record 1 torn", V0, [raw_record(1, 510, b"\x77\x77")], bad("C4", 1)),
    ("C4: number of record 24", V0, [field(24, 0x2C, u32(25))], bad("C4", 24)),
    ("C4: number not told", V0, [array_at_2a(24, 0x777)], OK),
    ("C4: bytes in use of record 47", V0, [field(47, 0x18, u32(1032))], bad("C4", 47)),
    ("C4: bytes in use of record 47, seed 2", V2, [field(47, 0x18, u32(1032))], bad("C4", 47)),
    ("C4: bytes in use 3", V0, [field(47, 0x18, u32(3))], bad("C4", 47)),
    ("C4: record 63 BAAD", V0, [raw_record(63, 0, b"BAAD")], bad("C4", 63)),
    ("C4: record 12 BAAD", V0, [raw_record(12, 0, b"BAAD")], bad("C4", 12)),
    ("C4: record 63 BAAD, not initialised", V0, [raw_record(63, 0, b"BAAD"), sizes(0, 65536, 64512)], OK),
    ("C4: record 63 BAAD, its last byte not initialised", V0, [raw_record(63, 0, b"BAAD"), sizes(0, 65536, 65535)], OK),
    ("C4: record 48 FILE and in use alone", V0, [raw_record(48, 0, b"FILE"), raw_record(48, 0x16, b"\1")], bad("C4", 48)),
    ("C4: record 48 FILE, not in use", V0, [raw_record(48, 0, b"FILE")], OK),
    ("C4: record 48 in use, not FILE", V0, [raw_record(48, 0, b"file"), raw_record(48, 0x16, b"\1")], OK),
    ("C4: length not a multiple of 8", V0, [attribute(16, STD, 4, u32(97))], bad("C4", 16)),
    ("C4: length 16", V0, [attribute(16, STD, 4, u32(16))], bad("C4", 16)),
    ("C4: length 0", V0, [attribute(16, STD, 4, u32(0))], bad("C4", 16)),
    ("C4: length passes bytes in use", V0, [attribute(16, DATA, 4, u32(48))], bad("C4", 16)),
    ("C4: end mark missing", V0, [lambda v: (lambda b: (b.__setitem__(slice(find(b, 0xFFFFFFFF), find(b, 0xFFFFFFFF) + 4), u32(0xFFFFFFFE)),
                                                        v.store(16, b)))(v.load(16))], bad("C4", 16)),
    ("C4: form byte 2", V0, [attribute(32, DATA, 8, b"\2")], bad("C4", 32)),
    ("C4: name ends past the length", V0, [attribute(32, DATA, 9, b"\5")], bad("C4", 32)),  # 64 + 10 of 72
    ("C4: empty name offset past the length", V0, [attribute(32, DATA, 10, u16(5000))], OK),
    ("C4: value ends past the length", V0, [attribute(16, DATA, 0x10, u32(17))], bad("C4", 16)),  # 24 + 17 of 40
    ("C4: value to the length", V0, [attribute(16, DATA, 0x10, u32(16))], OK),
    ("C4: empty value past the length", V0, [attribute(4, DATA, 0x14, u16(32))], bad("C4", 4)),
    ("C4: value offset 23", V0, [attribute(4, DATA, 0x14, u16(23))], bad("C4", 4)),
    ("C4: pairs offset 63", V0, [attribute(17, DATA, 0x20, u16(63))], bad("C4", 17)),
    ("C4: pairs offset past the length", V0, [attribute(17, DATA, 0x20, u16(73))], bad("C4", 17)),
    ("C4: lowest VCN above 2^48", V0, [vcns(17, 2**48 + 1, 2**48)], bad("C4", 17)),
    ("C4: highest below lowest - 1", V0, [vcns(17, 0, -2)], bad("C4", 17)),
    ("C4: highest above 2^48", V0, [vcns(17, 0, 2**48 + 1)], bad("C4", 17)),
    ("C4: first attribute 0x34", V0, [field(17, 0x14, u16(0x34))], bad("C4", 17)),
    ("C4: first attribute 0x30", V0, [field(17, 0x14, u16(0x30))], bad("C4", 17)),  # the fixup array ends at 0x36
    ("C4: first attribute past bytes in use", V0, [field(17, 0x14, u16(1024))], bad("C4", 17)),
    ("C4: small clusters, record 47 torn", SMALL, [raw_record(47, 1022, b"\x77\x77")], bad("C4", 47)),
    ("C4: large clusters, record 63 BAAD", LARGE, [raw_record(63, 0, b"BAAD")], bad("C4", 63)),

    # C5
    ("C5: bit 0", V0, [mft_bit(0, 0)], bad("C5", 0)),
    ("C5: bit 24", V0, [mft_bit(24, 0)], bad("C5", 24)),
    ("C5: bit 22, an extension's", V2, [mft_bit(22, 0)], bad("C5", 22)),
    ("C5: bit 47", V0, [mft_bit(47, 0)], bad("C5", 47)),
    ("C5: bits 47 and 1", V0, [mft_bit(47, 0), mft_bit(1, 0)], bad("C5", 1)),
    ("C5: bit 12 without a record", V0, [mft_bit(12, 1), mft_bit(63, 1)], OK),
    ("C5: 5 bytes alone", V0, [attribute(0, BITS, 0x10, u32(5))], bad("C5", 40)),
    ("C5: 6 bytes", V0, [attribute(0, BITS, 0x10, u32(6))], OK),
    ("C5: no $BITMAP, entry stays", V0, [remove(0, BITS)], bad("C5", 0)),
    ("C5: no $BITMAP and no entry", V0, [remove(0, BITS), relist(0, lambda e: e[:4])], bad("C5", 0)),
    ("C5: entry with another instance", V0, [relist(0, edited(4, 0x18, u16(0)))], bad("C5", 0)),
    ("C5: entry with another sequence", V0, [relist(0, edited(4, 0x10, ref(0, 2)))], bad("C5", 0)),
    ("C5: entry of another record", V0, [relist(0, edited(4, 0x10, ref(5)))], bad("C5", 0)),
    ("C5: record 0 has a base", V0, [field(0, 0x20, ref(5))], bad("C5", 0)),
    ("C5: new live record", V0, [*new_record(48, 16), mft_bit(48, 0)], bad("C5", 48)),
    ("C5: new live record with its bit", V0, new_record(48, 16), OK),
    ("C5: non-resident, not initialised", V0,
     [replace(0, BITS, extent(BITS, 0, 0, b"\x21\x01\x2C\x01\0", 8, 5, instance=4)), at(300 * 4096, b"\xFF" * 8), bits(on=[300])],
     bad("C5", 40)),
    ("C5: non-resident", V0,
     [replace(0, BITS, extent(BITS, 0, 0, b"\x21\x01\x2C\x01\0", 8, 8, instance=4)), at(300 * 4096, b"\xFF" * 8), bits(on=[300])],
     "accepted 120"),
    ("C5: pairs of $BITMAP too few", V0,
     [replace(0, BITS, extent(BITS, 0, 1, b"\x21\x01\x2C\x01\0", 8, 8, instance=4)), at(300 * 4096, b"\xFF" * 8)], bad("C5", 0)),

    # C6
    ("C6: record 0, a name over its value", V0, [attribute(0, STD, 9, b"\1")], bad("C6", 0)),  # 24 + 2 above 24
    ("C6: record 5's root begins at 16", V0, [attribute(5, ROOT, 10, u16(16), "$I30")], bad("C6", 5)),
    ("C6: record 5's root begins at 23", V2, [attribute(5, ROOT, 10, u16(23), "$I30")], bad("C6", 5)),
    ("C6: record 5's allocation begins at 56", V0, [attribute(5, ALLOC, 10, u16(56), "$I30")], bad("C6", 5)),
    ("C6: record 5's allocation begins at 62", V0, [attribute(5, ALLOC, 10, u16(62), "$I30")], bad("C6", 5)),
    ("C6: record 5's bitmap passes its value", V0, [attribute(5, BITS, 10, u16(26), "$I30")], bad("C6", 5)),
    ("C6: record 8's $Bad passes its pairs", V0, [attribute(8, DATA, 10, u16(66), "$Bad")], bad("C6", 8)),
    ("C6: record 23's root begins at 22", V0, [attribute(23, ROOT, 10, u16(22), "$I30")], bad("C6", 23)),
    ("C6: record 47, name from 22", V0, [insert(47, resident(DATA, b"x" * 8, "x", name_offset=22, value_offset=32))], bad("C6", 47)),
    ("C6: record 47, name from 24", V0, [insert(47, resident(DATA, b"x" * 8, "x", name_offset=24, value_offset=32))], OK),
    ("C6: record 47, name up to the value", V0, [insert(47, resident(DATA, b"x" * 8, "x", name_offset=30, value_offset=32))], OK),
    ("C6: record 47, name one byte over the value", V0,
     [insert(47, resident(DATA, b"x" * 8, "x", name_offset=31, value_offset=32))], bad("C6", 47)),
    ("C6: empty names at 0", V0, [attribute(16, DATA, 10, u16(0)), attribute(17, DATA, 10, u16(0))], OK),

    # C7
    ("C7: record 0, a further attribute too long", V0, [insert(0, extent(0x100, 0, 1, b"\x21\x01\x2C\x01\0", 0))], bad("C7", 0)),
    ("C7: record 1, pairs cover too few", V0, [vcns(1, 0, 1)], bad("C7", 1)),
    ("C7: record 2, pairs cover too many", V0, [vcns(2, 0, 14)], bad("C7", 2)),
    ("C7: record 19, LCN at N", V0, [pairs(19, b"\x21\x02\xFF\x03\0")], bad("C7", 19)),  # 2 at 1023
    ("C7: record 19, LCN N - 1 is C9's", V0, [pairs(19, b"\x21\x02\xFE\x03\0")], bad("C9", 6)),
    ("C7: record 19, last LCN N - 1", V0, [pairs(19, b"\x21\x02\xFE\x03\0"), bits([1022, 1023], [79, 80])], OK),
    ("C7: record 19, LCN N itself", V0, [pairs(19, b"\x21\x02\x00\x04\0")], bad("C7", 19)),
    ("C7: record 47, no closing 0", V0, [pairs(47, b"\x21\x01\x8E\x00\x21\x03\x01\x00")], bad("C7", 47)),
    ("C7: record 47, cut within a pair", V0, [pairs(47, b"\x21\x04\x8E\x00\x21\x03\x01\x31")], bad("C7", 47)),
    ("C7: record 47, one VCN too few, seed 2", V2, [vcns(47, 0, 4)], bad("C7", 47)),
    ("C7: length nibble 0", V0, [pairs(33, b"\x10\x5D\0")], bad("C7", 33)),
    ("C7: length -128", V0, [pairs(33, b"\x11\x80\x5D\0")], bad("C7", 33)),
    ("C7: length 0", V0, [pairs(33, b"\x11\x00\x5D\0")], bad("C7", 33)),
    ("C7: size nibble 9", V0, [pairs(33, b"\x91\x02" + b"\x5D" + bytes(8) + b"\0")], bad("C7", 33)),
    ("C7: size nibble 8", V0, [pairs(33, b"\x81\x02" + b"\x5D" + bytes(7) + b"\0")], OK),
    ("C7: LCN below 0", V0, [pairs(33, b"\x11\x02\xFF\0")], bad("C7", 33)),
    ("C7: empty stream with highest 0", V0, [vcns(17, 0, 0)], bad("C7", 17)),
    ("C7: pairs offset at the end", V0, [attribute(17, DATA, 0x20, u16(72))], bad("C7", 17)),
    ("C7: hole of 2^48", V0, [insert(47, extent(DATA, 0, 2**48 - 1, b"\7" + u64(2**48)[:7] + b"\0", 0, name="x"))], OK),
    ("C7: hole of 2^48 + 1", V0, [insert(47, extent(DATA, 0, 2**48, b"\7" + u64(2**48 + 1)[:7] + b"\0", 0, name="x"))], bad("C7", 47)),
    ("C7: extension 22", V0, [vcns(22, 1, 2)], bad("C7", 22)),
    ("C7: listed hole's delta counts from the last LCN", V0,
     [pairs(34, b"\x11\x01\x60\x01\x01\x11\x01\x02\0"), bits(off=[97])], "accepted 118"),  # 96, a hole, 98

    # C8
    ("C8: record 0 within itself", V0, [insert(0, extent(0x100, 0, 0, b"\x11\x01\x03\0", 0))], bad("C8", 0)),
    ("C8: record 33 within one run list", V0, [pairs(33, b"\x11\x01\x5D\x11\x01\x00\0")], bad("C8", 33)),
    ("C8: record 33 with record 32's cluster", V0, [pairs(33, b"\x21\x02\x5B\x00\0")], bad("C8", 33)),
    ("C8: record 32 with record 33's cluster", V0, [pairs(32, b"\x11\x01\x5D\0")], bad("C8", 33)),
    ("C8: record 47 in $MFT", V0, [pairs(47, b"\x11\x04\x03\0")], bad("C8", 47)),
    ("C8: record 47 in $MFT's second part", V2, [lambda v: pairs(47, b"\x21\x04" + u16(v.areas["mft second"][0]) + b"\0")(v)], bad("C8", 47)),
    ("C8: $Bad over the mirror", V0, [pairs(8, b"\1\x0C\x11\x01\x0C\2\xF3\x03\0", name="$Bad")], bad("C8", 8)),  # 12, 1, 1011
    ("C8: $Bad over file15", V0, [pairs(8, b"\2\x91\x00\x21\x01\x91\x00\2\x6E\x03\0", name="$Bad")], bad("C8", 47)),  # 145, 1, 878
    ("C8: last of file00's and first of $Boot", V0, [pairs(32, b"\x11\x01\x01\0")], bad("C8", 32)),
    ("C8: extension 22 with record 21's cluster", V0, [pairs(22, b"\x11\x01\x57\0")], bad("C8", 22)),
    ("C8: two attributes of record 47", V0, [insert(47, extent(DATA, 0, 0, b"\x21\x01\x91\x00\0", 0, name="x"))], bad("C8", 47)),
    ("C8: a dead record owns nothing", V0, [pairs(33, b"\x11\x02\x5B\0"), field(33, 0x16, u16(0)), bits(off=[93, 94]), drop_entry("file01")],
     "accepted 117"),

    # C9
    ("C9: bit of cluster 0", V0, [bits(off=[0])], bad("C9", 6)),
    ("C9: bit 2", V0, [bits(on=[2])], bad("C9", 6)),
    ("C9: bit 64, first of a word", V0, [bits(off=[64])], bad("C9", 6)),
    ("C9: bit 63, last of a word", V0, [bits(off=[63])], bad("C9", 6)),
    ("C9: bit 127, last of a word", V0, [bits(on=[127])], bad("C9", 6)),  # 124 to 126 are file10's
    ("C9: bit 128, first of a word", V0, [bits(off=[128])], bad("C9", 6)),
    ("C9: bit of the last owned cluster", V0, [bits(off=[145])], bad("C9", 6)),
    ("C9: bit of the bad cluster", V0, [bits(off=[512])], bad("C9", 6)),
    ("C9: bit of the last cluster set", V0, [bits(on=[1023])], bad("C9", 6)),
    ("C9: bit of the last cluster clear, seed 2", V2, [bits(off=[1023])], bad("C9", 6)),
    ("C9: bit of the last cluster, 1030 clusters", ODD, [bits(on=[1029])], bad("C9", 6)),
    ("C9: bits past N clear, 1030 clusters", ODD, [bits(off=range(1030, 1088))], OK_ODD),
    ("C9: bits past N set", V0, [sizes(6, 136, 136), at(31 * 4096 + 128, b"\xFF" * 8)], OK),
    ("C9: bits past N in the last cluster set", V0, [sizes(6, 4096, 4096), at(31 * 4096 + 128, b"\xA5" * 3968)], OK),
    ("C9: size 127", V0, [sizes(6, 127, 127)], bad("C9", 6)),
    ("C9: initialised 127", V0, [sizes(6, 128, 127)], bad("C9", 6)),
    ("C9: 129 bytes for 1030 clusters", ODD, [sizes(6, 129, 129)], OK_ODD),
    ("C9: 128 bytes for 1030 clusters", ODD, [sizes(6, 128, 128)], bad("C9", 6)),
    ("C9: flag of $Bitmap", V0, [attribute(6, DATA, 12, u16(0x8000))], bad("C9", 6)),
    ("C9: hole for $Bitmap", V0, [pairs(6, b"\1\1\0"), bits(off=[31])], bad("C9", 6)),
    ("C9: hole behind $Bitmap", V0, [pairs(6, b"\x11\1\x1F\1\1\0"), vcns(6, 0, 1)], bad("C9", 6)),
    ("C9: $Bitmap in two extents", V0, [insert(6, extent(DATA, 1, 1, b"\x21\1\x2C\1\0", 0)), bits(on=[300])], bad("C9", 6)),
    ("C9: $Bitmap in two runs", V0, [pairs(6, b"\x11\1\x1F\x21\1\x0D\1\0"), vcns(6, 0, 1), bits(on=[300])], "accepted 120"),
    ("C9: $Bitmap from VCN 1", V0, [vcns(6, 1, 1)], bad("C9", 6)),
    ("C9: $Bitmap resident", V0, [replace(6, DATA, resident(DATA, b"\xFF" * 128)), bits(off=[31])], bad("C9", 6)),
    ("C9: list in record 6", V0, [give_list(6)], bad("C9", 6)),
    ("C9: record 6 dead", V0, [dead(6)], bad("C9", 6)),
    ("C9: record 6 has a base", V0, [field(6, 0x20, ref(5))], bad("C9", 6)),
    ("C9: lowest record doesn't matter", V0, [bits(off=[0]), attribute(6, DATA, 12, u16(1))], bad("C9", 6)),
    ("C9: large clusters, last bit", LARGE, [bits(on=[1023])], bad("C9", 6)),
    ("C9: small clusters, last bit", SMALL, [bits(on=[2047])], bad("C9", 6)),

    # C10
    ("C10: record 1's base is dead", V0, [field(1, 0x20, ref(12))], bad("C10", 1)),
    ("C10: base with another sequence", V0, [field(22, 0x20, ref(21, 2))], bad("C10", 22)),
    ("C10: base with another sequence, seed 2", V2, [field(22, 0x20, ref(21, 2))], bad("C10", 22)),
    ("C10: base's own sequence changed", V0, [field(21, 0x10, u16(2))], bad("C10", 22)),
    ("C10: base is an extension", V0, [field(22, 0x20, ref(28))], bad("C10", 22)),
    ("C10: base is itself", V0, [field(22, 0x20, ref(22))], bad("C10", 22)),
    ("C10: base outside $MFT", V0, [field(22, 0x20, ref(2**40))], bad("C10", 22)),
    ("C10: base of upper bits 0", V0, [field(22, 0x20, u64(21))], OK),
    ("C10: record 47's base with another sequence", V0, [field(47, 0x20, ref(5, 2))], bad("C10", 47)),
    ("C10: record 47's base is record 0 with sequence 2", V0, [field(47, 0x20, ref(0, 2))], bad("C10", 47)),
    ("C10: record 47's base is record 0", V0, [field(47, 0x20, ref(0))], bad("C11", 0)),
    ("C10: records 47 and 1", V0, [field(47, 0x20, ref(48)), field(1, 0x20, ref(48))], bad("C10", 1)),

    # C11: entries of record 0 are 0x10, 0x30, 0x80, 0x80 of 28, 0xB0; those of record 21 are 0x10, 0x30, 0x80, 0x80 of 22
    ("C11: record 0 leaves one out", V0, [relist(0, lambda e: e[1:])], bad("C11", 0)),
    ("C11: record 0 names one twice", V0, [relist(0, lambda e: e + [e[4]])], bad("C11", 0)),
    ("C11: record 0, other instance", V0, [relist(0, edited(0, 0x18, u16(5)))], bad("C11", 0)),
    ("C11: record 1 has an extension, no list", V0, [field(47, 0x20, ref(1))], bad("C11", 1)),
    ("C11: record 46 has an extension, no list", V0, [field(47, 0x20, ref(46))], bad("C11", 46)),
    ("C11: record 21 names one twice", V0, [relist(21, lambda e: e + [e[2]])], bad("C11", 21)),
    ("C11: record 21 names one twice, without upper bits", V0,
     [relist(21, lambda e: e[:1] + [e[0][:0x16] + b"\0\0" + e[0][0x18:]] + e[1:])], bad("C11", 21)),
    ("C11: record 21 leaves one out", V0, [relist(21, lambda e: e[:1] + e[2:])], bad("C11", 21)),
    ("C11: record 21 leaves the extension out", V2, [relist(21, lambda e: e[:3])], bad("C11", 21)),
    ("C11: record 21, other instance", V0, [relist(21, edited(3, 0x18, u16(1)))], bad("C11", 21)),
    ("C11: record 21, other type", V0, [relist(21, edited(1, 0, u32(0x40)))], bad("C11", 21)),
    ("C11: record 21, other name", V0, [relist(21, edited(1, 6, b"\1"))], bad("C11", 21)),
    ("C11: record 21, lowest 1 of a resident one", V0, [relist(21, edited(1, 8, u64(1)))], bad("C11", 21)),
    ("C11: record 21, lowest 2 of the extension", V0, [relist(21, edited(3, 8, u64(2)))], bad("C11", 21)),
    ("C11: record 21, reference with sequence 2", V0, [relist(21, edited(3, 0x10, ref(22, 2)))], bad("C11", 21)),
    ("C11: record 21, references without upper bits", V0, [relist(21, lambda e: [x[:0x16] + b"\0\0" + x[0x18:] for x in e])], OK),
    ("C11: record 21, another record", V0, [relist(21, edited(1, 0x10, ref(16)))], bad("C11", 21)),
    ("C11: record 21 names its list", V0, [relist(21, lambda e: e[:1] + [entry(LIST, 21, 1)] + e[1:])], bad("C11", 21)),
    ("C11: record 21, entry of 25 bytes", V0, [relist(21, edited(0, 4, u16(25)))], bad("C11", 21)),
    ("C11: record 21, last entry passes", V0, [relist(21, edited(3, 4, u16(40)))], bad("C11", 21)),
    ("C11: record 21, empty name past its entry", V0, [relist(21, edited(3, 7, b"\x21"))], bad("C11", 21)),
    ("C11: record 21, empty name at the end of its entry", V0, [relist(21, edited(3, 7, b"\x20"))], OK),
    ("C11: record 21, entry of 26 bytes", V0, [relist(21, lambda e: e[:3] + [e[3][:4] + u16(26) + e[3][6:26]])], OK),
    ("C11: record 21, an attribute of all five the same, listed twice", V0,
     [insert(21, resident(0x100, b"", instance=9)), insert(21, resident(0x100, b"", instance=9)),
      relist(21, lambda e: e + [entry(0x100, 21, 9)] * 2)], bad("C11", 21)),
    ("C11: record 21, an attribute of all five the same, listed once", V0,
     [insert(21, resident(0x100, b"", instance=9)), insert(21, resident(0x100, b"", instance=9)),
      relist(21, lambda e: e + [entry(0x100, 21, 9)])], bad("C11", 21)),
    ("C11: record 22 dead", V0, [dead(22), bits(off=[89])], bad("C11", 21)),
    ("C11: record 47 gets a right list", V0, [give_list(47)], OK),
    ("C11: record 47 gets an empty list", V0, [give_list(47, lambda e: [])], bad("C11", 47)),
    ("C11: record 47's list leaves the last out", V0, [give_list(47, lambda e: e[:-1])], bad("C11", 47)),
    ("C11: list in a cluster", V0, [nonresident_list(21)], "accepted 120"),
    ("C11: list in a cluster, size above its VCNs", V0, [nonresident_list(21, size=4097, initialised=128)], bad("C11", 21)),
    ("C11: list in a cluster, initialised above its size", V0, [nonresident_list(21, size=128, initialised=129)], bad("C11", 21)),
    ("C11: list in a cluster, not initialised", V0, [nonresident_list(21, size=128, initialised=96)], bad("C11", 21)),
    ("C11: list in a cluster, one entry more", V0, [nonresident_list(21, more=entry(DATA, 22, 0, 1))], bad("C11", 21)),
    ("C11: list in a cluster and a second of its name", V0,
     [nonresident_list(21), insert(21, extent(LIST, 1, 1, b"\x21\1\x2D\1\0", 0, instance=10)), bits(on=[301])], bad("C11", 21)),
    ("C11: a second list, listed, of another name", V0,
     [insert(21, resident(LIST, b"", "x", instance=9)), relist(21, lambda e: e[:1] + [entry(LIST, 21, 9, name="x")] + e[1:])], OK),
    ("C11: a second list, listed, of the same name is C12's", V0,
     [insert(21, resident(LIST, b"", instance=9)), relist(21, lambda e: e[:1] + [entry(LIST, 21, 9)] + e[1:])], bad("C12", 21)),
    ("C11: a list that has a name is a list", V0, [insert(47, resident(LIST, b"", "x"))], bad("C11", 47)),

    # C12
    ("C12: record 0 has two standard informations", V0,
     [insert(0, resident(STD, bytes(72), instance=9)), relist(0, lambda e: e[:1] + [entry(STD, 0, 9)] + e[1:])], bad("C12", 0)),
    ("C12: record 1, size above the VCNs", V0, [sizes(1, 4097, 4096)], bad("C12", 1)),
    ("C12: record 19, initialised above size", V0, [sizes(19, 4101, 4102)], bad("C12", 19)),
    ("C12: record 47, size above the VCNs", V0, [sizes(47, 16385, 16384)], bad("C12", 47)),
    ("C12: record 47, size of 2^64 - 1", V2, [sizes(47, 2**64 - 1, 0)], bad("C12", 47)),
    ("C12: record 47, size 0", V0, [sizes(47, 0, 0)], OK),
    ("C12: record 17, size 1 without VCNs", V0, [sizes(17, 1, 0)], bad("C12", 17)),
    ("C12: extents overlap by one VCN", V0, [pairs(21, b"\x21\x02\x57\x00\0"), vcns(21, 0, 1), bits(on=[88])], bad("C12", 21)),
    ("C12: extents overlap from VCN 0", V0, [vcns(22, 0, 0), relist(21, edited(3, 8, u64(0)))], bad("C12", 21)),
    ("C12: gap of one VCN", V0, [vcns(22, 2, 2), relist(21, edited(3, 8, u64(2)))], bad("C12", 21)),
    ("C12: extents in another order", V0, [relist(21, lambda e: e[:2] + [e[3], e[2]])], bad("C12", 21)),
    ("C12: entries of other types in another order", V0, [relist(21, lambda e: [e[2], e[1], e[3], e[0]])], OK),
    ("C12: size above both extents", V0, [sizes(21, 8193, 8192)], bad("C12", 21)),
    ("C12: sizes of a later extent", V0, [sizes(22, 2**60, 2**61)], OK),
    ("C12: extent from VCN 1", V0, [vcns(33, 1, 2)], bad("C12", 33)),
    ("C12: record 16, two resident streams", V0, [insert(16, resident(DATA, b"x"))], bad("C12", 16)),
    ("C12: record 16, two streams of two names", V0, [insert(16, resident(DATA, b"x", "x"))], OK),
    ("C12: record 19, resident and not", V0, [insert(19, resident(DATA, b"x"))], bad("C12", 19)),
    ("C12: record 16, names of any number", V0, [insert(16, resident(NAME, key(5, "other")))] * 3, OK),
    ("C12: record 16, a name that isn't resident among them", V0, [insert(16, extent(NAME, 0, -1, b"\0", 0))], bad("C12", 16)),
    ("C12: record 47, two types 0x100", V0, [insert(47, resident(0x100, b"")), insert(47, resident(0x100, b"", instance=10))], bad("C12", 47)),

    # C13
    ("C13: $UpCase has a hole", V0, [pairs(10, b"\1\1\x11\x1F\x22\0"), bits(off=[33])], bad("C13", 10)),
    ("C13: $UpCase's last VCN is a hole", V0, [pairs(10, b"\x11\x1F\x21\1\1\0"), bits(off=[64])], bad("C13", 10)),
    ("C13: $UpCase has a flag", V0, [attribute(10, DATA, 12, u16(1))], bad("C13", 10)),
    ("C13: $UpCase has size 131071", V0, [sizes(10, 131071, 131071)], bad("C13", 10)),
    ("C13: $UpCase initialised 131070", V2, [sizes(10, 131072, 131070)], bad("C13", 10)),
    ("C13: $UpCase has one cluster more", V0, [pairs(10, b"\x11\x20\x21\x21\1\x0B\1\0"), vcns(10, 0, 32), bits(on=[300])], "accepted 120"),
    ("C13: $UpCase dead", V0, [dead(10), bits(off=range(33, 65))], bad("C13", 10)),
    ("C13: $UpCase has a flag and record 0 is no directory", V0,
     [attribute(10, DATA, 12, u16(1)), field(0, 0x16, u16(3))], bad("C13", 10)),
    ("C13: record 0 is no directory", V0, [field(0, 0x16, u16(3))], bad("C13", 0)),
    ("C13: record 47 is no directory", V0, [field(47, 0x16, u16(3))], bad("C13", 47)),
    ("C13: extension with the directory flag", V0, [field(22, 0x16, u16(3))], OK),
    ("C13: wrong order", V0, [swap_entries("file00", "file01")], bad("C13", 5)),
    ("C13: wrong order, seed 2", V2, [swap_entries("file14", "file15")], bad("C13", 5)),
    ("C13: names that are equal under $UpCase in the other order", V0, [swap_entries("A.txt", "a.txt")], OK),
    ("C13: two names with the same units", V0, [root_entry("a.txt", 16 + 0x42, units("A"))], bad("C13", 5)),
    ("C13: file01 is file00", V0, [root_entry("file01", 16 + 0x42, units("file00"))], bad("C13", 5)),
    ("C13: same units around another", V0,
     [directory(23, index_entry(24, 23, "A") + index_entry(24, 23, "a") + index_entry(24, 23, "A") + end_entry())], bad("C13", 23)),
    ("C13: $UpCase puts f behind", V0, [at(33 * 4096 + 2 * 0x66, u16(0x5A))], bad("C13", 5)),
    ("C13: shorter name comes first", V0,
     [directory(23, index_entry(24, 23, "inner.txtx") + index_entry(24, 23, "inner.txt") + end_entry())], bad("C13", 23)),
    ("C13: record 11's type", V0, [attribute(11, ROOT, 32, u32(0x80), "$I30")], bad("C13", 11)),
    ("C13: record 11's collation", V0, [attribute(11, ROOT, 36, u32(0), "$I30")], bad("C13", 11)),
    ("C13: record 11's block size", V0, [attribute(11, ROOT, 40, u32(8192), "$I30")], bad("C13", 11)),
    ("C13: record 11's clusters per block", V0, [attribute(11, ROOT, 44, b"\7\7\7\7", "$I30")], OK),
    ("C13: record 11's value of 31", V0, [attribute(11, ROOT, 16, u32(31), "$I30")], bad("C13", 11)),
    ("C13: record 11's first entry 8", V0, [attribute(11, ROOT, 48, u32(8), "$I30")], bad("C13", 11)),
    ("C13: record 11's first entry 20", V0, [attribute(11, ROOT, 48, u32(20), "$I30")], bad("C13", 11)),
    ("C13: record 11's first entry above used", V0, [attribute(11, ROOT, 48, u32(40), "$I30")], bad("C13", 11)),
    ("C13: record 11's used passes", V0, [attribute(11, ROOT, 52, u32(33), "$I30")], bad("C13", 11)),
    ("C13: record 11's used is short", V0, [attribute(11, ROOT, 52, u32(24), "$I30")], bad("C13", 11)),
    ("C13: record 11's used ends at the first entry", V0, [attribute(11, ROOT, 52, u32(16), "$I30")], bad("C13", 11)),
    ("C13: record 11's allocated and flag", V0, [attribute(11, ROOT, 56, u32(5) + b"\1", "$I30")], OK),
    ("C13: record 11's entry of 8", V0, [attribute(11, ROOT, 72, u16(8), "$I30")], bad("C13", 11)),
    ("C13: record 11's entry of 20", V0, [attribute(11, ROOT, 72, u16(20), "$I30")], bad("C13", 11)),
    ("C13: record 11's entry passes used", V0, [attribute(11, ROOT, 72, u16(24), "$I30")], bad("C13", 11)),
    ("C13: record 11's end flag", V0, [attribute(11, ROOT, 76, u16(0), "$I30")], bad("C13", 11)),
    ("C13: record 11's end entry has a child without room", V0, [attribute(11, ROOT, 76, u16(3), "$I30")], bad("C13", 11)),
    ("C13: record 11's end entry has a long key", V0, [attribute(11, ROOT, 74, u16(500), "$I30")], OK),
    ("C13: record 11's end entry has a child and no allocation", V0, [directory(11, end_entry(0))], bad("C13", 11)),
    ("C13: record 23 without an index", V0, [remove(23, ROOT, "$I30")], bad("C13", 23)),
    ("C13: record 23's index has another name", V0, [attribute(23, ROOT, 24, units("$I31"), "$I30")], bad("C13", 23)),
    ("C13: record 23's key passes", V0, [attribute(23, ROOT, 64 + 10, u16(89), "$I30")], bad("C13", 23)),  # 16 + 89 above 104
    ("C13: record 23's key to the end of its entry", V0, [attribute(23, ROOT, 64 + 10, u16(88), "$I30")], OK),
    ("C13: record 23's name passes its key", V0, [attribute(23, ROOT, 64 + 16 + 0x40, b"\x0A", "$I30")], bad("C13", 23)),
    ("C13: record 23's key is too short for a name", V0, [attribute(23, ROOT, 64 + 10, u16(0x41), "$I30")], bad("C13", 23)),
    ("C13: root's block torn", V0, [at(66 * 4096 + 510, b"\x77\x77")], bad("C13", 5)),
    ("C13: root's block torn at its last stride", V0, [at(66 * 4096 + 4094, b"\x77\x77")], bad("C13", 5)),
    ("C13: root's block has no magic", V0, [at(66 * 4096, b"FILE")], bad("C13", 5)),
    ("C13: root's block has another VCN", V0, [root_field(0x10, u64(1))], bad("C13", 5)),
    ("C13: root's block, used passes", V0, [root_field(0x1C, u32(4096 - 0x18 + 1))], bad("C13", 5)),
    ("C13: root's child outside", V0, [attribute(5, ROOT, 64 + 16, u64(1), "$I30")], bad("C13", 5)),
    ("C13: root's child at 2^63", V0, [attribute(5, ROOT, 64 + 16, u64(2**63), "$I30")], bad("C13", 5)),
    ("C13: root's allocation of 4095", V0, [sizes(5, 4095, 4095, ALLOC, "$I30")], bad("C13", 5)),
    ("C13: root's allocation initialised 0", V0, [sizes(5, 4096, 0, ALLOC, "$I30")], bad("C13", 5)),
    ("C13: root's allocation has a flag", V0, [attribute(5, ALLOC, 12, u16(1), "$I30")], OK),
    ("C13: root's allocation is gone", V0, [remove(5, ALLOC, "$I30"), bits(off=[66])], bad("C13", 5)),
    ("C13: root's bitmap is gone", V0, [remove(5, BITS, "$I30")], OK),
    ("C13: root's end entry has a child that is itself", V0, [root_entry(None, 8, pack("<HHHHQ", 24, 0, 3, 0, 0)), root_field(0x1C, u32(4072))],
     bad("C13", 5)),
    ("C13: a chain of 2 blocks", V0, [chain(2)], "accepted 121"),
    ("C13: a chain whose last block leads to the first", V0, [chain(2, last_child=0)], bad("C13", 23)),
    ("C13: a chain whose last block leads to itself", V0, [chain(2, last_child=1)], bad("C13", 23)),
    ("C13: a chain whose last block leads outside", V0, [chain(2, last_child=2)], bad("C13", 23)),
    ("C13: a chain of 15 blocks", V0, [chain(15)], "accepted 134"),
    ("C13: a chain of 17 blocks", V0, [chain(17)], bad("C13", 23)),
    ("C13: child before its entry", V0,
     [chain(1), directory(23, index_entry(25, 23, "aaa", child=0) + end_entry())], bad("C13", 23)),
    ("C13: small clusters, block at VCN 8 outside", SMALL, [attribute(5, ROOT, 64 + 16, u64(8), "$I30")], bad("C13", 5)),
    ("C13: small clusters, block at VCN 1 passes the end", SMALL, [attribute(5, ROOT, 64 + 16, u64(1), "$I30")], bad("C13", 5)),
    ("C13: large clusters, block at unit 8 outside its size", LARGE, [attribute(5, ROOT, 64 + 16, u64(8), "$I30")], bad("C13", 5)),
    ("C13: large clusters, block at unit 8", LARGE,
     [attribute(5, ROOT, 64 + 16, u64(8), "$I30"), sizes(5, 8192, 8192, ALLOC, "$I30"), root_field(0x10, u64(8)),
      lambda v: v.put(v.place("root index") + 4096, v.image[v.place("root index"):v.place("root index") + 4096])], OK_LARGE),

    # C14
    ("C14: entry of a dead record", V0, [root_entry("file15", 0, ref(48))], bad("C14", 5)),
    ("C14: record 16 dead", V0, [dead(16)], bad("C14", 5)),
    ("C14: entry with another sequence", V0, [root_entry("file00", 0, ref(32, 2))], bad("C14", 5)),
    ("C14: entry of upper bits 0", V0, [root_entry("file00", 0, u64(32))], OK),
    ("C14: entry of an extension", V0, [root_entry("file00", 0, ref(22))], bad("C14", 5)),
    ("C14: entry of another file", V0, [root_entry("file00", 0, ref(33))], bad("C14", 5)),
    ("C14: entry with another namespace", V0, [root_entry("$MFT", 16 + 0x41, b"\1")], bad("C14", 5)),
    ("C14: entry with another case", V0, [root_entry("file15", 16 + 0x42, units("F"))], bad("C14", 5)),
    ("C14: entry's own parent isn't asked", V0, [root_entry("file15", 16, ref(23))], OK),
    ("C14: entry of record 0, sequence 2", V2, [root_entry("$MFT", 0, ref(0, 2))], bad("C14", 5)),
    ("C14: record 4 as a directory, entry of a dead record", V0, [directory(4, index_entry(48, 4, "x") + end_entry())], bad("C14", 4)),
    ("C14: record 11, entry of a dead record", V0, [directory(11, index_entry(48, 11, "x") + end_entry())], bad("C14", 11)),
    ("C14: record 11, entry of a file elsewhere", V0, [directory(11, index_entry(16, 11, "resident.txt") + end_entry())], bad("C14", 11)),
    ("C14: record 11, a second name of a file", V0,
     [directory(11, index_entry(16, 11, "second") + end_entry()), insert(16, resident(NAME, key(11, "second")))], OK),
    ("C14: record 23, inner.txt has another parent", V0, [attribute(24, NAME, 24, ref(5))], bad("C14", 23)),
    ("C14: record 23, inner.txt's parent has another sequence", V0, [attribute(24, NAME, 24, ref(23, 2))], bad("C14", 23)),
    ("C14: record 23, inner.txt's parent of upper bits 0", V0, [attribute(24, NAME, 24, u64(23))], OK),
    ("C14: record 23, inner.txt's name too short", V0, [attribute(24, NAME, 0x10, u32(0x41))], bad("C14", 23)),
    ("C14: record 23, inner.txt's name attribute has a name", V0,
     [replace(24, NAME, resident(NAME, key(23, "inner.txt"), "x", instance=1))], bad("C14", 23)),
    ("C14: record 47 as a directory", V0, [directory(47, index_entry(46, 47, "x") + end_entry())], bad("C14", 47)),
    ("C14: record 47 as a directory, its entry right", V0,
     [directory(47, index_entry(46, 47, "x") + end_entry()), insert(46, resident(NAME, key(47, "x")))], OK),
    ("C14: name in an extension", V0,
     [insert(22, resident(NAME, key(11, "second"), instance=9)), directory(11, index_entry(21, 11, "second") + end_entry()),
      relist(21, lambda e: e[:2] + [entry(NAME, 22, 9)] + e[2:])], OK),
    ("C14: a name that no directory lists", V0, [drop_entry("file03")], OK),
    ("C14: records 5 and 4", V0, [root_entry("file15", 0, ref(48)), directory(4, index_entry(48, 4, "x") + end_entry())], bad("C14", 4)),

    # C15
    ("C15: record 0, boot sector at the mirror", V0, [boot(0x30, u64(12))], bad("C15", 0)),
    ("C15: record 0, flag", V0, [attribute(0, DATA, 12, u16(0x8000))], bad("C15", 0)),
    ("C15: record 0, head in two pieces", SMALL,
     [pairs(0, b"\x11\x01\x11\x21\x01\xD7\x03\x21\x3E\x2B\xFC\0"), copy(18 * 512, 1000 * 512, 512), bits([1000], [18])], bad("C15", 0)),
    ("C15: record 0, head in two adjoining runs", SMALL, [pairs(0, b"\x11\x01\x11\x11\x3F\x01\0")], OK_SMALL),
    ("C15: record 0, map leads to a copy that names the boot sector's cluster", V0,
     [copy(3 * 4096, 200 * 4096, 8 * 4096), pairs(0, b"\x21\x08\xC8\x00\0", mirror=False)], bad("C15", 0)),
    ("C15: record 0, boot sector at a stray record 0 that leads to $MFT", V0,
     [copy(3 * 4096, 200 * 4096, 1024), boot(0x30, u64(200))], bad("C15", 0)),
    ("C15: record 1, dead", V0, [dead(1), drop_entry("$MFTMirr"), bits(off=[12])], bad("C15", 1)),
    ("C15: record 1, list", V0, [give_list(1)], bad("C15", 1)),
    ("C15: record 1, size 4095", V0, [sizes(1, 4095, 4095)], bad("C15", 1)),
    ("C15: record 1, initialised 0", V0, [sizes(1, 4096, 0)], OK),
    ("C15: record 1, first LCN", V0, [boot(0x38, u64(13))], bad("C15", 1)),
    ("C15: record 1, hole behind", V0, [pairs(1, b"\x11\1\x0C\1\1\0"), vcns(1, 0, 1)], bad("C15", 1)),
    ("C15: record 1, flag", V0, [attribute(1, DATA, 12, u16(1))], bad("C15", 1)),
    ("C15: record 1, head in two pieces", SMALL, [pairs(1, b"\x11\7\x52\x21\1\x96\3\0"), bits([1000], [89])], bad("C15", 1)),
    ("C15: record 1, head in two adjoining runs", SMALL, [pairs(1, b"\x11\4\x52\x11\4\4\0")], OK_SMALL),
    ("C15: record 1, resident", V0, [replace(1, DATA, resident(DATA, b"")), bits(off=[12])], bad("C15", 1)),
    ("C15: record 1, $DATA has a name", V0, [replace(1, DATA, extent(DATA, 0, 0, b"\x11\1\x0C\0", 4096, name="x"))], bad("C15", 1)),
    ("C15: record 2, dead", V0, [dead(2), drop_entry("$LogFile"), bits(off=range(14, 30))], bad("C15", 2)),
    ("C15: record 2, flag", V0, [attribute(2, DATA, 12, u16(0x4000))], bad("C15", 2)),
    ("C15: record 2, hole", V0, [pairs(2, b"\x11\x0F\x0E\1\1\0"), bits(off=[29])], bad("C15", 2)),
    ("C15: record 2, resident", V0, [replace(2, DATA, resident(DATA, b"x")), bits(off=range(14, 30))], bad("C15", 2)),
    ("C15: record 2, none", V0, [remove(2, DATA), bits(off=range(14, 30))], bad("C15", 2)),
    ("C15: record 2, empty but non-resident", V0, [replace(2, DATA, extent(DATA, 0, -1, b"\0", 0)), bits(off=range(14, 30))], "accepted 103"),
    ("C15: record 2, list", V0, [give_list(2)], OK),
    ("C15: record 3, dead", V0, [dead(3), drop_entry("$Volume")], bad("C15", 3)),
    ("C15: record 3, version 3.0", V0, [attribute(3, INFO, 24 + 9, b"\0")], bad("C15", 3)),
    ("C15: record 3, version 1.1", V0, [attribute(3, INFO, 24 + 8, b"\1")], bad("C15", 3)),
    ("C15: record 3, 11 bytes", V0, [attribute(3, INFO, 0x10, u32(11))], bad("C15", 3)),
    ("C15: record 3, 16 bytes", V0, [attribute(3, INFO, 0x10, u32(16))], OK),
    ("C15: record 3, list", V0, [give_list(3)], bad("C15", 3)),
    ("C15: record 3, flag", V0, [attribute(3, INFO, 12, u16(1))], bad("C15", 3)),
    ("C15: record 3, none", V0, [remove(3, INFO)], bad("C15", 3)),
    ("C15: record 3, non-resident", V0, [replace(3, INFO, extent(INFO, 0, 0, b"\x21\1\x2C\1\0", 12)),
                                     at(300 * 4096, bytes(8) + b"\3\1\0\0"), bits(on=[300])], bad("C15", 3)),
    ("C15: record 3, dirty", V0, [attribute(3, INFO, 24 + 10, u16(1))], OK),
    ("C15: record 5, no directory", V0, [field(5, 0x16, u16(1))], bad("C15", 5)),
    ("C15: record 5, dead", V0, [dead(5), bits(off=[66])], bad("C15", 5)),
    ("C15: record 6 is C9's", V0, [attribute(6, DATA, 12, u16(0x4000))], bad("C9", 6)),
    ("C15: record 7, dead", V0, [dead(7), drop_entry("$Boot"), bits(off=[0, 1])], bad("C15", 7)),
    ("C15: record 7, first LCN", V0, [pairs(7, b"\x21\2\xC8\0\0"), bits([200, 201], [0, 1])], bad("C15", 7)),
    ("C15: record 7, first LCN 1", V0, [pairs(7, b"\x11\1\1\0"), vcns(7, 0, 0), sizes(7, 4096, 4096), bits(off=[0])], bad("C15", 7)),
    ("C15: record 7, hole", V0, [pairs(7, b"\x11\1\0\1\1\0"), bits(off=[1])], bad("C15", 7)),
    ("C15: record 7, flag", V0, [attribute(7, DATA, 12, u16(1))], bad("C15", 7)),
    ("C15: record 7, list", V0, [give_list(7)], bad("C15", 7)),
    ("C15: record 7, empty", V0, [replace(7, DATA, extent(DATA, 0, -1, b"\0", 0)), bits(off=[0, 1])], bad("C15", 7)),
    ("C15: record 8, dead", V0, [dead(8), drop_entry("$BadClus"), bits(off=[512])], bad("C15", 8)),
    ("C15: record 8, no $Bad", V0, [attribute(8, DATA, 64, units("$Bac"), "$Bad")], bad("C15", 8)),
    ("C15: record 8, LCN 513 at VCN 512", V0, [pairs(8, b"\2\0\2\x21\1\1\2\2\xFF\1\0", name="$Bad"), bits([513], [512])], bad("C15", 8)),
    ("C15: record 8, LCN 511 at VCN 512", V0, [pairs(8, b"\2\0\2\x21\1\xFF\1\2\xFF\1\0", name="$Bad"), bits([511], [512])], bad("C15", 8)),
    ("C15: record 8, other bad clusters", V0, [pairs(8, b"\2\0\3\x21\2\0\3\2\xFE\0\0", name="$Bad"), bits([768, 769], [512])], "accepted 120"),
    ("C15: record 8, flag", V0, [attribute(8, DATA, 12, u16(0x8000), "$Bad")], bad("C15", 8)),
    ("C15: record 8, list", V0, [give_list(8)], bad("C15", 8)),
    ("C15: record 8, two extents", V0,
     [replace(8, DATA, extent(DATA, 0, 511, b"\2\0\2\0", 1024 * 4096, 0, "$Bad", 3), "$Bad"),
      insert(8, extent(DATA, 512, 1023, b"\x21\1\0\2\2\xFF\1\0", 0, 0, "$Bad", 4))], bad("C15", 8)),
    ("C15: record 8, resident", V0, [replace(8, DATA, resident(DATA, b"", "$Bad"), "$Bad"), bits(off=[512])], bad("C15", 8)),
    ("C15: record 8, short", V0, [pairs(8, b"\2\0\2\0", name="$Bad"), vcns(8, 0, 511, name="$Bad"), sizes(8, 0, 0, name="$Bad"), bits(off=[512])],
     "accepted 118"),
    ("C15: records 8 and 3", V0, [attribute(8, DATA, 12, u16(1), "$Bad"), attribute(3, INFO, 12, u16(1))], bad("C15", 3)),
]

# Damages that break one condition alone, with all else about them in order
TABLE += [
    ("alone: sector 1024", V0, [boot(0x0B, u16(1024)), boot(0x0D, b"\4"), boot(0x28, u64(4096))], OK),
    ("alone: sector 2048", V0, [boot(0x0B, u16(2048)), boot(0x0D, b"\2"), boot(0x28, u64(2048))], OK),
    ("alone: sector 4096", V0, [boot(0x0B, u16(4096)), boot(0x0D, b"\1"), boot(0x28, u64(1024))], OK),
    ("alone: one cluster", V0, [boot(0x28, u64(8))], geometry(7, 3)),
    ("alone: $MFT at N - 1", V0, [boot(0x30, u64(1023))], bad("C3", 0)),
    ("alone: record of 2048", V0, [boot(0x40, b"\xF5")], bad("C3", 0)),
    ("alone: record of 4096", V0, [boot(0x40, b"\xF4")], bad("C3", 0)),
    ("alone: 12 records", V0, [relist(0, lambda e: e[:3] + e[4:]), sizes(0, 12 * 1024, 12 * 1024)], bad("C9", 6)),
    ("alone: 11 records and 1023 bytes", V0, [relist(0, lambda e: e[:3] + e[4:]), sizes(0, 12 * 1024 - 1, 11 * 1024)], bad("C3", 0)),
    ("alone: fixup array at 0x31", V0, [array_to(24, 0x31)], bad("C4", 24)),
    ("alone: fixup array at 0x28", V0, [array_to(24, 0x28)], bad("C4", 24)),
    ("alone: fixup array at 0x32, up to the first attribute", V0, [array_to(24, 0x32)], OK),
    ("alone: fixup array at 0x34, past the first attribute", V0, [array_to(24, 0x34, 0x40), field(24, 0x14, u16(0x38)),
                                                                 field(24, 0x38, u32(0xFFFFFFFF))], bad("C4", 24)),
    ("alone: fixup array at 504, behind the attributes", V0, [array_to(24, 504)], bad("C4", 24)),
    ("alone: fixup array at 504, before the attributes", V0, [array_to(24, 504, 512)], OK),
    ("alone: fixup array at 506", V0, [array_to(24, 506, 512), raw_record(24, 510, u16(2))], bad("C4", 24)),
    ("alone: first attribute at 0x3C", V0, [array_to(24, 0x30, 0x3C)], bad("C4", 24)),
    ("alone: first attribute at 0x40", V0, [array_to(24, 0x30, 0x40)], OK),
    ("alone: block's fixup array at 0x26", V0,
     [edit_root(lambda b: b[:4] + u16(0x26) + b[6:0x26] + u16(1) + b[0x28:])], bad("C13", 5)),
    ("alone: 1024 bytes in use", V0, [insert(47, resident(0x100, bytes(664)))], OK),
    ("alone: bytes in use up to the end mark", V0, [field(16, 0x18, u32(316))], OK),
    ("alone: bytes in use within the end mark", V0, [field(16, 0x18, u32(315))], bad("C4", 16)),
    ("alone: length 44", V0, [replace(16, DATA, (lambda a: a[:4] + u32(44) + a[8:] + bytes(4))(resident(DATA, b"hello, ntfs\n", instance=2)))],
     bad("C4", 16)),
    ("alone: name of one unit passes the length", V0,
     [insert(47, (lambda a: a[:32])(resident(DATA, b"x" * 8, "x", name_offset=31, value_offset=24)))], bad("C4", 47)),
    ("alone: non-resident attribute of 64 bytes", V0, [insert(47, extent(0x100, 0, -1, b"", 0))], bad("C7", 47)),
    ("alone: length of 9 bytes", V0, [pairs(33, b"\x19\2" + bytes(8) + b"\x5D\0")], bad("C7", 33)),
    ("alone: length of 8 bytes", V0, [pairs(33, b"\x18\2" + bytes(7) + b"\x5D\0")], OK),
    ("alone: lengths 3 and -1", V0, [pairs(33, b"\x11\3\x5D\x11\xFF\1\0")], bad("C7", 33)),
    ("alone: lengths 2 and 0", V0, [pairs(33, b"\x11\2\x5D\x11\0\1\0")], bad("C7", 33)),
    ("alone: a list in a cluster, a second extent of it that is listed", V0,
     [nonresident_list(21, more=entry(LIST, 21, 10, 1)), insert(21, extent(LIST, 1, 1, b"\x21\1\x2D\1\0", 0, instance=10)), bits(on=[301])],
     bad("C11", 21)),
    ("alone: a list in a cluster, a second list of another name that is listed", V0,
     [nonresident_list(21, more=entry(LIST, 21, 10, name="x")), insert(21, resident(LIST, b"", "x", instance=10))], "accepted 120"),
    ("alone: a list in a cluster, its last entry ends one byte behind", V0,
     [relist(21, lambda e: e), nonresident_list(21, size=4097, initialised=128), at(300 * 4096 + 96 + 4, u16(4001))], bad("C11", 21)),
    ("alone: a list in a cluster, its last entry ends with it", V0,
     [nonresident_list(21, size=4096, initialised=128), at(300 * 4096 + 96 + 4, u16(4000))], "accepted 120"),
    ("alone: $UpCase of 131073 bytes", V0,
     [pairs(10, b"\x11\x20\x21\x21\1\x0B\1\0"), vcns(10, 0, 32), bits(on=[300]), sizes(10, 131073, 131072)], bad("C13", 10)),
    ("alone: first entry 8", V0,
     [attribute(11, ROOT, 48, u32(8), "$I30"), attribute(11, ROOT, 64, pack("<HHH", 16, 0, 2), "$I30")], bad("C13", 11)),
    ("alone: first entry 20", V0,
     [directory(11, bytes(4) + end_entry() + bytes(4)), attribute(11, ROOT, 48, u32(20), "$I30")], bad("C13", 11)),
    ("alone: first entry 24", V0,
     [directory(11, bytes(8) + end_entry()), attribute(11, ROOT, 48, u32(24), "$I30")], OK),
    ("alone: end entry of 20 bytes", V0, [directory(11, end_entry() + bytes(8)), attribute(11, ROOT, 72, u16(20), "$I30")], bad("C13", 11)),
    ("alone: end entry of 24 bytes", V0, [directory(11, end_entry() + bytes(8)), attribute(11, ROOT, 72, u16(24), "$I30")], OK),
    ("alone: a root that isn't resident", V0,
     [replace(11, ROOT, extent(ROOT, 0, 0, b"\x21\1\x2C\1\0", 48, name="$I30"), "$I30"),
      at(300 * 4096, root_value(end_entry())), bits(on=[300])], bad("C13", 11)),
    ("alone: a name without units", V0,
     [directory(23, index_entry(24, 23, "") + end_entry()), replace(24, NAME, resident(NAME, key(23, ""), instance=1))], OK),
]
for byte in b"\xF6\xF5\xF3\xF2\xF1\xF0":
    TABLE.append((f"alone: index block of 2^{256 - byte}", V0, [boot(0x44, bytes([byte]))], bad("C13", 5)))

# C16, each of the four records
for r in range(4):
    TABLE += [
        (f"C16: mirror {r}, a byte", V0, [raw_copy(r, 8, b"\1")], bad("C16", r)),
        (f"C16: mirror {r}, torn", (r, 1024, 4096), [raw_copy(r, 1022, b"\x77\x77")], bad("C16", r)),
        (f"C16: mirror {r}, BAAD", V0, [raw_copy(r, 0, b"BAAD")], bad("C16", r)),
        (f"C16: record {r} alone changed", V0, [field(r, 8, b"\1", mirror=False)], bad("C16", r)),
        (f"C16: mirror {r}, last byte in use", V0,
         [lambda v, r=r: v.put(v.copy_place(r) + unpack_from("<I", v.load(r), 0x18)[0] - 1, b"\1")], bad("C16", r)),
        (f"C16: mirror {r}, first byte past those in use", V0,
         [lambda v, r=r: v.put(v.copy_place(r) + unpack_from("<I", v.load(r), 0x18)[0], b"\1")], OK),
        (f"C16: mirror {r}, other fixups", V0, [mirror_refixed(r)], OK),
    ]
TABLE += [
    ("C16: mirrors 3 and 1", V0, [raw_copy(3, 8, b"\1"), raw_copy(1, 8, b"\1")], bad("C16", 1)),
    ("C16: bytes behind the mirror", LARGE, [lambda v: v.put(v.place("mirror") + 4096, b"\xFF" * 1024)], OK_LARGE),
    ("C16: small clusters, mirror 3", SMALL, [raw_copy(3, 300, b"\1")], bad("C16", 3)),
    ("C16: large clusters, mirror 3", LARGE, [raw_copy(3, 9, b"\1")], bad("C16", 3)),
]

# Each rule broken at a low record and at a high one; two rules together, the earlier one must be named.
ALONE = {
    3: (([sizes(0, 65536, 65537)], 0), ([pairs(28, b"\1\x08\0")], 28)),
    4: (([field(1, 0x2C, u32(2))], 1), ([field(47, 0x2C, u32(46))], 47)),
    5: (([mft_bit(1, 0)], 1), ([mft_bit(46, 0)], 46)),
    6: (([attribute(5, ROOT, 10, u16(16), "$I30")], 5),
        ([insert(47, resident(0x100, b"x" * 8, "x", name_offset=22, value_offset=32))], 47)),
    7: (([vcns(1, 0, 1)], 1), ([vcns(47, 0, 4)], 47)),
    8: (([pairs(2, b"\x11\x10\x0C\0")], 2), ([pairs(47, b"\x11\4\x5B\0")], 47)),
    9: (([bits(on=[2])], 6), ([bits(on=[1023])], 6)),
    10: (([field(1, 0x20, ref(12))], 1), ([field(47, 0x20, ref(48))], 47)),
    11: (([relist(0, lambda e: e + [e[4]])], 0), ([field(45, 0x20, ref(44))], 44)),
    12: (([sizes(1, 4097, 4096)], 1), ([sizes(46, 2**40, 0)], 46)),
    13: (([field(0, 0x16, u16(3))], 0), ([field(43, 0x16, u16(3))], 43)),
    14: (([root_entry("file15", 16 + 0x41, b"\1")], 5), ([attribute(24, NAME, 24, ref(5))], 23)),
    15: (([attribute(0, DATA, 12, u16(0x8000))], 0), ([attribute(8, DATA, 12, u16(1), "$Bad")], 8)),
    16: (([raw_copy(0, 8, b"\1")], 0), ([raw_copy(3, 8, b"\1")], 3)),
}
for first in ALONE:
    for second in range(first + 1, 17):
        for a, b in ((0, 1), (1, 0)):
            (steps, record), (others, other) = ALONE[first][a], ALONE[second][b]
            name = f"pair: C{first} at {record} and C{second} at {other}"
            TABLE.append((name, V0, steps + others, bad(f"C{first}", record)))
            TABLE.append((name + ", edited in the other order", V0, others + steps, bad(f"C{first}", record)))

# Volumes as they are made
for seed in range(16):
    TABLE.append((f"made: seed {seed}, 4096", (seed, 1024, 4096), [], "accepted 119"))
for seed in range(3):
    TABLE.append((f"made: seed {seed}, 512", (seed, 2048, 512), [], "accepted 595"))
    TABLE.append((f"made: seed {seed}, 65536", (seed, 1024, 65536), [], "accepted 59"))
for cluster, owned in ((1024, 323), (2048, 187), (8192, 86), (16384, 70), (32768, 62)):
    TABLE.append((f"made: seed 3, {cluster}", (3, 1024, cluster), [], f"accepted {owned}"))

# The words of the rules allow more than one answer; the first is the one that was thought the nearer.
OPEN = [
    ("levels: the root and 16 blocks", V0, [chain(16)], [bad("C13", 23), "accepted 135"]),
    ("map: an extension whose base is another record", V0, [field(28, 0x20, ref(5))], [bad("C3", 0), bad("C3", 28)]),
    ("map: an extension whose base has another sequence", V0, [field(28, 0x20, ref(0, 2))], [bad("C3", 0), bad("C3", 28)]),
    ("map: a hole in 28, and a size above the VCNs in 0", V0, [pairs(28, b"\1\x08\0"), sizes(0, 65537, 65536)], [bad("C3", 28), bad("C3", 0)]),
    ("map: a hole in 28, and 0's initialised above its size", V0, [pairs(28, b"\1\x08\0"), sizes(0, 65536, 65537)],
     [bad("C3", 0), bad("C3", 28)]),
    ("map: record 0 has a further extent, and isn't wholly known yet", SMALL,
     [pairs(0, b"\x11\1\x11\0"), vcns(0, 0, 0), insert(0, extent(DATA, 1, 63, b"\x11\x3F\x12\0", 0)),
      relist(0, lambda e: e[:3] + [entry(DATA, 0, 9, 1)] + e[3:])], [bad("C3", 0), OK_SMALL]),
    ("list: in a cluster, from VCN 1", V0, [nonresident_list(21, lowest=1)], [bad("C11", 21), bad("C12", 21)]),
    ("index: a key that reaches into the child's VCN", V0,
     [chain(1), directory(23, index_entry(25, 23, "zz", child=0) + end_entry()),
      attribute(23, ROOT, 64 + 10, u16(0x42 + 4 + 8), "$I30"), insert(25, resident(NAME, key(23, "zz")))],
     [bad("C13", 23), "accepted 120"]),
    ("fixed records: a flag on another stream of record 8", V0, [attribute(8, DATA, 12, u16(1))], [OK, bad("C15", 8)]),
    ("fixed records: a flag on the root's allocation and bitmap", V0,
     [attribute(5, ALLOC, 12, u16(1), "$I30"), attribute(5, BITS, 12, u16(1), "$I30")], [OK, bad("C15", 5)]),
    ("fixed records: $VOLUME_INFORMATION has a name", V0,
     [replace(3, INFO, resident(INFO, bytes(8) + b"\3\1\0\0", "x"))], [bad("C15", 3), OK]),
    ("fixed records: record 5 is an extension of record 47", V0,
     [remove(5, STD), field(5, 0x20, ref(47)),
      lambda v: give_list(47, lambda e: e + own_entries(v.load(5), 5))(v)], [OK, bad("C15", 5)]),
    ("list: a second extent of it in its extension", V0,
     [nonresident_list(21, more=entry(LIST, 22, 9, 1)), insert(22, extent(LIST, 1, 1, b"\x21\1\x2E\1\0", 0)), bits(on=[302])],
     ["accepted 121", bad("C11", 21)]),
    ("extents: an empty one at the end of a stream", V0, [insert(33, extent(DATA, 2, 1, b"\0", 0))], [OK, bad("C12", 33)]),
    ("extents: an empty one before the others", V0,
     [insert(33, extent(DATA, 0, 1, b"\x11\2\x5D\0", 0)), vcns(33, 0, -1), pairs(33, b"\0"), sizes(33, 8192, 8192)],
     [OK, bad("C12", 33)]),
    ("index: used above allocated", V0, [attribute(11, ROOT, 56, u32(5), "$I30")], [OK, bad("C13", 11)]),
]


def run(volume, steps):
    made_volume = Volume(*volume)
    for step in steps:
        step(made_volume)
    return check.verdict(bytes(made_volume.image)), len(made_volume.edits)


def write(path, wanted):
    for name, volume, steps, expected in TABLE + OPEN:
        if name == wanted:
            damaged = Volume(*volume)
            for step in steps:
                step(damaged)
            with open(path, "wb") as file:
                file.write(damaged.image)
            print(expected if isinstance(expected, str) else " or ".join(expected))
            return
    sys.exit("no such damage")


def main(words):
    if words[:1] == ["--image"] and len(words) == 3:
        return write(*words[1:])
    loud = "-v" in words
    wanted = [word for word in words if word != "-v"]
    chosen = lambda name: all(word in name for word in wanted)
    good = total = 0
    for name, volume, steps, expected in sorted((row for row in TABLE if chosen(row[0])), key=lambda row: row[1]):
        found, edits = run(volume, steps)
        total += 1
        good += found == expected
        if found != expected:
            print(f"DIFFERS  {name} {volume}: {found}, expected {expected}")
        elif loud:
            print(f"as expected  {name} {volume}, {edits} edits: {found}")
    print(f"{total} damages, {good} as expected")
    for name, volume, steps, answers in OPEN:
        if chosen(name):
            found, _ = run(volume, steps)
            print(f"open  {name}: {found}; the words allow {' or '.join(answers)}" + ("" if found in answers else "  NEITHER"))


if __name__ == "__main__":
    main(sys.argv[1:])
