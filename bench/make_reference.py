#!/usr/bin/env python3
"""An independent generator of the volumes of `ntfsmake`, written from the rules in words by somebody who had not seen the
crate.

    make_reference.py FILE SEED CLUSTERS CLUSTER    writes the volume: (CLUSTERS + 1) * CLUSTER bytes
    make_reference.py - SEED CLUSTERS CLUSTER       prints its sum: each byte times (its place mod 65521 + 1), mod 2^64

SEED is below 2^64. CLUSTER, the bytes of a cluster, is a power of two from 512 to 65536. CLUSTERS, their number, is from
1024 (2048 where a cluster has 512 bytes) to 1048576. All numbers on the volume are little-endian.
"""
import sys
from operator import mul
from struct import pack, pack_into
from typing import NamedTuple

SECTOR, RECORD, BLOCK = 512, 1024, 4096  # bytes of a sector, of a file record and of an index block
RECORDS = 64  # records that $MFT has room for; those that are not in use are zeros
MFT_HALF = 32768  # each of the two areas of $MFT has the clusters that this many bytes need

STANDARD_INFORMATION, ATTRIBUTE_LIST, FILE_NAME, VOLUME_INFORMATION = 0x10, 0x20, 0x30, 0x70
DATA, INDEX_ROOT, INDEX_ALLOCATION, BITMAP, END = 0x80, 0x90, 0xA0, 0xB0, 0xFFFFFFFF
POSIX, WIN32, DOS, BOTH = 0, 1, 2, 3  # namespaces of names
ROOT, DIR = 5, 23  # the directories that have entries
DIRECTORIES = (ROOT, 11, DIR)
EXTENSIONS = {22: 21, 28: 0}  # extension record: its base record
FILES = [(32 + i, f"file{i:02}") for i in range(16)]

# Each name: record, parent directory, namespace, name. A record has as many links as it has names.
NAMES = [
    (0, ROOT, BOTH, "$MFT"), (1, ROOT, BOTH, "$MFTMirr"), (2, ROOT, BOTH, "$LogFile"), (3, ROOT, BOTH, "$Volume"),
    (4, ROOT, BOTH, "$AttrDef"), (5, ROOT, BOTH, "."), (6, ROOT, BOTH, "$Bitmap"), (7, ROOT, BOTH, "$Boot"),
    (8, ROOT, BOTH, "$BadClus"), (9, ROOT, BOTH, "$Secure"), (10, ROOT, BOTH, "$UpCase"), (11, ROOT, BOTH, "$Extend"),
    (16, ROOT, BOTH, "resident.txt"), (17, ROOT, BOTH, "empty.bin"), (18, ROOT, BOTH, "sparse.bin"),
    (19, ROOT, BOTH, "half.bin"), (20, ROOT, BOTH, "packed.bin"), (21, ROOT, BOTH, "listed.bin"),
    (23, ROOT, BOTH, "Dir"), (24, DIR, BOTH, "inner.txt"),
    (25, ROOT, WIN32, "long name.txt"), (25, ROOT, DOS, "LONGNA~1.TXT"),
    (26, ROOT, POSIX, "A.txt"), (27, ROOT, POSIX, "a.txt"),
] + [(record, ROOT, BOTH, name) for record, name in FILES]

class Attribute(NamedTuple):
    kind: int
    lowest: int  # its first VCN
    raw: bytes  # all its bytes, with an instance that is still 0

def padded(data):
    return data.ljust(-(-len(data) // 8) * 8, b"\0")

def units(name):
    return name.encode("utf-16-le")

def reference(record):
    """The record's number, and in the upper 16 bits its sequence, which is 1 everywhere."""
    return 1 << 48 | record

def pattern(record, size):
    """Byte j of a test file's stream, in its clusters, is (record + j) mod 256."""
    return (bytes(range(256)) * (size // 256 + 2))[record : record + size]

# ---- where everything lies

def area_table(seed, clusters, cluster):
    """The areas in order, with their lengths in clusters."""
    needed = lambda size: -(-size // cluster)
    return [
        ("boot", needed(8192)), ("mft first", needed(MFT_HALF)), ("mirror", needed(4 * RECORD)),
        ("journal", needed(65536)), ("bitmap", needed(bitmap_size(clusters))), ("upcase", needed(131072)),
        ("root index", needed(BLOCK)), ("mft second", needed(MFT_HALF)),
        ("sparse", 1), ("half", 2), ("packed", 4), ("listed first", 1), ("listed second", 1),
    ] + [(name, 1 + (seed // 4 + i) % 4) for i, (_, name) in enumerate(FILES)]

def layout(seed, clusters, cluster):
    """Each area's run: first cluster and length. The boot area lies at cluster 0.

    Where bit 1 of the seed is 0, the areas ascend with one free cluster between neighbours. Where it is 1, the second area
    ends with the last cluster, and each next one has its last cluster two below the first cluster of the one before.
    """
    (boot, length), *others = area_table(seed, clusters, cluster)
    runs, after, before = {boot: (0, length)}, length + 1, clusters
    for name, length in others:
        runs[name] = (before - length if seed & 2 else after, length)
        after, before = after + length + 1, before - length - 1
    return runs

def bad_cluster(clusters):
    return clusters // 2

def bitmap_size(clusters):
    """$Bitmap has whole words of 64 bits."""
    return 8 * -(-clusters // 64)

def bitmap(runs, clusters):
    """A bit is 1 where a record owns the cluster (that is in each area, and in the bad cluster), and from the end on."""
    bits = bytearray(bitmap_size(clusters))
    areas = [range(lcn, lcn + length) for lcn, length in runs.values()]
    for ones in areas + [[bad_cluster(clusters)], range(clusters, 8 * len(bits))]:
        for b in ones:
            bits[b // 8] |= 1 << b % 8
    return bytes(bits)

# ---- attributes

def signed(number):
    """The fewest bytes, and at least one, that hold a number in signed form."""
    size = 1
    while not -(1 << 8 * size - 1) <= number < 1 << 8 * size - 1:
        size += 1
    return number.to_bytes(size, "little", signed=True)

def mapping_pairs(runs):
    """Pairs of a length and the distance from the last LCN that is no hole's (at first from 0); a hole has no distance."""
    pairs, last = b"", 0
    for lcn, length in runs:
        count, distance = signed(length), b"" if lcn is None else signed(lcn - last)
        last = last if lcn is None else lcn
        pairs += bytes([len(distance) << 4 | len(count)]) + count + distance
    return pairs + b"\0"

def attribute(kind, nonresident, name, flags, form, data, lowest=0):
    """The common head (type, length, form, name, flags, instance), the form's own fields and the data, rounded up to 8.

    The name offset is 24 in a resident and 64 in a non-resident attribute, with a name or without.
    """
    rest = padded(form + data)
    head = pack("<IIBBHHH", kind, 16 + len(rest), nonresident, len(name), 64 if nonresident else 24, flags, 0)
    return Attribute(kind, lowest, head + rest)

def resident(kind, value, name=""):
    """The value stands at 24, or after the name rounded up to 8."""
    before = padded(units(name))
    return attribute(kind, 0, name, 0, pack("<IHxx", len(value), 24 + len(before)), before + value)

def extent(runs, sizes, kind=DATA, name="", lowest=0, flags=0, unit=0, stored=None):
    """A non-resident attribute. The sizes are allocated, size and initialised size; without a run the highest VCN is -1.

    The pairs stand at 64, or after the name rounded up to 8. A sparse or packed stream has no name, but tells at 64 how
    many bytes its clusters have; its pairs stand at 72.
    """
    before = padded(units(name)) if stored is None else pack("<Q", stored)
    highest = lowest + sum(length for _, length in runs) - 1
    form = pack("<QqHHxxxxQQQ", lowest, highest, 64 + len(before), unit, *sizes)
    return attribute(kind, 1, name, flags, form, before + mapping_pairs(runs), lowest)

def name_key(parent, namespace, name):
    """A $FILE_NAME: its parent, times, sizes and attributes that are 0, its length in units, its namespace, the name."""
    return pack("<Q56xBB", reference(parent), len(name), namespace) + units(name)

def list_entry(holder, instance, attr):
    """An attribute list's entry, 32 bytes. No attribute that is listed here has a name."""
    return pack("<IHBBQQH6x", attr.kind, 32, 0, 26, attr.lowest, reference(holder), instance)

# ---- records

def protect(block, array):
    """Update sequence number 1: the last word of each 512-byte stride moves into the array, the number takes its place."""
    strides = len(block) // 512
    pack_into("<HH", block, 4, array, 1 + strides)
    pack_into("<H", block, array, 1)
    for i in range(strides):
        saved, last = array + 2 + 2 * i, 512 * i + 510
        block[saved : saved + 2] = block[last : last + 2]
        block[last : last + 2] = pack("<H", 1)
    return bytes(block)

def file_record(number, attributes):
    """A record in use. Instances count its attributes from 0; four zero bytes after the end mark count as in use."""
    base = reference(EXTENSIONS[number]) if number in EXTENSIONS else 0
    links = sum(attr.kind == FILE_NAME for attr in attributes)
    flags = 3 if number in DIRECTORIES else 1
    body = b"".join(attr.raw[:14] + pack("<H", i) + attr.raw[16:] for i, attr in enumerate(attributes))
    body += pack("<II", END, 0)
    head = pack("<4s4xQHHHHIIQHxxI", b"FILE", 0, 1, links, 0x38, flags, 0x38 + len(body), RECORD, base, len(attributes), number)
    assert 0x38 + len(body) <= RECORD
    return protect(bytearray((head.ljust(0x38, b"\0") + body).ljust(RECORD, b"\0")), 0x30)

def with_names(number, besides):
    """A record's attributes in order of type. All but extensions have a standard information of 72 zero bytes."""
    if number in EXTENSIONS:
        return besides
    names = [resident(FILE_NAME, name_key(*key)) for record, *key in NAMES if record == number]
    return sorted([resident(STANDARD_INFORMATION, bytes(72))] + names + besides, key=lambda attr: attr.kind)

def with_list(number, attributes, extension, extension_attributes):
    """The attributes with a resident list of all attributes of both records but itself, in order of type and VCN."""
    position = sum(attr.kind < ATTRIBUTE_LIST for attr in attributes)
    listed = [(attr, number, i + (i >= position)) for i, attr in enumerate(attributes)]
    listed += [(attr, extension, i) for i, attr in enumerate(extension_attributes)]
    listed.sort(key=lambda entry: (entry[0].kind, entry[0].lowest))
    value = b"".join(list_entry(holder, instance, attr) for attr, holder, instance in listed)
    return attributes[:position] + [resident(ATTRIBUTE_LIST, value)] + attributes[position:]

# ---- indexes

def upper(unit):
    """$UpCase: a to z become A to Z, every other unit stays."""
    return unit - 0x20 if 0x61 <= unit <= 0x7A else unit

def collation(entry):
    """Names are in order under $UpCase, ties by their units. (Each letter here is one unit.)"""
    letters = [ord(letter) for letter in entry[3]]
    return [upper(unit) for unit in letters], letters

def index_entries(directory):
    """The entries of all names that have this parent; each is 16 bytes and the key, rounded up to 8."""
    entries = b""
    for record, *name in sorted((name for name in NAMES if name[1] == directory), key=collation):
        key = name_key(*name)
        entries += pack("<QHHHxx", reference(record), 16 + len(padded(key)), len(key), 0) + padded(key)
    return entries

def end_entry(child=None):
    """Reference 0 and no key: 16 bytes with flag 2, or 24 bytes with flags 3 and the child's VCN."""
    return pack("<QHHHxx", 0, 16, 0, 2) if child is None else pack("<QHHHxxQ", 0, 24, 0, 3, child)

def index_root(cluster, entries, children=False):
    """Keys are $FILE_NAMEs, collation is 1, by names. A block's size is told in bytes, and in clusters, or in sectors where
    a cluster is larger than a block. In the node header the used length, counted from it, is the allocated one too."""
    used, per_block = 16 + len(entries), BLOCK // (cluster if cluster <= BLOCK else SECTOR)
    head = pack("<IIIBxxxIIIBxxx", FILE_NAME, 1, BLOCK, per_block, 16, used, used, children)
    return resident(INDEX_ROOT, head + entries, "$I30")

def root_block():
    """The one index block: VCN 0, no children. Its node header is at 0x18, its first entry 0x28 further on."""
    entries = index_entries(ROOT) + end_entry()
    head = pack("<4s4xQQIIIBxxx", b"INDX", 0, 0, 0x28, 0x28 + len(entries), BLOCK - 0x18, 0)
    assert 0x18 + 0x28 + len(entries) <= BLOCK
    return protect(bytearray((head.ljust(0x18 + 0x28, b"\0") + entries).ljust(BLOCK, b"\0")), 0x28)

# ---- the volume

def sectors(seed, clusters, cluster):
    """An odd seed counts the sectors of one more cluster, but for its last one: there the copy of the boot sector lies."""
    per_cluster = cluster // SECTOR
    return clusters * per_cluster + (per_cluster - 1) * (seed & 1)

def boot_sector(seed, clusters, cluster, runs):
    boot = bytearray(SECTOR)
    pack_into("<3s8sHB", boot, 0, b"\xEB\x52\x90", b"NTFS    ", SECTOR, cluster // SECTOR)
    pack_into("<QQQ", boot, 0x28, sectors(seed, clusters, cluster), runs["mft first"][0], runs["mirror"][0])
    pack_into("<B3xB3xQ", boot, 0x40, 0xF6, 0xF4, seed)  # records of 2^10 bytes, index blocks of 2^12, the serial
    boot[0x1FE:] = b"\x55\xAA"
    return bytes(boot)

def make(seed, clusters, cluster):
    """The pieces of the image: place and bytes. Every byte outside them is zero."""
    runs = layout(seed, clusters, cluster)
    boot = boot_sector(seed, clusters, cluster, runs)
    pieces = [(sectors(seed, clusters, cluster) * SECTOR, boot)]  # the copy, behind the counted sectors

    def put(stream_runs, content):
        """Byte b of a stream lies in its VCN floor(b / cluster). What its clusters have behind its bytes is zero."""
        vcn = 0
        for lcn, length in stream_runs:
            if lcn is not None:  # a hole has no clusters
                pieces.append((lcn * cluster, content[vcn * cluster : (vcn + length) * cluster]))
            vcn += length

    def stream(stream_runs, content, size=None, initialised=None, **more):
        """A stream in one attribute, with what stands in its clusters. All its VCNs count as allocated."""
        put(stream_runs, content)
        allocated = cluster * sum(length for _, length in stream_runs)
        size = len(content) if size is None else size
        return extent(stream_runs, (allocated, size, size if initialised is None else initialised), **more)

    half = runs["mft first"][1]  # the VCN with which the second area of $MFT begins
    mft_runs = [runs["mft first"], runs["mft second"]]
    listed_runs = [runs["listed first"], runs["listed second"]]
    bad = bad_cluster(clusters)
    bad_runs = [(None, bad), (bad, 1), (None, clusters - bad - 1)]
    none = (0, 0, 0)  # the sizes of an empty stream, and of each extent but a stream's first
    upcase = b"".join(pack("<H", upper(unit)) for unit in range(65536))

    # What each record in use has besides its standard information, its names and its attribute list.
    besides = {
        0: [extent(mft_runs[:1], (2 * half * cluster, RECORDS * RECORD, RECORDS * RECORD)),
            resident(BITMAP, bytes.fromhex("FF 0F FF 1F FF FF 00 00"))],
        1: [extent([runs["mirror"]], (runs["mirror"][1] * cluster, 4 * RECORD, 4 * RECORD))],
        2: [stream([runs["journal"]], b"\xFF" * 65536)],
        3: [resident(VOLUME_INFORMATION, bytes(8) + bytes([3, 1, 0, 0]))],  # version 3.1, not dirty
        4: [resident(DATA, b"")],
        5: [index_root(cluster, end_entry(child=0), children=True),
            stream([runs["root index"]], root_block(), kind=INDEX_ALLOCATION, name="$I30"),
            resident(BITMAP, b"\x01" + bytes(7), "$I30")],
        6: [stream([runs["bitmap"]], bitmap(runs, clusters))],
        7: [stream([runs["boot"]], boot.ljust(8192, b"\0"))],
        8: [resident(DATA, b""), extent(bad_runs, (clusters * cluster, clusters * cluster, 0), name="$Bad")],
        9: [resident(DATA, b"")],
        10: [stream([runs["upcase"]], upcase)],
        11: [index_root(cluster, end_entry())],
        16: [resident(DATA, b"hello, ntfs\n")],
        17: [extent([], none)],
        18: [stream([(None, 2), runs["sparse"], (None, 1)], pattern(18, 4 * cluster), flags=0x8000, stored=cluster)],
        # its clusters are filled, also behind its size
        19: [stream([runs["half"]], pattern(19, 2 * cluster), size=cluster + 5, initialised=10)],
        20: [stream([runs["packed"], (None, 12)], pattern(20, 16 * cluster), flags=0x0001, unit=4, stored=4 * cluster)],
        21: [extent(listed_runs[:1], (2 * cluster, 2 * cluster, 2 * cluster))],
        22: [extent(listed_runs[1:], none, lowest=1)],
        23: [index_root(cluster, index_entries(DIR) + end_entry())],
        24: [resident(DATA, b"inner\n")],
        25: [resident(DATA, b"")],
        26: [resident(DATA, b"A\n")],
        27: [resident(DATA, b"a\n")],
        28: [extent(mft_runs[1:], none, lowest=half)],
    }
    for record, name in FILES:
        besides[record] = [stream([runs[name]], pattern(record, runs[name][1] * cluster))]

    attributes = {record: with_names(record, attrs) for record, attrs in besides.items()}
    for extension, base in EXTENSIONS.items():
        attributes[base] = with_list(base, attributes[base], extension, attributes[extension])
    records = [file_record(i, attributes[i]) if i in attributes else bytes(RECORD) for i in range(RECORDS)]
    put(mft_runs, b"".join(records))
    put([runs["mirror"]], b"".join(records[:4]))  # raw, as they stand in $MFT
    put(listed_runs, pattern(21, 2 * cluster))
    return pieces

def image(seed, clusters, cluster):
    """The bytes of the volume's file."""
    whole = bytearray((clusters + 1) * cluster)
    for place, piece in make(seed, clusters, cluster):
        whole[place : place + len(piece)] = piece
    return bytes(whole)

def write(path, pieces, length):
    with open(path, "wb") as image:
        image.truncate(length)
        for place, piece in pieces:
            image.seek(place)
            image.write(piece)

def weighted_sum(pieces):
    """The weights run from 1 to 65521 and begin anew. Pieces do not overlap, and zeros add nothing."""
    total = 0
    for place, piece in pieces:
        at = 0
        while at < len(piece):
            weight = (place + at) % 65521 + 1
            part = piece[at : at + 65522 - weight]
            total += sum(map(mul, part, range(weight, 65522)))
            at += len(part)
    return total % 2**64

def main(path, *numbers):
    seed, clusters, cluster = map(int, numbers)
    least = 2048 if cluster == 512 else 1024
    if seed not in range(2**64) or cluster not in [512 << i for i in range(8)] or clusters not in range(least, 1048577):
        sys.exit("out of range")
    pieces = make(seed, clusters, cluster)
    if path == "-":
        print(weighted_sum(pieces))
    else:
        write(path, pieces, (clusters + 1) * cluster)

if __name__ == "__main__":
    if len(sys.argv) != 5:
        sys.exit(__doc__)
    main(*sys.argv[1:])
