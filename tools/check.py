#!/usr/bin/env python3
"""Judges an NTFS volume by sixteen rules, in their order.

    check.py IMAGE

It prints `accepted` and the number of clusters that live records own, or the first refusal. All numbers on the volume are
little-endian. A function for a structure raises Fault where the structure is bad; a function for a rule raises Refused.
"""
import mmap
import os
import sys
from typing import NamedTuple

ATTRIBUTE_LIST, FILE_NAME, VOLUME_INFORMATION = 0x20, 0x30, 0x70
DATA, INDEX_ROOT, INDEX_ALLOCATION, BITMAP, END = 0x80, 0x90, 0xA0, 0xB0, 0xFFFFFFFF
IN_USE, DIRECTORY = 1, 2  # flags of a record
CHILD, LAST = 1, 2  # flags of an index entry
LIMIT = 1 << 48  # of VCNs, of LCNs in mapping pairs, and of the clusters of a run list
LONGEST_LIST = 1 << 24  # bytes of an attribute list outside its record
LEVELS = 16  # of an index tree; the root is the first
UPCASE_SIZE = 131072
UNNAMED = b""
I30 = "$I30".encode("utf-16-le")
BAD = "$Bad".encode("utf-16-le")


class Fault(Exception):
    """A structure that is bad, or a stream that cannot be gathered."""


class Refused(Exception):
    """The text of a refusal."""


def damaged(rule, record):
    return Refused(f"damaged: rule {rule} record {record}")


def number(data, at, size):
    return int.from_bytes(data[at:at + size], "little")


def signed(data, at, size):
    return int.from_bytes(data[at:at + size], "little", signed=True)


def ceil_div(a, b):
    return -(-a // b)


def bit_of(data, b):
    """Bit b is bit b mod 8, counted from the lowest, of byte floor(b / 8). Behind the end there is no bit that is 1."""
    return b // 8 < len(data) and data[b // 8] >> b % 8 & 1 == 1


def matches(reference, record, sequence):
    """A reference matches a record: its low 48 bits are the record's number, its upper 16 are 0 or its sequence."""
    return reference & LIMIT - 1 == record and reference >> 48 in (0, sequence)


# ---- the boot sector

class Geometry(NamedTuple):
    sector: int
    cluster: int  # bytes of a cluster
    record: int  # bytes of a record
    block: int  # bytes of an index block
    sectors: int
    clusters: int
    mft: int  # first cluster of $MFT
    mirror: int  # first cluster of $MFTMirr


def read_geometry(image):
    """The boot sector's geometry. A refusal names the first field that fails, with its value."""
    if len(image) < 512:
        raise Refused(f"image has {len(image)} bytes, needs 512")
    boot = image[:512]
    if boot[3:11] != b"NTFS    ":
        raise Refused("not an NTFS volume")

    def need(field, holds, value):
        if not holds:
            raise Refused(f"bad geometry: field {field} value {value}")

    def length(at):
        """A signed byte k: above 0 it is k clusters, below 0 it is 2^(-k) bytes, and 0 means nothing."""
        k = signed(boot, at, 1)
        return k * cluster if k > 0 else 1 << -k if k < 0 else 0

    sector, per_cluster = number(boot, 0x0B, 2), number(boot, 0x0D, 1)
    need(1, sector in (512, 1024, 2048, 4096), sector)
    need(2, per_cluster in (1, 2, 4, 8, 16, 32, 64, 128), per_cluster)
    cluster = sector * per_cluster
    need(3, cluster <= 65536, cluster)
    record, block = length(0x40), length(0x44)
    need(4, record in (1024, 2048, 4096), number(boot, 0x40, 1))
    need(5, block in (1024, 2048, 4096, 8192, 16384, 32768, 65536), number(boot, 0x44, 1))
    sectors = number(boot, 0x28, 8)
    clusters = sectors // per_cluster
    need(6, 1 <= clusters <= 2**32 - 1, sectors)
    mft, mirror = number(boot, 0x30, 8), number(boot, 0x38, 8)
    need(7, mft + ceil_div(record, cluster) <= clusters, mft)
    need(8, mirror + ceil_div(4 * record, cluster) <= clusters, mirror)
    return Geometry(sector, cluster, record, block, sectors, clusters, mft, mirror)


# ---- fixups

def unfix(block, magic):
    """The block with the true last words of its strides of 512 bytes, which stand in the fixup array; that stays."""
    if block[:4] != magic:
        raise Fault("no magic")
    offset, count = number(block, 4, 2), number(block, 6, 2)
    least = 0x2A if magic == b"FILE" else 0x28
    if count != 1 + len(block) // 512 or offset % 2 != 0 or offset < least or offset + 2 * count > 510:
        raise Fault("bad fixup array")
    true = bytearray(block)
    for stride in range(count - 1):
        last, saved = 512 * stride + 510, offset + 2 + 2 * stride
        if block[last:last + 2] != block[offset:offset + 2]:
            raise Fault("torn")
        true[last:last + 2] = block[saved:saved + 2]
    return bytes(true)


# ---- mapping pairs

class Run(NamedTuple):
    lcn: object  # None in a hole
    length: int


def decode_pairs(data):
    """The runs: a header byte, the length, and the distance from the last LCN that isn't a hole's, until a header of 0."""
    runs, at, last, total = [], 0, 0, 0
    while True:
        if at >= len(data):
            raise Fault("pairs end before the closing 0")
        header = data[at]
        if header == 0:
            return runs
        length_size, lcn_size = header % 16, header // 16
        if length_size > 8 or lcn_size > 8 or length_size == 0:
            raise Fault("bad sizes in a pair")
        after = at + 1 + length_size + lcn_size
        if after > len(data):
            raise Fault("pairs end before the closing 0")
        length = signed(data, at + 1, length_size)
        total += length
        if length < 1 or total > LIMIT:
            raise Fault("bad length in a pair")
        lcn = None
        if lcn_size > 0:
            lcn = last = last + signed(data, at + 1 + length_size, lcn_size)
            if not 0 <= lcn <= LIMIT:
                raise Fault("bad LCN in a pair")
        runs.append(Run(lcn, length))
        at = after


def length_of(runs):
    return sum(run.length for run in runs)


def has_hole(runs):
    return any(run.lcn is None for run in runs)


def inside(runs, clusters):
    """Each cluster of each run is one of the volume's."""
    return all(run.lcn is None or run.lcn + run.length <= clusters for run in runs)


def first_lcns(runs, count):
    """The LCNs of the first VCNs, at most so many; None in holes."""
    lcns = []
    for run in runs:
        for i in range(min(run.length, count - len(lcns))):
            lcns.append(None if run.lcn is None else run.lcn + i)
    return lcns


def in_a_row(runs, first, count):
    """The first VCNs, so many, lie in a row from that cluster on."""
    return first_lcns(runs, count) == list(range(first, first + count))


def read_runs(image, cluster, runs, at, size):
    """Bytes of a run list, from a place on; holes give zeros."""
    pieces, start, end = [], 0, at + size
    for run in runs:
        stop = start + run.length * cluster
        low, high = max(at, start), min(end, stop)
        if low < high:
            if run.lcn is None:
                pieces.append(bytes(high - low))
            else:
                place = run.lcn * cluster + low - start
                pieces.append(bytes(image[place:place + high - low]))
        start = stop
    return b"".join(pieces)


# ---- records

class Attribute(NamedTuple):
    place: int
    type: int
    nonresident: bool
    name: bytes  # UTF-16LE
    name_offset: int
    flags: int
    instance: int
    value: bytes  # of a resident attribute
    offset: int  # of the value or the pairs
    lowest: int  # VCN; 0 in a resident attribute
    highest: int
    pairs: bytes  # from the pairs offset to the attribute's end
    size: int
    initialised: int


class Record(NamedTuple):
    number: object  # None where it isn't told
    sequence: int
    flags: int
    base: int  # reference; 0 in a base record
    used: int  # bytes in use
    array: range  # the places of the fixup array
    bytes: bytes  # all of them, unfixed
    attributes: list


def is_in_use(block):
    """The block begins FILE and has the in-use flag."""
    return block[:4] == b"FILE" and number(block, 0x16, 2) & IN_USE != 0


def parse_record(block):
    """The record of an unfixed block."""
    if len(block) < 32 or block[:4] != b"FILE" or number(block, 0x1C, 4) != len(block):
        raise Fault("bad header")
    array_offset, array_count = number(block, 4, 2), number(block, 6, 2)
    array = range(array_offset, array_offset + 2 * array_count)
    first, used = number(block, 0x14, 2), number(block, 0x18, 4)
    if used > len(block):
        raise Fault("bad header: bytes in use")
    if first % 8 != 0 or first < array.stop or first < 0x28 or first > used - 4:
        raise Fault("bad header: first attribute")
    own = number(block, 0x2C, 4) if array_offset >= 0x30 else None
    return Record(own, number(block, 0x10, 2), number(block, 0x16, 2), number(block, 0x20, 8), used, array, block,
                  parse_attributes(block, first, used))


def parse_attributes(block, place, used):
    """The attributes from the first one's place to the end mark."""
    attributes = []
    while True:
        if place + 4 > used:
            raise Fault("no room for a type")
        if number(block, place, 4) == END:
            return attributes
        attribute, length = parse_attribute(block, place, used)
        attributes.append(attribute)
        place += length


def parse_attribute(block, place, used):
    """One attribute and its length."""
    length, form = number(block, place + 4, 4), number(block, place + 8, 1)
    if length % 8 != 0 or place + length > used - 4:
        raise Fault("bad length of an attribute")
    if form not in (0, 1) or length < (64 if form else 24):
        raise Fault("bad form or length of an attribute")
    raw = block[place:place + length]
    units, name_offset = number(raw, 9, 1), number(raw, 10, 2)
    if units >= 1 and name_offset + 2 * units > length:
        raise Fault("a name ends past its attribute")
    name = raw[name_offset:name_offset + 2 * units] if units >= 1 else UNNAMED
    kind, flags, instance = number(raw, 0, 4), number(raw, 12, 2), number(raw, 14, 2)
    if form == 0:
        size, offset = number(raw, 0x10, 4), number(raw, 0x14, 2)
        if offset < 24 or offset + size > length:
            raise Fault("a value begins too early or ends past its attribute")
        value = raw[offset:offset + size]
        return Attribute(place, kind, False, name, name_offset, flags, instance, value, offset, 0, 0, b"", size, size), length
    lowest, highest, offset = number(raw, 0x10, 8), signed(raw, 0x18, 8), number(raw, 0x20, 2)
    if not 64 <= offset <= length:
        raise Fault("pairs begin too early or past their attribute")
    if lowest > LIMIT or highest < lowest - 1 or highest > LIMIT:
        raise Fault("bad VCNs")
    return Attribute(place, kind, True, name, name_offset, flags, instance, b"", offset, lowest, highest, raw[offset:],
                     number(raw, 0x30, 8), number(raw, 0x38, 8)), length


def checked_runs(attribute, clusters):
    """The runs of a non-resident attribute: they cover exactly its VCNs, and each LCN is one of the volume's."""
    runs = decode_pairs(attribute.pairs)
    if length_of(runs) != attribute.highest - attribute.lowest + 1 or not inside(runs, clusters):
        raise Fault("bad runs")
    return runs


# ---- attribute lists

class ListEntry(NamedTuple):
    type: int
    name: bytes
    lowest: int
    reference: int
    instance: int


def list_entries(data):
    """The entries of an attribute list's bytes."""
    entries, at = [], 0
    while at < len(data):
        left = len(data) - at
        if left < 26:
            raise Fault("a list ends within an entry")
        length, units, name_offset = number(data, at + 4, 2), data[at + 6], data[at + 7]
        if length < 26 or length > left or name_offset + 2 * units > length:
            raise Fault("bad entry of a list")
        name = data[at + name_offset:at + name_offset + 2 * units]
        entries.append(ListEntry(number(data, at, 4), name, number(data, at + 8, 8), number(data, at + 0x10, 8),
                                 number(data, at + 0x18, 2)))
        at += length
    return entries


def list_attribute(record):
    """The record's attribute list, which is its first attribute of that type whatever its name, or None."""
    for attribute in record.attributes:
        if attribute.type == ATTRIBUTE_LIST:
            return attribute
    return None


def read_list(image, geometry, record):
    """The entries of the record's attribute list, or None where it has none.

    The list is resident, or one extent in the record itself, from VCN 0, with good runs and sizes.
    """
    found = list_attribute(record)
    if found is None:
        return None
    if not found.nonresident:
        return list_entries(found.value)
    same = [a for a in record.attributes if a.type == ATTRIBUTE_LIST and a.name == found.name]
    if len(same) > 1 or found.lowest != 0:
        raise Fault("a list of several extents")
    runs = checked_runs(found, geometry.clusters)
    if found.size > LONGEST_LIST or found.size > length_of(runs) * geometry.cluster or found.initialised > found.size:
        raise Fault("bad size of a list")
    data = read_runs(image, geometry.cluster, runs, 0, found.initialised)
    return list_entries(data + bytes(found.size - found.initialised))


def listed(attributes, entry):
    """The first of a record's attributes that an entry of a list means."""
    for a in attributes:
        if (a.type, a.name, a.lowest, a.instance) == (entry.type, entry.name, entry.lowest, entry.instance):
            return a
    raise Fault("an entry without its attribute")


# ---- $MFT's map

class Map(NamedTuple):
    runs: list
    size: int
    initialised: int


def mft_map(image, geometry):
    """Where $MFT lies, from the record 0 at the boot sector's cluster on.

    Record 0's own sizes are looked at before its further extents, since the lowest failing record is named.
    """
    cluster, size_of_record = geometry.cluster, geometry.record
    place = geometry.mft * cluster
    try:
        zero = parse_record(unfix(image[place:place + size_of_record], b"FILE"))
        if not zero.flags & IN_USE:
            raise Fault("record 0 isn't in use")
        own = [a for a in zero.attributes if (a.type, a.name, a.nonresident, a.lowest) == (DATA, UNNAMED, True, 0)]
        if not own:
            raise Fault("record 0 has no data from VCN 0")
        first = own[0]
        if first.initialised > first.size or not 12 <= first.size // size_of_record <= 2**32 - 1:
            raise Fault("bad sizes of $MFT")
        runs = map_runs(first, geometry)
        entries = read_list(image, geometry, zero) or []
    except Fault:
        raise damaged("C3", 0)
    for entry in entries:
        if (entry.type, entry.name) != (DATA, UNNAMED):
            continue
        holder = entry.reference & LIMIT - 1
        if holder == 0 and entry.lowest == 0:
            continue
        try:
            extent = map_extent(image, geometry, zero, Map(runs, first.size, first.initialised), entry, holder)
        except Fault:
            raise damaged("C3", 0)
        try:
            runs = runs + map_runs(extent, geometry)
        except Fault:
            raise damaged("C3", holder)
    if first.size > length_of(runs) * cluster:
        raise damaged("C3", 0)
    return Map(runs, first.size, first.initialised)


def map_runs(extent, geometry):
    """The runs of one extent of $MFT: no holes, and LCNs of the volume. How many VCNs they cover isn't asked here."""
    runs = decode_pairs(extent.pairs)
    if has_hole(runs) or not inside(runs, geometry.clusters):
        raise Fault("bad runs of $MFT")
    return runs


def map_extent(image, geometry, zero, known, entry, holder):
    """The further extent of $MFT that an entry of record 0's list means.

    It begins where the known VCNs end; its record lies wholly in the part already known, is live, has a base that matches
    record 0 (but for record 0 itself), and holds the extent. The upper 16 bits of the entry's reference and the record's
    own number aren't asked here.
    """
    vcns, end = length_of(known.runs), (holder + 1) * geometry.record
    if entry.lowest != vcns or end > vcns * geometry.cluster or end > known.initialised:
        raise Fault("an extent of $MFT out of place")
    if holder == 0:
        record = zero
    else:
        block = read_runs(image, geometry.cluster, known.runs, holder * geometry.record, geometry.record)
        if not is_in_use(block):
            raise Fault("an extent of $MFT in a record that isn't live")
        record = parse_record(unfix(block, b"FILE"))
        if record.base == 0 or not matches(record.base, 0, zero.sequence):
            raise Fault("an extent of $MFT with another base")
    extent = listed(record.attributes, entry)
    if not extent.nonresident:
        raise Fault("a resident extent of $MFT")
    return extent


# ---- the volume and its streams

class Volume:
    """What the rules have found so far: the geometry, $MFT's map, the live records, and who owns which cluster."""

    def __init__(self, image):
        self.image = image
        self.geometry = None
        self.map = None
        self.records = {}  # live records by number, ascending
        self.owned = None  # a byte for each cluster
        self.told = None  # by base record the live records that tell it as their base, once all records are read

    def base_records(self):
        """Number and record of each live base record, ascending."""
        return [(r, record) for r, record in self.records.items() if record.base == 0]

    def base_record(self, reference):
        """The number of the live base record that the reference matches, or None."""
        n = reference & LIMIT - 1
        record = self.records.get(n)
        if record is None or record.base != 0 or not matches(reference, n, record.sequence):
            return None
        return n

    def extensions(self, base):
        """Numbers of the live records whose base matches that record, ascending."""
        if self.told is None:
            self.told = {}
            for r, record in self.records.items():
                if record.base != 0:
                    self.told.setdefault(record.base & LIMIT - 1, []).append(r)
        sequence = self.records[base].sequence
        return [r for r in self.told.get(base, []) if matches(self.records[r].base, base, sequence)]


class Stream(NamedTuple):
    resident: bool
    value: bytes  # of a resident stream
    extents: int
    runs: list
    size: int
    initialised: int
    flags: int


def entry_attribute(volume, base, entry):
    """The attribute that an entry of a base record's list means. Its record is live, matches, and is the base or has it."""
    n = entry.reference & LIMIT - 1
    record = volume.records.get(n)
    if record is None or not matches(entry.reference, n, record.sequence):
        raise Fault("an entry without its record")
    if n != base and (record.base == 0 or not matches(record.base, base, volume.records[base].sequence)):
        raise Fault("an entry with a record of another base")
    return listed(record.attributes, entry)


def attributes_of(volume, base, wanted):
    """A base record's attributes of the (type, name)s that are wanted: its own, or in the order of its list."""
    record = volume.records.get(base)
    if record is None or record.base != 0:
        raise Fault("no live base record")
    entries = read_list(volume.image, volume.geometry, record)
    if entries is None:
        return [a for a in record.attributes if wanted(a.type, a.name)]
    return [entry_attribute(volume, base, entry) for entry in entries if wanted(entry.type, entry.name)]


def gather(volume, base, kind, name):
    """The stream of a live base record of that type and name, or None where it has no such attribute."""
    extents = attributes_of(volume, base, lambda t, n: (t, n) == (kind, name))
    if not extents:
        return None
    first = extents[0]
    if not first.nonresident:
        return Stream(True, first.value, 1, [], len(first.value), len(first.value), first.flags)
    runs = []
    for extent in extents:
        if extent.nonresident:
            runs += checked_runs(extent, volume.geometry.clusters)
    if not join(extents, volume.geometry.cluster):
        raise Fault("extents that don't join, or bad sizes")
    return Stream(False, b"", len(extents), runs, first.size, first.initialised, first.flags)


def join(extents, cluster):
    """Non-resident extents that join from VCN 0, size at most the bytes of the VCNs, initialised size at most the size."""
    next_vcn = 0
    for extent in extents:
        if not extent.nonresident or extent.lowest != next_vcn:
            return False
        next_vcn = extent.highest + 1
    return extents[0].initialised <= extents[0].size <= next_vcn * cluster


def stream_bytes(volume, stream, at, size):
    """Bytes of a stream from a place on, cut at its end; holes and what isn't initialised are zeros."""
    size = max(0, min(size, stream.size - at))
    if stream.resident:
        return stream.value[at:at + size]
    stored = max(0, min(size, stream.initialised - at))
    return read_runs(volume.image, volume.geometry.cluster, stream.runs, at, stored) + bytes(size - stored)


# ---- indexes

class IndexEntry(NamedTuple):
    reference: int
    namespace: int
    name: bytes  # UTF-16LE


def name_of_key(key):
    """The namespace and the name of a $FILE_NAME."""
    if len(key) < 0x42 or 0x42 + 2 * key[0x40] > len(key):
        raise Fault("a name that doesn't fit")
    return key[0x41], key[0x42:0x42 + 2 * key[0x40]]


def node_entries(node):
    """The entries of a node, from its header on: each with its child's VCN or None, the end entry last as None."""
    first, used = number(node, 0, 4), number(node, 4, 4)
    if first < 16 or first % 8 != 0 or first > used or used > len(node):
        raise Fault("bad node header")
    entries, at = [], first
    while True:
        if at + 16 > used:
            raise Fault("a node without an end entry")
        length, key_length, flags = number(node, at + 8, 2), number(node, at + 10, 2), number(node, at + 12, 2)
        if length < 16 or length % 8 != 0 or at + length > used:
            raise Fault("bad length of an index entry")
        child, room = None, length
        if flags & CHILD:
            room = length - 8
            if room < 16:
                raise Fault("a child that doesn't fit")
            child = number(node, at + room, 8)
        if flags & LAST:
            entries.append((None, child))
            return entries
        if 16 + key_length > room:
            raise Fault("a key that doesn't fit")
        entries.append((IndexEntry(number(node, at, 8), *name_of_key(node[at + 16:at + 16 + key_length])), child))
        at += length


def walk_index(volume, directory):
    """The entries of the directory's $I30 in order: a child's entries before an entry, the end entry's child last."""
    geometry = volume.geometry
    root = gather(volume, directory, INDEX_ROOT, I30)
    if root is None or not root.resident:
        raise Fault("no index root in the record")
    allocation = gather(volume, directory, INDEX_ALLOCATION, I30)
    unit = geometry.cluster if geometry.cluster <= geometry.block else 512
    met, walked = set(), []

    def block_node(vcn):
        """The node of the block with that VCN, met for the first time, inside the allocation."""
        if vcn in met:
            raise Fault("a block is met a second time")
        met.add(vcn)
        if allocation is None or vcn * unit + geometry.block > allocation.size:
            raise Fault("a block outside the allocation")
        block = unfix(stream_bytes(volume, allocation, vcn * unit, geometry.block), b"INDX")
        if number(block, 0x10, 8) != vcn:
            raise Fault("a block with another VCN")
        return block[0x18:]

    def walk(node, level):
        if level > LEVELS:
            raise Fault("too many levels")
        for entry, child in node_entries(node):
            if child is not None:
                walk(block_node(child), level + 1)
            if entry is not None:
                walked.append(entry)

    value = root.value
    if len(value) < 32 or (number(value, 0, 4), number(value, 4, 4), number(value, 8, 4)) != (FILE_NAME, 1, geometry.block):
        raise Fault("bad index root")
    walk(value[0x10:], 1)
    return walked


# ---- the rows of the fixed records

def row_stream(volume, r, kind, name):
    """The stream that a row of a fixed record speaks of, or None where it can't be had or has flags."""
    try:
        stream = gather(volume, r, kind, name)
    except Fault:
        return None
    return stream if stream is not None and stream.flags == 0 else None


def has_no_list(volume, r):
    return r in volume.records and list_attribute(volume.records[r]) is None


def plain_data(volume, r):
    """The record's unnamed $DATA where it is non-resident, without hole and flags; else None."""
    stream = row_stream(volume, r, DATA, UNNAMED)
    return stream if stream is not None and not stream.resident and not has_hole(stream.runs) else None


def row_0(volume):
    """$MFT begins at the boot sector's cluster, its first record in a row; the same holds for the map."""
    geometry = volume.geometry
    stream, head = row_stream(volume, 0, DATA, UNNAMED), ceil_div(geometry.record, geometry.cluster)
    return (stream is not None and in_a_row(stream.runs, geometry.mft, head)
            and in_a_row(volume.map.runs, geometry.mft, head))


def row_1(volume):
    """$MFTMirr has room for four records, which lie in a row from the boot sector's cluster on."""
    geometry, stream = volume.geometry, plain_data(volume, 1)
    head = ceil_div(4 * geometry.record, geometry.cluster)
    return (has_no_list(volume, 1) and stream is not None and stream.size >= 4 * geometry.record
            and in_a_row(stream.runs, geometry.mirror, head))


def row_2(volume):
    """$LogFile is non-resident and has no hole."""
    return plain_data(volume, 2) is not None


def row_3(volume):
    """$Volume tells version 3.1 in its record."""
    stream = row_stream(volume, 3, VOLUME_INFORMATION, UNNAMED)
    return (has_no_list(volume, 3) and stream is not None and stream.resident
            and len(stream.value) >= 12 and stream.value[8:10] == b"\3\1")


def row_5(volume):
    """The root is a directory."""
    return 5 in volume.records and volume.records[5].flags & DIRECTORY != 0


def row_6(volume):
    """$Bitmap is one extent without a hole, with a bit for each cluster."""
    stream, size = plain_data(volume, 6), ceil_div(volume.geometry.clusters, 8)
    return (has_no_list(volume, 6) and stream is not None and stream.extents == 1
            and stream.size >= size and stream.initialised >= size)


def row_7(volume):
    """$Boot begins at cluster 0."""
    stream = plain_data(volume, 7)
    return has_no_list(volume, 7) and stream is not None and first_lcns(stream.runs, 1) == [0]


def row_8(volume):
    """$Bad is one extent, in which each cluster stands at its own VCN."""
    stream = row_stream(volume, 8, DATA, BAD)
    if not has_no_list(volume, 8) or stream is None or stream.resident or stream.extents != 1:
        return False
    vcn = 0
    for run in stream.runs:
        if run.lcn not in (None, vcn):
            return False
        vcn += run.length
    return True


ROWS = {0: row_0, 1: row_1, 2: row_2, 3: row_3, 5: row_5, 6: row_6, 7: row_7, 8: row_8}


# ---- the rules

def rule_c1(volume):
    """The boot sector has a geometry."""
    volume.geometry = read_geometry(volume.image)


def rule_c2(volume):
    """The image has all clusters."""
    needed = volume.geometry.clusters * volume.geometry.cluster
    if len(volume.image) < needed:
        raise Refused(f"image has {len(volume.image)} bytes, needs {needed}")


def rule_c3(volume):
    """$MFT's map is defined."""
    volume.map = mft_map(volume.image, volume.geometry)


def rule_c4(volume):
    """Each record in the initialised part that is in use unfixes, parses and tells its own number; none begins BAAD."""
    size = volume.geometry.record
    for r in range(volume.map.initialised // size):
        block = read_runs(volume.image, volume.geometry.cluster, volume.map.runs, r * size, size)
        if block[:4] == b"BAAD":
            raise damaged("C4", r)
        if is_in_use(block):
            try:
                record = parse_record(unfix(block, b"FILE"))
            except Fault:
                raise damaged("C4", r)
            if record.number not in (None, r):
                raise damaged("C4", r)
            volume.records[r] = record


def rule_c5(volume):
    """Record 0's unnamed $BITMAP gathers, and the bit of each live record is 1."""
    try:
        stream = gather(volume, 0, BITMAP, UNNAMED)
    except Fault:
        stream = None
    if stream is None:
        raise damaged("C5", 0)
    bits = stream_bytes(volume, stream, 0, max(volume.records, default=0) // 8 + 1)
    for r in volume.records:
        if not bit_of(bits, r):
            raise damaged("C5", r)


def rule_c6(volume):
    """A name begins behind its attribute's fields and ends before the value or the pairs."""
    for r, record in volume.records.items():
        for a in record.attributes:
            least = 64 if a.nonresident else 24
            if a.name and not (least <= a.name_offset and a.name_offset + len(a.name) <= a.offset):
                raise damaged("C6", r)


def rule_c7(volume):
    """Mapping pairs decode, cover exactly their attribute's VCNs, and have the volume's LCNs alone."""
    for r, record in volume.records.items():
        for a in record.attributes:
            if a.nonresident:
                try:
                    checked_runs(a, volume.geometry.clusters)
                except Fault:
                    raise damaged("C7", r)


def rule_c8(volume):
    """No cluster is owned twice. Named is the first record, by record, place and VCN, that owns one that is taken."""
    volume.owned = bytearray(volume.geometry.clusters)
    for r, record in volume.records.items():
        for a in record.attributes:
            for run in decode_pairs(a.pairs) if a.nonresident else []:
                if run.lcn is not None:
                    for cluster in range(run.lcn, run.lcn + run.length):
                        if volume.owned[cluster]:
                            raise damaged("C8", r)
                        volume.owned[cluster] = 1


def rule_c9(volume):
    """Record 6 meets its row, and the bits of $Bitmap are those of the owned clusters."""
    if not row_6(volume):
        raise damaged("C9", 6)
    clusters = volume.geometry.clusters
    bits = stream_bytes(volume, gather(volume, 6, DATA, UNNAMED), 0, ceil_div(clusters, 8))
    for cluster in range(clusters):
        if bit_of(bits, cluster) != (volume.owned[cluster] == 1):
            raise damaged("C9", 6)


def rule_c10(volume):
    """A base reference matches a live base record."""
    for r, record in volume.records.items():
        if record.base != 0 and volume.base_record(record.base) is None:
            raise damaged("C10", r)


def rule_c11(volume):
    """Without a list a base record has no extensions; with one, its entries are exactly all attributes, each once."""
    for r, record in volume.base_records():
        extensions = volume.extensions(r)
        try:
            entries = read_list(volume.image, volume.geometry, record)
        except Fault:
            raise damaged("C11", r)
        if entries is None:
            if extensions:
                raise damaged("C11", r)
            continue
        there = [(a.type, a.name, a.lowest, member, a.instance)
                 for member in [r] + extensions for a in volume.records[member].attributes
                 if a is not list_attribute(record)]
        told = []
        for entry in entries:
            member = entry.reference & LIMIT - 1
            if member not in [r] + extensions or not matches(entry.reference, member, volume.records[member].sequence):
                raise damaged("C11", r)
            told.append((entry.type, entry.name, entry.lowest, member, entry.instance))
        if len(set(there)) != len(there) or sorted(told) != sorted(there):
            raise damaged("C11", r)


def rule_c12(volume):
    """Attributes of one type and name are one resident one (any number of $FILE_NAMEs), or extents that join."""
    for r, record in volume.base_records():
        groups = {}
        own_list = list_attribute(record)
        if own_list is not None:
            groups[own_list.type, own_list.name] = [own_list]
        for a in attributes_of(volume, r, lambda t, n: True):
            groups.setdefault((a.type, a.name), []).append(a)
        for (kind, _), group in groups.items():
            if not any(a.nonresident for a in group):
                if len(group) > 1 and kind != FILE_NAME:
                    raise damaged("C12", r)
            elif not join(group, volume.geometry.cluster):
                raise damaged("C12", r)


def rule_c13(volume):
    """$UpCase is whole, and each directory's index walks, with its names in order and no name twice.

    Record 10 is named also where a lower record fails. The entries of each directory are given back.
    """
    table = plain_data(volume, 10)
    if table is None or table.size != UPCASE_SIZE or table.initialised != UPCASE_SIZE:
        raise damaged("C13", 10)
    upper = stream_bytes(volume, table, 0, UPCASE_SIZE)
    directories = {}
    for r, record in volume.base_records():
        if not record.flags & DIRECTORY:
            continue
        try:
            entries = walk_index(volume, r)
        except Fault:
            raise damaged("C13", r)
        names = [entry.name for entry in entries]
        folded = [[number(upper, 2 * number(name, at, 2), 2) for at in range(0, len(name), 2)] for name in names]
        if any(folded[i] > folded[i + 1] for i in range(len(folded) - 1)) or len(set(names)) != len(names):
            raise damaged("C13", r)
        directories[r] = entries
    return directories


def rule_c14(volume, directories):
    """Each entry of a directory matches a live base record that has this name in this directory."""
    for d, entries in directories.items():
        for entry in entries:
            r = volume.base_record(entry.reference)
            if r is None or not has_name(volume, r, d, entry):
                raise damaged("C14", d)


def has_name(volume, r, directory, entry):
    """One of the record's $FILE_NAMEs has a parent that matches the directory, and the entry's namespace and name."""
    for a in attributes_of(volume, r, lambda t, n: (t, n) == (FILE_NAME, UNNAMED)):
        try:
            same = not a.nonresident and name_of_key(a.value) == (entry.namespace, entry.name)
        except Fault:
            same = False
        if same and matches(number(a.value, 0, 8), directory, volume.records[directory].sequence):
            return True
    return False


def rule_c15(volume):
    """The fixed records meet their rows."""
    for r, row in ROWS.items():
        if not row(volume):
            raise damaged("C15", r)


def rule_c16(volume):
    """The mirror's four records unfix and equal $MFT's over their bytes in use, but for the fixup array."""
    size = volume.geometry.record
    for r in range(4):
        place = volume.geometry.mirror * volume.geometry.cluster + r * size
        record = volume.records[r]
        try:
            copy = unfix(volume.image[place:place + size], b"FILE")
        except Fault:
            raise damaged("C16", r)
        if any(copy[at] != record.bytes[at] for at in range(record.used) if at not in record.array):
            raise damaged("C16", r)


def check(image):
    """The number of owned clusters of a volume that meets all rules."""
    volume = Volume(image)
    for rule in (rule_c1, rule_c2, rule_c3, rule_c4, rule_c5, rule_c6, rule_c7, rule_c8, rule_c9, rule_c10, rule_c11, rule_c12):
        rule(volume)
    directories = rule_c13(volume)
    rule_c14(volume, directories)
    rule_c15(volume)
    rule_c16(volume)
    return sum(volume.owned)


def verdict(image):
    """The line that tells what became of the image."""
    try:
        return f"accepted {check(image)}"
    except Refused as refusal:
        return str(refusal)


def main(path):
    with open(path, "rb") as file:
        if os.fstat(file.fileno()).st_size == 0:
            print(verdict(b""))
        else:
            with mmap.mmap(file.fileno(), 0, access=mmap.ACCESS_READ) as image:
                print(verdict(image))


if __name__ == "__main__":
    if len(sys.argv) != 2:
        sys.exit(__doc__)
    main(sys.argv[1])
