#!/usr/bin/env python3
"""Computes both sides of the law on attribute lists: on an accepted volume the extents that an attribute list names are all
attributes of that type and name in the records whose base references name the file, in the order of their lowest VCNs.

    base_references.py [VOLUME ..]

It takes the made volumes of seeds 0, 1 and 2 by the independent generator, stock volumes where ntfs-3g is installed and volumes
can be mounted (one with a file in many extents, and those of tools/peers.py), and the volumes that are named. Its reading of a volume is that of tools/check.py.
It ends with 1 where a stream differs.
"""
import pathlib
import shutil
import sys
import tempfile

sys.dont_write_bytecode = True
TOP = pathlib.Path(__file__).resolve().parent.parent
sys.path[:0] = [str(TOP / "bench"), str(TOP / "tools")]
import check
import make_reference
import peers
from measure import mounted, stock_volume


def read(image):
    """The volume as the rules up to C12 leave it, or the refusal."""
    volume = check.Volume(image)
    for rule in (check.rule_c1, check.rule_c2, check.rule_c3, check.rule_c4, check.rule_c5, check.rule_c6, check.rule_c7,
                 check.rule_c8, check.rule_c9, check.rule_c10, check.rule_c11, check.rule_c12):
        rule(volume)
    return volume


def by_base_references(volume, base, kind, name):
    """The attributes of that type and name in the base record and in the records that name it as their base."""
    return [attribute for number in [base, *volume.extensions(base)] for attribute in volume.records[number].attributes
            if (attribute.type, attribute.name) == (kind, name)]


def order(attribute):
    return attribute.lowest if attribute.nonresident else 0


def compared(volume):
    """How many streams there are, in how many extents, and those of which the two sides differ."""
    streams = extents = 0
    wrong = []
    for base, record in volume.base_records():
        everything = [attribute for number in [base, *volume.extensions(base)] for attribute in volume.records[number].attributes]
        has_list = any(attribute.type == check.ATTRIBUTE_LIST for attribute in record.attributes)
        for kind, name in sorted({(attribute.type, attribute.name) for attribute in everything}):
            if kind == check.ATTRIBUTE_LIST and has_list:
                continue
            listed = check.attributes_of(volume, base, lambda t, n: (t, n) == (kind, name))
            held = by_base_references(volume, base, kind, name)
            streams += 1
            extents += len(listed)
            lows = [order(attribute) for attribute in listed]
            same = len(listed) == len(held) and all(any(one is other for other in held) for one in listed)
            if not same or lows != sorted(lows):
                wrong.append((base, hex(kind), name))
    return streams, extents, wrong


def report(heading, image):
    try:
        volume = read(image)
    except check.Refused as refusal:
        print(f"{heading}: {refusal}")
        return True
    streams, extents, wrong = compared(volume)
    print(f"{heading}: {streams} streams in {extents} extents, {len(wrong)} differ", *wrong)
    return not wrong


def fragmented(folder):
    """A stock volume with a file in many extents, in extension records: small files fill the volume, each second one is removed, and
    one file takes what is free then."""
    volume = pathlib.Path(folder) / "stock"
    stock_volume(volume, 4096, 32 << 20)
    with mounted(volume) as top:
        names = [top / f"file {number}" for number in range(8000)]
        filled = [name for name in names if written(name, 4096)]
        for name in filled[::2]:
            name.unlink()
        written(top / "kept", 4096 * 2000)
    return volume.read_bytes()


def written(name, size):
    """Whether a file was written whole; what there was no room for stays cut."""
    try:
        name.write_bytes(b"k" * size)
        return True
    except OSError:
        return False


def main(names):
    right = True
    for seed in (0, 1, 2):
        right &= report(f"made, seed {seed}", bytes(make_reference.image(seed, 1024, 4096)))
    for name in names:
        right &= report(name, pathlib.Path(name).read_bytes())
    if shutil.which("mkntfs") and shutil.which("ntfs-3g"):
        with tempfile.TemporaryDirectory() as folder:
            right &= report("stock, with a file in many extents", fragmented(folder))
            for cluster in (512, 4096, 65_536):
                right &= report(f"stock, clusters of {cluster} bytes", peers.filled(pathlib.Path(folder), cluster).read_bytes())
    sys.exit(0 if right else 1)


if __name__ == "__main__":
    main(sys.argv[1:])
