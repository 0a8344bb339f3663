#!/usr/bin/env python3
"""Has the crates judge volumes of the stock package ntfs-3g (tools/stock_volumes.py), and prints a line for each: the verdict, and how
many records, attribute lists, extents of $MFT and index blocks the volume has.

    try_peers.py [--program FILE] [WORD ..]     with WORDs only volumes whose heading has them all

The verdict has to be that of the independent reading of the rules (tools/check.py), and that the volume is accepted, but for those
that are known to be refused (REFUSED in tools/stock_volumes.py).
`rt try` builds the program of tools/try_check.py without a proof, unless one is named that was built before. It needs ntfs-3g and
the right to mount. The repository is only read. It ends with 1 where a verdict is another one.
"""

import argparse
import mmap
import pathlib
import sys
import tempfile

sys.dont_write_bytecode = True
TOP = pathlib.Path(__file__).resolve().parent.parent
sys.path[:0] = [str(TOP / "bench"), str(TOP / "tools")]
import check
import stock_volumes
import try_check
from measure import has_stock_tools


def read(path):
    """The verdict of the independent reading, and what a volume has."""
    with open(path, "rb") as file, mmap.mmap(file.fileno(), 0, access=mmap.ACCESS_READ) as image:
        verdict = check.verdict(image)
        return verdict, what_it_has(image) if verdict.startswith("accepted") else ""


def what_it_has(image):
    volume = check.Volume(image)
    for rule in (check.rule_c1, check.rule_c2, check.rule_c3, check.rule_c4):
        rule(volume)
    lists = [record for record in volume.records.values() if check.list_attribute(record) is not None]
    apart = sum(check.list_attribute(record).nonresident for record in lists)
    blocks = 0
    for number, record in volume.base_records():
        if record.flags & check.DIRECTORY:
            found = check.gather(volume, number, check.INDEX_ALLOCATION, check.I30)
            blocks += 0 if found is None else found.size // volume.geometry.block
    flags = {attribute.flags & 0xFF for record in volume.records.values() for attribute in record.attributes}
    return (f"{len(volume.records)} records of {volume.geometry.record}, {len(lists)} lists ({apart} in clusters), "
            f"$MFT in {len(volume.map.runs)} runs{' by a list' if check.list_attribute(volume.records[0]) else ''}, "
            f"{blocks} index blocks" + (", compressed streams" if 1 in flags else ""))


def main():
    parser = argparse.ArgumentParser()
    parser.add_argument("--program")
    parser.add_argument("words", nargs="*")
    told = parser.parse_args()
    if not has_stock_tools():
        raise SystemExit("ntfs-3g isn't installed")
    rows = []
    with tempfile.TemporaryDirectory() as folder:
        for heading, make in stock_volumes.volumes():
            if all(word in heading for word in told.words):
                path = pathlib.Path(folder) / f"volume{len(rows)}"
                make(path)
                rows.append((heading, path, *read(path)))
        lines = try_check.tried([path for _, path, _, _ in rows], told.program)
    wrong = 0
    for (heading, _, verdict, has), line in zip(rows, lines):
        differs = line != verdict
        wrong += differs or not (line.startswith("accepted") or line == stock_volumes.REFUSED.get(heading))
        print(f"{heading}: {line}{f', but tools/check.py says: {verdict}' if differs else ''}; {has}")
    print(f"{len(rows)} volumes, {wrong} with another verdict")
    sys.exit(1 if wrong else 0)


if __name__ == "__main__":
    main()
