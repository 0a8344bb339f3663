#!/usr/bin/env python3
"""Times the check of all sixteen rules on stock volumes, as ratios to the stock `ntfsresize -i -f`, which checks far less, and to
reading $MFT's bytes once, in one run, with the peak memory of each (where GNU `time` is installed).

The volumes are a tree of 14,000 names on 1 GiB, trees of about 10,000, 100,000 and 1,000,000 records, of which time and memory are
shown by the record, one directory of 100,000 names, and files of many names and in many pieces. It builds the program of tools/try_check.py by `rt run`, which proves it and
has LLVM optimise it. It needs ntfs-3g, the right to mount, and 3 GB in a temporary folder.

    rules.py [--program FILE] [--keep FILE] [--folder FOLDER] [WORD ..]     with WORDs only volumes whose heading has them all

With --program a program that was built before is timed; with --keep the program that was built is kept as that. The repository is
only read.
"""

import argparse
import contextlib
import pathlib
import shutil
import subprocess
import sys
import tempfile

from measure import TOP, has_stock_tools, peak_of, program_over, spent_in_turn, stock_volume

sys.dont_write_bytecode = True
sys.path.insert(0, str(TOP / "tools"))
import stock_volumes
import try_check
from stock_volumes import MEBIBYTE

ROUNDS = 7
VOLUMES = (
    ("14,000 names", 1024, lambda top: stock_volumes.tree(top, 140)),
    ("10,000 records", 1024, lambda top: stock_volumes.tree(top, 99)),
    ("100,000 records", 2048, lambda top: stock_volumes.tree(top, 990)),
    ("1,000,000 records", 8192, lambda top: stock_volumes.tree(top, 9900)),
    ("one directory of 100,000 names", 2048, lambda top: stock_volumes.folder_of(top, 100_000)),
    ("one file of 500 names", 64, lambda top: stock_volumes.many_links(top, 500)),
    ("one file of 1,000 names", 64, lambda top: stock_volumes.many_links(top, 1000)),
    ("one file of 2,000 names", 64, lambda top: stock_volumes.many_links(top, 2000)),
    ("one file in 5,000 pieces", 96, lambda top: stock_volumes.scattered(top, 4096, 5000)),
    ("one file in 20,000 pieces", 300, lambda top: stock_volumes.scattered(top, 4096, 20_000)),
)


def table_of(volume, folder):
    """A file with the bytes of $MFT, and how many records it has."""
    table = pathlib.Path(folder) / "table"
    with open(table, "wb") as file:
        subprocess.run(["ntfscat", "-f", "-i", "0", volume], check=True, stdout=file)
    return table, table.stat().st_size // 1024


def measure(program, heading, volume, folder):
    table, records = table_of(volume, folder)
    told = subprocess.run([program, volume], check=True, stdout=subprocess.PIPE, text=True).stdout.splitlines()[-1]
    commands = {
        "check": [program, volume],
        "ntfsresize -i": ["ntfsresize", "-i", "-f", "-P", volume],
        "$MFT's bytes": ["cat", table],
    }
    print(f"{heading}: {records} records, {told}")
    spent = spent_in_turn(commands, ROUNDS if records < 500_000 else 3)
    ours = spent["check"]
    for name, (wall, processor) in spent.items():
        peak = peak_of(commands[name]) if shutil.which("/usr/bin/time") else "-"
        shown = "" if name == "check" else f"   check takes {ours[0] / wall:.2f} of it, {ours[1] / max(processor, 1e-6):.2f} of its processor time"
        print(f"  {name:14} {1000 * wall:9.1f} ms, {1000 * processor:9.1f} of processor, {1e6 * wall / records:7.2f} us a record, {peak:>9} KiB{shown}", flush=True)
    table.unlink()


def main():
    parser = argparse.ArgumentParser()
    parser.add_argument("--program")
    parser.add_argument("--keep")
    parser.add_argument("--folder")
    parser.add_argument("words", nargs="*")
    told = parser.parse_args()
    if not has_stock_tools():
        sys.exit("ntfs-3g isn't installed")
    with contextlib.ExitStack() as stack:
        folder = told.folder or stack.enter_context(tempfile.TemporaryDirectory())
        program = told.program
        if program is None:
            program, _ = stack.enter_context(program_over(try_check.crates(), "try_check", try_check.PROGRAM, uses=try_check.USES))
            if told.keep:
                shutil.copy(program, told.keep)
        for heading, size, fill in VOLUMES:
            if all(word in heading for word in told.words):
                volume = pathlib.Path(folder) / "volume"
                stock_volume(volume, 4096, size * MEBIBYTE)
                stock_volumes.filled(volume, fill)
                measure(program, heading, volume, folder)
                volume.unlink()


if __name__ == "__main__":
    main()
