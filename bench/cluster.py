#!/usr/bin/env python3
"""Times `ntfscluster` over the whole of a stock volume of 1 GiB with 14,000 files, as a ratio to the stock tool in the same run,
with the peak memory of each (where GNU `time` is installed).

The volume is made by `mkntfs` and filled through the stock driver; each file has a cluster. It needs Debian's package ntfs-3g and
the right to mount. It builds the program with `rt run` in crates/ntfsprogs and works in a temporary folder. The repository is only
read, but for the built program.
"""

import pathlib
import tempfile

from measure import built_program, compare, mounted, stock_volume

CLUSTERS = (1 << 30) // 4096
FILES = 14_000


def filled(volume):
    stock_volume(volume, 4096, 1 << 30)
    with mounted(volume) as root:
        for number in range(FILES):
            folder = root / f"folder{number // 100}"
            folder.mkdir(exist_ok=True)
            (folder / f"file of number {number}").write_bytes(bytes([number % 256]) * 3000)


def main():
    program = built_program()
    whole = f"0-{CLUSTERS - 2}"
    with tempfile.TemporaryDirectory() as folder:
        volume = pathlib.Path(folder) / "volume"
        filled(volume)
        ours, stock = [program, "ntfscluster"], ["ntfscluster", "-f", "-q"]
        compare("ntfscluster -i", ours + ["-i", volume], stock + ["-i", volume])
        compare(f"ntfscluster -c {whole}", ours + ["-c", whole, volume], stock + ["-c", whole, volume])
        compare("ntfscluster -c 4-4", ours + ["-c", "4-4", volume], stock + ["-c", "4-4", volume])
        compare("ntfscluster -I 0", ours + ["-I", "0", volume], stock + ["-I", "0", volume])
        compare("ntfscluster -F /folder0", ours + ["-F", "/folder0", volume], stock + ["-F", "/folder0", volume])


if __name__ == "__main__":
    main()
