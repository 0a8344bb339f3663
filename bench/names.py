#!/usr/bin/env python3
"""Times `ntfsls -R` over stock volumes of many names, and `ntfscat` by a path of ten parts, as ratios to the stock tools in the
same run, with the peak memory of each (where GNU `time` is installed).

The volumes are made by `mkntfs` and filled through the stock driver: trees of 1,400 and of 14,000 names in three levels, and one
directory of 10,000 and one of 100,000 names. It needs Debian's package ntfs-3g and the right to mount. It builds the program with
`rt run` in crates/ntfsprogs and works in a temporary folder. The repository is only read, but for the built program.
"""

import pathlib
import tempfile

from measure import built_program, compare, mounted, stock_volume

DEEP = "/".join(f"part{number}" for number in range(9)) + "/file"


def tree(volume, outer):
    """So many directories of ten directories of a hundred files."""
    stock_volume(volume, 4096, 256 << 20)
    with mounted(volume) as root:
        for path in (root / f"outer{i}" / f"inner{j}" for i in range(outer) for j in range(10)):
            path.mkdir(parents=True)
            for number in range(100):
                (path / f"file of number {number}").touch()


def flat(volume, count):
    """One directory of so many files, and a file behind a path of ten parts."""
    stock_volume(volume, 4096, 512 << 20)
    with mounted(volume) as root:
        (root / "all").mkdir()
        for number in range(count):
            (root / "all" / f"file of number {number}").touch()
        (root / DEEP).parent.mkdir(parents=True)
        (root / DEEP).write_text("deep")


def main():
    program = built_program()
    with tempfile.TemporaryDirectory() as folder:
        volume = pathlib.Path(folder) / "volume"
        for outer in (1, 14):
            tree(volume, outer)
            compare(f"ntfsls -R, a tree of {1000 * outer:,} files", [program, "ntfsls", "-aR", volume], ["ntfsls", "-f", "-R", volume])
        for count in (10_000, 100_000):
            flat(volume, count)
            compare(f"ntfsls -R, a directory of {count:,} files", [program, "ntfsls", "-aR", volume], ["ntfsls", "-f", "-R", volume])
            compare(f"ntfsls of it alone", [program, "ntfsls", "-a", "-p", "all", volume], ["ntfsls", "-f", "-p", "/all", volume])
        compare("ntfscat by a path of ten parts", [program, "ntfscat", volume, DEEP], ["ntfscat", "-f", volume, "/" + DEEP])


if __name__ == "__main__":
    main()
