#!/usr/bin/env python3
"""Times tools on a small stock volume, where starting counts, as ratios to the stock tools in the same run, and prints the size of
the built program.

It needs Debian's package ntfs-3g. It builds the program with `rt run` in crates/ntfsprogs and works in a temporary folder. The
repository is only read, but for the built program.
"""

import pathlib
import tempfile

from measure import built_program, compare, make_stock


def main():
    program = built_program()
    with tempfile.TemporaryDirectory() as folder:
        folder = pathlib.Path(folder)
        volume, content = folder / "volume", folder / "content"
        content.write_bytes(b"hello, ntfs\n")
        make_stock(volume, 4096, 8 << 20, content, ["hello"])
        compare("ntfsinfo -m", [program, "ntfsinfo", "-m", volume], ["ntfsinfo", "-f", "-m", volume])
        compare("ntfsinfo -i 0", [program, "ntfsinfo", "-i", "0", volume], ["ntfsinfo", "-f", "-i", "0", volume])
        compare("ntfsls -a", [program, "ntfsls", "-a", volume], ["ntfsls", "-f", volume])
        compare("ntfscat hello", [program, "ntfscat", volume, "hello"], ["ntfscat", "-f", volume, "hello"])
    print(f"the program has {program.stat().st_size:,} bytes")


if __name__ == "__main__":
    main()
