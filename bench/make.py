#!/usr/bin/env python3
"""Times `ntfsmake` for volumes of 65,536 and of 1,048,576 clusters of 4,096 bytes, as a ratio to `cp` of a file with as many bytes
as the volume has that aren't zero, in the same run, and prints the peak memory of each, where GNU `time` is installed.

It builds the program with `rt run` in crates/ntfsprogs and makes the volumes in a temporary folder (name another one, on the disk
that is to be measured, as the only argument). It takes the least time over its rounds. The repository is only read, but for the
built program.
"""

import pathlib
import shutil
import subprocess
import sys
import tempfile

from measure import built_program, least

CLUSTER = 4096
PIECE = 1 << 20


def bytes_that_are_not_zero(path):
    count = 0
    with open(path, "rb") as file:
        while piece := file.read(PIECE):
            count += len(piece) - piece.count(0)
    return count


def peak_memory(words, path):
    if shutil.which("time") is None:
        return "not measured"
    path.unlink(missing_ok=True)
    told = subprocess.run(["time", "-f", "%M", *(str(word) for word in words)], check=True, stderr=subprocess.PIPE)
    return told.stderr.decode().split()[-1] + " KiB"


def main():
    program = built_program()
    with tempfile.TemporaryDirectory(dir=sys.argv[1] if len(sys.argv) > 1 else None) as folder:
        folder = pathlib.Path(folder)
        volume, plain, copy = folder / "volume", folder / "plain", folder / "copy"
        for clusters in (65_536, 1_048_576):
            words = [program, "ntfsmake", volume, 0, clusters, CLUSTER]
            spent = least(words, ready=lambda: volume.unlink(missing_ok=True))
            count = bytes_that_are_not_zero(volume)
            plain.write_bytes(b"\xa5" * count)
            copied = least(["cp", plain, copy], ready=lambda: copy.unlink(missing_ok=True))
            print(
                f"{clusters} clusters: {spent:.4f} s, {count} bytes that aren't zero, ratio to copying as many {spent / copied:.2f}, "
                f"peak memory {peak_memory(words, volume)}"
            )


if __name__ == "__main__":
    main()
