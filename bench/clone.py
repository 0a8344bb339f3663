#!/usr/bin/env python3
"""Times `ntfsclone` on a stock volume of 1 GiB with about 829 MB in use: saving, restoring and copying raw, as ratios to `dd` of as
many bytes and to the stock `ntfsclone`, in one run, with the system calls (where strace is installed) and the peak memory of each
(where GNU `time` is). Then the same of sparse volumes of 1, 4, 16 and 64 GiB with few files: how time and memory grow.

    clone.py [--program FILE] [--folder FOLDER] [--rounds N]

FILE takes the line `ntfsclone ..` as its words, as the program of this repository does, which is built by `rt run` in
crates/ntfsprogs unless one is named. The volumes and copies stand in a temporary folder, or in FOLDER: on a disk the times are also
those of its cache, and in /dev/shm those of memory alone. It needs ntfs-3g, the right to mount, and 4 GB of room. The repository is
only read, but for the built program.
"""

import argparse
import contextlib
import os
import pathlib
import shutil
import subprocess
import sys
import tempfile

from measure import QUIET, TOP, built_program, calls_of, has_stock_tools, peak_of, spent_in_turn, stock_volume

sys.dont_write_bytecode = True
sys.path.insert(0, str(TOP / "tools"))
import stock_volumes

MEBIBYTE = 1 << 20
FILES, EACH = 100, 8_200_000


def fill_files(top):
    """Files of about 829 MB, in which no cluster is zeros."""
    piece = os.urandom(MEBIBYTE)
    for number in range(FILES):
        with open(top / f"file {number:03}", "wb") as file:
            for place in range(0, EACH, MEBIBYTE):
                file.write(piece[:EACH - place])


def fill_few(top):
    stock_volumes.tree(top, 3)
    (top / "large").write_bytes(os.urandom(MEBIBYTE) * 20)


def lines(program, volume, folder):
    """The commands by name, ours and the stock ones, each over a file that it makes or empties."""
    ours, stock = [program, "ntfsclone"], ["ntfsclone", "-q"]
    clone = folder / "clone"
    return {
        "save": ours + ["-s", "-O", folder / "saved", volume],
        "stock save": stock + ["-s", "-O", folder / "stock saved", volume],
        "restore": ours + ["-r", "-O", folder / "restored", clone],
        "stock restore": stock + ["-r", "-O", folder / "stock restored", clone],
        "raw copy": ours + ["-O", folder / "copy", volume],
        "stock raw copy": stock + ["-O", folder / "stock copy", volume],
    }


def measure(program, volume, folder, rounds):
    clone = folder / "clone"
    subprocess.run([program, "ntfsclone", "-s", "-O", clone, volume], **QUIET)
    commands = {"dd": ["dd", f"if={clone}", f"of={folder / 'dd'}", "bs=1M"], **lines(program, volume, folder)}
    print(f"{volume.stat().st_size >> 30} GiB, a clone image of {clone.stat().st_size / 1e6:.1f} MB", flush=True)
    spent = spent_in_turn(commands, rounds, ready=lambda name: emptied(folder))
    for name, (wall, processor) in spent.items():
        plain = spent["dd"][0]
        stock = spent.get("stock " + name)
        against = f", {wall / stock[0]:.2f} of stock" if stock else ""
        print(f"  {name:14} {wall:7.3f} s ({processor:6.3f} of processor), {wall / plain:5.2f} of dd{against}, "
              f"system calls {calls_of(commands[name])}, peak {peak(commands[name])} KiB", flush=True)
    same_files(folder, volume)
    emptied(folder)
    clone.unlink()


def peak(words):
    return peak_of(words) if shutil.which("/usr/bin/time") else "-"


def emptied(folder):
    """Takes away what the commands made, so that each makes its file anew."""
    for name in ("dd", "saved", "stock saved", "restored", "stock restored", "copy", "stock copy"):
        with contextlib.suppress(FileNotFoundError):
            (folder / name).unlink()


def same_files(folder, volume):
    """The image is that of the commands, and what is restored by either tool is the raw copy."""
    program_lines = lines(None, volume, folder)
    subprocess.run([str(word) for word in program_lines["stock restore"]], **QUIET)
    for one, other in (("saved", "clone"), ("restored", "copy"), ("stock restored", "copy")):
        if (folder / one).exists() and (folder / other).exists():
            subprocess.run(["cmp", folder / one, folder / other], check=True)


def grown(program, folder, rounds):
    """Sparse volumes of several sizes with the same files."""
    for size in (1, 4, 16, 64):
        volume = folder / "volume"
        stock_volume(volume, 4096, size << 30)
        stock_volumes.filled(volume, fill_few)
        measure(program, volume, folder, rounds)
        volume.unlink()


def main():
    parser = argparse.ArgumentParser()
    parser.add_argument("--program")
    parser.add_argument("--folder")
    parser.add_argument("--rounds", type=int, default=5)
    told = parser.parse_args()
    if not has_stock_tools():
        sys.exit("ntfs-3g isn't installed")
    program = told.program or built_program()
    with tempfile.TemporaryDirectory(dir=told.folder) as folder:
        folder = pathlib.Path(folder)
        volume = folder / "volume"
        stock_volume(volume, 4096, 1 << 30)
        stock_volumes.filled(volume, fill_files, options="")
        measure(program, volume, folder, told.rounds)
        volume.unlink()
        grown(program, folder, told.rounds)


if __name__ == "__main__":
    main()
