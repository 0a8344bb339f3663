#!/usr/bin/env python3
"""Compares the tools with those of the stock package ntfs-3g, where it is installed.

Volumes that `mkntfs` makes and `ntfscp` fills are shown by both: the geometry by `ntfsinfo -m`, and the unnamed
stream of each record by `ntfscat`. Volumes of `ntfsmake` with each size of clusters are shown by the stock
`ntfsinfo`, `ntfsls` and `ntfscat`, and each of their streams by both; what they say of those that they refuse is printed. They took all with clusters of
up to 8,192 bytes and refused the larger ones, so a refusal counts as a difference up to that size alone. Usage:
tools/peers.py. It ends with 1 where an answer differs. The repository is only read, but for the built program.
"""

import pathlib
import re
import shutil
import subprocess
import sys
import tempfile

TOP = pathlib.Path(__file__).resolve().parent.parent
CRATE = TOP / "crates" / "ntfsprogs"
STOCK = ("mkntfs", "ntfscp", "ntfsinfo", "ntfsls", "ntfscat")
SIZES = (0, 1, 700, 4095, 4096, 4097, 65_536, 3_000_000)
# Of these the stock ntfscat shows something else: records without their fixups, and a named stream where there is no
# unnamed one.
OTHERWISE = {0, 1, 9}
# And of a made volume: records without their fixups; a compressed stream, which ours refuses; and a stream whose holes
# it doesn't read, since its flags don't say that it is sparse.
MADE_OTHERWISE = {0, 1, 18, 20}
CLUSTERS = tuple(512 << power for power in range(8))
# The stock tools took each made volume with clusters of so many bytes or fewer.
TAKEN = 8192
SEEDS = (0, 1, 2, 7)
FIELDS = {
    "sector size": "Sector Size",
    "cluster size": "Cluster Size",
    "record size": "MFT Record Size",
    "clusters": "Volume Size in Clusters",
}


def told(words):
    """The status and the output of a command."""
    done = subprocess.run([str(word) for word in words], stdout=subprocess.PIPE, stderr=subprocess.DEVNULL)
    return done.returncode, done.stdout


def filled(folder, cluster):
    """A stock volume of so many bytes a cluster, with a file of each size."""
    volume = folder / f"stock{cluster}"
    with open(volume, "wb") as file:
        file.truncate(64 << 20)
    made = ["mkntfs", "-q", "-F", "-Q", "-s", "512", "-c", str(cluster), volume]
    subprocess.run(made, check=True, stdout=subprocess.DEVNULL, stderr=subprocess.DEVNULL)
    for number, size in enumerate(SIZES):
        file = folder / f"file{number}"
        file.write_bytes(bytes((place * place // 7 + number) % 256 for place in range(size)))
        copied = ["ntfscp", "-q", "-f", volume, file, file.name]
        subprocess.run(copied, check=True, stdout=subprocess.DEVNULL, stderr=subprocess.DEVNULL)
    return volume


def geometry_differs(program, volume):
    ours = dict(line.split(": ") for line in told([program, "ntfsinfo", "-m", volume])[1].decode().splitlines())
    stock = told(["ntfsinfo", "-m", "-f", volume])[1].decode()
    told_by = {name: re.search(rf"{label}: (\d+)", stock) for name, label in FIELDS.items()}
    return [f"{name} of {volume.name}" for name, at in told_by.items() if at is None or at[1] != ours[name]]


def streams_differ(program, volume, otherwise):
    """The records of which one ntfscat shows a stream that the other doesn't, and how many streams both show."""
    wrong, same = [], 0
    for number in range(128):
        if number in otherwise:
            continue
        ours, stock = told([program, "ntfscat", "-i", number, volume]), told(["ntfscat", "-f", "-i", number, volume])
        if (ours[0] == 0) != (stock[0] == 0) or (ours[0] == 0 and ours[1] != stock[1]):
            wrong.append(f"record {number} of {volume.name}")
        same += ours[0] == 0
    return wrong, same


def refusal(volume):
    """What the stock tools say of a volume that they refuse, or nothing."""
    done = subprocess.run(["ntfsls", "-f", str(volume)], capture_output=True, text=True, errors="replace")
    if done.returncode == 0:
        return ""
    # Warnings of single records come by the dozen, and advice to the user behind the refusal.
    lines = [line.replace(str(volume), volume.name) for line in done.stderr.splitlines()]
    said = [line for line in lines if not line.startswith("ntfs_mst_post_read_fixup_warn")]
    return "; ".join(said[:2]) or f"status {done.returncode}"


def made_differs(program, volume):
    """What the stock tools show of a made volume that isn't as it was made."""
    names = set(told(["ntfsls", "-f", volume])[1].decode().splitlines())
    wanted = {"A.txt", "a.txt", "Dir", "empty.bin", "resident.txt"} | {f"file{number:02}" for number in range(16)}
    wrong = [f"{name} isn't in {volume.name}" for name in sorted(wanted - names)] + geometry_differs(program, volume)
    wrong += streams_differ(program, volume, MADE_OTHERWISE)[0]
    if told(["ntfscat", "-f", "-i", 16, volume])[1] != b"hello, ntfs\n":
        wrong.append(f"record 16 of {volume.name}")
    for number in range(32, 48):
        shown = told(["ntfscat", "-f", "-i", number, volume])[1]
        if not shown or shown != bytes((number + place) % 256 for place in range(len(shown))):
            wrong.append(f"record {number} of {volume.name}")
    return wrong


def made_wrong(program, folder, seed, cluster):
    """Makes a volume and has the stock tools show it: what differs."""
    volume = folder / f"made{seed}_{cluster}"
    subprocess.run([program, "ntfsmake", volume, str(seed), "2048", str(cluster)], check=True)
    said = refusal(volume)
    wrong = [f"{volume.name} is refused"] if said and cluster <= TAKEN else []
    if not said:
        wrong = made_differs(program, volume)
    print(f"made volume, seed {seed}, clusters of {cluster} bytes: {said or 'shown by the stock tools'}", flush=True)
    volume.unlink()
    return wrong


def main():
    if missing := [tool for tool in STOCK if shutil.which(tool) is None]:
        raise SystemExit(f"not installed: {', '.join(missing)} (Debian's package ntfs-3g)")
    subprocess.run(["rt", "run", "--", "ntfsinfo", "-m", "data/tiny.img"], cwd=CRATE, check=True, capture_output=True)
    program = CRATE / "out" / "ntfsprogs"
    wrong = []
    with tempfile.TemporaryDirectory() as folder:
        folder = pathlib.Path(folder)
        for cluster in (512, 4096, 65_536):
            volume = filled(folder, cluster)
            differ, same = streams_differ(program, volume, OTHERWISE)
            wrong += geometry_differs(program, volume) + differ
            print(f"stock volume, clusters of {cluster} bytes: {same} streams compared")
        for cluster in CLUSTERS:
            for seed in SEEDS:
                wrong += made_wrong(program, folder, seed, cluster)
    for line in wrong:
        print(f"differs: {line}")
    sys.exit(1 if wrong else 0)


if __name__ == "__main__":
    main()
