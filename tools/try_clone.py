#!/usr/bin/env python3
"""Tries `ntfsclone` on stock volumes of several cluster sizes, and on made ones of seeds 0 to 15 with clusters of 512
to 65,536 bytes: what is saved is restored, the raw copy is what is restored, the stock `ntfsclone -r` restores the same
bytes, tools/check.py accepts them, the names and the streams of each record are as before, and $Bitmap says what was
saved. A dirty volume is refused without `-f`.

    try_clone.py [--program FILE] [--tools FILE] [--made N] [WORD ..]

FILE takes the line `ntfsclone ..` as its words, as the program of this repository does, which is built by `rt run` in
crates/ntfsprogs unless one is named; `--tools` names another one for `ntfsls` and `ntfscat`. With WORDs only volumes
whose heading has them all are tried, and with --made made ones of seeds below N. It needs ntfs-3g, and for stock
volumes the right to mount. The repository is only read, but for the built program. It ends with 1 where something differs.
"""

import argparse
import mmap
import pathlib
import struct
import subprocess
import sys
import tempfile

sys.dont_write_bytecode = True
TOP = pathlib.Path(__file__).resolve().parent.parent
sys.path[:0] = [str(TOP / "bench"), str(TOP / "tools")]
import check
import make_reference
import stock_volumes
from measure import built_program, has_stock_tools

SECTOR = 512


def run(words):
    done = subprocess.run([str(word) for word in words], capture_output=True)
    return done.returncode, done.stdout


def volumes(seeds):
    """The heading of each volume, and a function that makes it in a file that is named."""
    yield from ((heading, make) for heading, make in stock_volumes.volumes() if heading not in stock_volumes.REFUSED)
    for cluster in (512 << power for power in range(8)):
        for seed in range(seeds):
            clusters = 2048 if cluster == 512 else 1024 + 6 * seed

            def made(volume, seed=seed, clusters=clusters, cluster=cluster):
                pieces = make_reference.make(seed, clusters, cluster)
                make_reference.write(volume, pieces, (clusters + 1) * cluster)

            yield f"made, seed {seed}, {clusters} clusters of {cluster}", made


def read_volume(image):
    """The independent reading of a volume that keeps the first eight rules."""
    volume = check.Volume(image)
    for number in range(1, 9):
        getattr(check, f"rule_c{number}")(volume)
    return volume


def owned_bytes(path):
    """What the independent reading says of a volume: its verdict, its geometry and which clusters are owned."""
    with open(path, "rb") as file, mmap.mmap(file.fileno(), 0, access=mmap.ACCESS_READ) as image:
        volume = read_volume(image)
        return check.verdict(image), volume.geometry, bytes(volume.owned)


def is_dirty(path):
    """Whether the flags of $VOLUME_INFORMATION in record 3 say so."""
    with open(path, "rb") as file, mmap.mmap(file.fileno(), 0, access=mmap.ACCESS_READ) as image:
        attributes = read_volume(image).records[3].attributes
        value = next(part.value for part in attributes if part.type == check.VOLUME_INFORMATION)
        return struct.unpack_from("<H", value, 10)[0] & 1 == 1


def expected_clone(path, geometry, owned):
    """The clone image of a volume, piece by piece, as the format says."""
    cluster, device = geometry.cluster, (geometry.sectors + 1) * geometry.sector
    yield b"\0ntfsclone-image\x0A\0" + struct.pack("<IQQQI6x", cluster, device, geometry.clusters, sum(owned), 56)
    gap = 0
    with open(path, "rb") as file:
        for number, is_owned in enumerate(owned):
            if not is_owned:
                gap += 1
                continue
            if gap:
                yield b"\0" + struct.pack("<Q", gap)
                gap = 0
            file.seek(number * cluster)
            yield b"\1" + file.read(cluster)
        if gap:
            yield b"\0" + struct.pack("<Q", gap)
        file.seek(geometry.clusters * cluster)
        yield b"\1" + file.read(device - geometry.clusters * cluster).ljust(cluster, b"\0")


def is_clone(path, pieces):
    with open(path, "rb") as file:
        return all(file.read(len(piece)) == piece for piece in pieces) and not file.read(1)


def shown(tools, path, records):
    """What our tools show of a volume: all names, and the unnamed stream of each record."""
    listed = run([tools, "ntfsls", "-aRiF", path])
    return [listed, *(run([tools, "ntfscat", "-i", number, path]) for number in range(records))]


def wrong_with(program, tools, volume, folder):
    """What goes wrong with one volume."""
    saved, restored, stock, copy = (folder / name for name in ("saved", "restored", "stock", "copy"))
    verdict, geometry, owned = owned_bytes(volume)
    wrong = []
    force = ["-f"] if is_dirty(volume) else []
    if force:
        for words in (["-s", "-o", saved, volume], ["-o", copy, volume]):
            status, _ = run([program, "ntfsclone", *words])
            if status != 5 or words[-2].exists():
                wrong.append(f"ntfsclone {words} ends with {status} where the volume is dirty")
    for heading, words in (
        ("saving", [program, "ntfsclone", "-s", *force, "-O", saved, volume]),
        ("restoring", [program, "ntfsclone", "-r", "-O", restored, saved]),
        ("copying", [program, "ntfsclone", *force, "-O", copy, volume]),
        ("the stock restoring", ["ntfsclone", "-q", "-r", "-O", stock, saved]),
    ):
        status, _ = run(words)
        if status:
            return [f"{heading} ends with {status}"]
    if not is_clone(saved, expected_clone(volume, geometry, owned)):
        wrong.append("the clone image isn't that of the owned clusters")
    wrong += [f"{name.name} isn't what was restored" for name in (stock, copy) if run(["cmp", restored, name])[0]]
    if owned_bytes(restored) != (verdict, geometry, owned) or not verdict.startswith("accepted"):
        wrong.append(f"restored: {owned_bytes(restored)[0]}, but before: {verdict}")
    records = min(400, len(owned) * geometry.cluster // geometry.record)
    if tools and shown(tools, volume, records) != shown(tools, restored, records):
        wrong.append("names or streams differ")
    return wrong


def main():
    parser = argparse.ArgumentParser()
    parser.add_argument("--program")
    parser.add_argument("--tools")
    parser.add_argument("--made", type=int, default=16)
    parser.add_argument("words", nargs="*")
    told = parser.parse_args()
    if not has_stock_tools():
        raise SystemExit("ntfs-3g isn't installed")
    program = told.program or built_program()
    tools = told.tools or program
    count = total = 0
    with tempfile.TemporaryDirectory() as folder:
        folder = pathlib.Path(folder)
        for heading, make in volumes(told.made):
            if all(word in heading for word in told.words):
                make(folder / "volume")
                wrong = wrong_with(program, tools, folder / "volume", folder)
                print(f"{heading}: {'; '.join(wrong) or 'as it should be'}", flush=True)
                count, total = count + bool(wrong), total + 1
                for file in folder.iterdir():
                    file.unlink()
    print(f"{total} volumes, {count} wrong")
    sys.exit(1 if count else 0)


if __name__ == "__main__":
    main()
