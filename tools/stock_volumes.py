"""Volumes of the stock package ntfs-3g: made by `mkntfs`, and filled by its driver. It needs the right to mount."""

import contextlib
import os
import pathlib
import struct
import subprocess
import tempfile

from measure import QUIET, mounted, stock_volume

MEBIBYTE = 1 << 20
OUTPUTS = {"stdout": subprocess.DEVNULL, "stderr": subprocess.DEVNULL}
# What is refused, and why: docs/DECISIONS.md tells of it.
REFUSED = {"clusters of 131072": "bad geometry: field 2 value 248"}
COMPRESSED = 0x800  # of a file's attributes


def sectors_volume(volume, sector, cluster, size):
    """An empty volume with sectors of so many bytes; its records have as many, and 1,024 at least."""
    with open(volume, "wb") as file:
        file.truncate(size)
    subprocess.run(["mkntfs", "-q", "-F", "-Q", "-s", str(sector), "-c", str(cluster), volume], **QUIET)


def written(name, size):
    """Whether a file was written whole; one for which there is no room goes."""
    try:
        name.write_bytes(b"k" * size)
        return True
    except OSError:
        with contextlib.suppress(OSError):
            name.unlink()
        return False


def content(size, start):
    return bytes((place * place // 7 + start) % 256 for place in range(size))


def all_kinds(top):
    """Files of each kind that the driver makes."""
    for number, size in enumerate((0, 1, 700, 4095, 4096, 4097, 65_536, 700_000)):
        (top / f"file{number}").write_bytes(content(size, number))
    named_streams(top)
    links(top)
    holes(top)
    compressed(top)
    names(top)


def named_streams(top):
    """Streams with names, some of them in clusters, and enough of them in one file that it needs a second record."""
    (top / "streams").write_bytes(b"the unnamed one")
    for number, size in enumerate((0, 5, 600, 5000, 60_000)):
        os.setxattr(top / "streams", f"user.stream {number}", content(size, number))
    (top / "many streams").touch()
    for number in range(60):
        os.setxattr(top / "many streams", f"user.a stream of number {number}", bytes([number]) * number * 20)
    (top / "folder of streams").mkdir()
    os.setxattr(top / "folder of streams", "user.of a folder", b"x" * 9000)


def links(top):
    (top / "links" / "deeper").mkdir(parents=True)
    (top / "links" / "one").write_bytes(b"many names")
    for number in range(30):
        (top / "links" / "deeper" / f"another name of it, the {number}th").hardlink_to(top / "links" / "one")
    (top / "links" / "soft").symlink_to("one")
    os.mkfifo(top / "links" / "fifo")


def holes(top):
    with open(top / "sparse", "wb") as file:
        file.truncate(3 << 20)
        for place in (500_000, 1_700_000, (3 << 20) - 5):
            file.seek(place)
            file.write(b"bytes")
    with open(top / "a hole alone", "wb") as file:
        file.truncate(1 << 20)
    with open(top / "cut", "wb") as file:
        file.write(b"c" * 300_000)
        file.truncate(100)
    with open(top / "cut and longer", "wb") as file:
        file.write(b"c" * 300_000)
        file.truncate(70_000)
        file.truncate(400_000)


def compressed(top):
    """Files in a folder whose files the driver compresses, where the clusters allow it."""
    folder = top / "compressed"
    folder.mkdir()
    with contextlib.suppress(OSError):
        old = struct.unpack("<I", os.getxattr(folder, "system.ntfs_attrib"))[0]
        os.setxattr(folder, "system.ntfs_attrib", struct.pack("<I", old | COMPRESSED))
    (folder / "text").write_bytes(b"the same words again and again, " * 10_000)
    (folder / "noise").write_bytes(os.urandom(200_000))
    (folder / "short").write_bytes(b"x")


def names(top):
    """Long, short and odd names, a DOS name, an object id, names that went and names that changed."""
    folder = top / "names"
    folder.mkdir()
    for name in ("a" * 255, "b", "Case", "case", "CASE", "ünïcödé", "\U0001F600 and more", "dots...", " spaces "):
        (folder / name).touch()
    (folder / "a long name.text").touch()
    for attribute, value in (("system.ntfs_dos_name", b"ALONGN~1.TEX"), ("system.ntfs_object_id", bytes(range(16)))):
        with contextlib.suppress(OSError):
            os.setxattr(folder / "a long name.text", attribute, value)
    for number in range(300):
        (folder / f"goes or changes {number}").touch()
    for number in range(0, 300, 3):
        (folder / f"goes or changes {number}").unlink()
        (folder / f"goes or changes {number + 1}").rename(folder / f"changed to {number}")


def folder_of(top, count):
    """One directory of so many names."""
    folder = top / "all"
    folder.mkdir()
    for number in range(count):
        (folder / f"file of number {number * 7919 % count}").touch()
    return folder


def fragmented(top, cluster, more):
    """Files fill the volume, each second one goes, and new files take what is free, which is in pieces: some large ones, in many
    extents, and many empty ones, for which $MFT grows."""
    number = 0
    while written(top / f"fills {number}", 2 * cluster):
        number += 1
    for other in range(0, number, 2):
        (top / f"fills {other}").unlink()
    for large in range(3):
        written(top / f"scattered {large}", number * cluster // 8)
    (top / "more").mkdir()
    made = 0
    while made < more and written(top / "more" / f"empty {made}", 0):
        made += 1


def many_links(top, count):
    """One file with so many names in one directory."""
    (top / "links").mkdir()
    (top / "links" / "name 0").write_bytes(b"many names")
    for number in range(1, count):
        (top / "links" / f"name {number}").hardlink_to(top / "links" / "name 0")


def scattered(top, cluster, count):
    """One file in about so many pieces: files fill the volume, some clusters between them become free, and it takes those."""
    (top / "fills").mkdir()
    for number in range(2 * count):
        (top / "fills" / f"{number}").write_bytes(b"f" * cluster)
    number = 0
    while written(top / f"rest {number}", 1 << 20):
        number += 1
    while written(top / f"rest {number}", 2 * cluster):
        number += 1
    for other in range(0, 2 * count, 2):
        (top / "fills" / f"{other}").unlink()
    written(top / "scattered", cluster * (count - 200))


def tree(top, folders):
    """So many folders of a hundred files, with one of 8 KiB in each, the others of some bytes."""
    for folder in range(folders):
        (top / f"folder {folder:04}").mkdir()
        for file in range(100):
            (top / f"folder {folder:04}" / f"file {file:04} of some length.txt").write_bytes(b"x" * (8192 if file == 0 else 5))


def copied(volume, folder):
    """Fills a volume by the stock ntfscp."""
    for number, size in enumerate((0, 1, 700, 4095, 4096, 4097, 65_536, 3_000_000)):
        file = folder / f"file{number}"
        file.write_bytes(content(size, number))
        subprocess.run(["ntfscp", "-q", "-f", volume, file, file.name], **QUIET)
        file.unlink()


def filled(volume, fill, options="compression"):
    with mounted(volume, options) as top:
        fill(top)


def volumes():
    """The heading of each volume, and a function that makes it in a file that is named."""
    for power in range(8):
        cluster = 512 << power

        def by_ntfscp(volume, cluster=cluster):
            stock_volume(volume, cluster, 64 * MEBIBYTE)
            with tempfile.TemporaryDirectory() as folder:
                copied(volume, pathlib.Path(folder))

        def by_driver(volume, cluster=cluster):
            stock_volume(volume, cluster, 96 * MEBIBYTE)
            filled(volume, all_kinds)

        yield f"clusters of {cluster}, files of eight sizes", by_ntfscp
        yield f"clusters of {cluster}, files of all kinds", by_driver
    for sector in (1024, 2048, 4096):
        for cluster in (sector, 16 * sector):

            def by_sectors(volume, sector=sector, cluster=cluster):
                sectors_volume(volume, sector, cluster, 96 * MEBIBYTE)
                filled(volume, all_kinds)

            yield f"sectors and records of {sector}, clusters of {cluster}, files of all kinds", by_sectors
    for cluster, size, more in ((512, 12, 6000), (1024, 16, 8000), (4096, 48, 9000), (16_384, 160, 9000)):

        def in_pieces(volume, cluster=cluster, size=size, more=more):
            stock_volume(volume, cluster, size * MEBIBYTE)
            filled(volume, lambda top: fragmented(top, cluster, more))

        yield f"clusters of {cluster}, full and in pieces, $MFT too", in_pieces
    for cluster in (512, 4096, 65_536):

        def one_directory(volume, cluster=cluster):
            stock_volume(volume, cluster, 64 * MEBIBYTE)
            filled(volume, lambda top: folder_of(top, 5000))

        def gone_names(volume, cluster=cluster):
            stock_volume(volume, cluster, 64 * MEBIBYTE)
            filled(volume, lambda top: [name.unlink() for name in sorted(folder_of(top, 5000).iterdir())[500:4500]])

        yield f"clusters of {cluster}, a directory of 5,000 names", one_directory
        yield f"clusters of {cluster}, 4,000 names of such a directory gone", gone_names

    for cluster in (512, 4096, 65_536):

        def shrunk(volume, cluster=cluster):
            """Moved clusters, and a $MFT and a mirror that moved with them."""
            stock_volume(volume, cluster, 192 * MEBIBYTE)
            filled(volume, lambda top: [written(top / f"room {number}", 4 * MEBIBYTE) for number in range(25)])
            filled(volume, all_kinds)
            filled(volume, lambda top: [(top / f"room {number}").unlink() for number in range(25)])
            subprocess.run(["ntfsresize", "-f", "-f", "-P", "-s", str(60 * MEBIBYTE), volume], input=b"y\n", check=True, **OUTPUTS)

        def mended(volume, cluster=cluster):
            stock_volume(volume, cluster, 96 * MEBIBYTE)
            filled(volume, all_kinds)
            subprocess.run(["ntfsfix", volume], **QUIET)

        yield f"clusters of {cluster}, files of all kinds, shrunk by the stock ntfsresize", shrunk
        yield f"clusters of {cluster}, files of all kinds, mended by the stock ntfsfix", mended

    def large_clusters(volume):
        stock_volume(volume, 2 * 65_536, 96 * MEBIBYTE)

    yield "clusters of 131072", large_clusters

    def many_names(volume):
        stock_volume(volume, 4096, 1024 * MEBIBYTE)
        filled(volume, lambda top: tree(top, 140))

    yield "clusters of 4096, 1 GiB, 14,000 names", many_names
