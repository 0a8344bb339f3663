#!/usr/bin/env python3
"""Times `ntfscat` of a stream of 256 MiB, to a file and to nothing, as a ratio to `cat` of a file of the same bytes and to the
stock `ntfscat` in the same run, with the system calls (where strace is installed) and the peak memory of each (where GNU `time` is).

For clusters of 512, 4,096 and 65,536 bytes the stock tools make a volume with the file, which has a run or two; the same volume is
then measured with the stream scattered into 10,000 runs (4,096 of one cluster each, where there are no more), whose mapping pairs
lie in extension records that an attribute list in a cluster of its own names. What is read is a copy of the volume, so that it
stands in the system's cache as the file of `cat` does, and not in the small pieces in which it was written. It needs Debian's package ntfs-3g. It builds the program
with `rt run` in crates/ntfsprogs, works in a temporary folder (name another one, on the disk that is to be measured, as the
only argument), and takes the least time of each command over its rounds. The repository is only read, but for the built program.
"""

import pathlib
import shutil
import struct
import subprocess
import sys
import tempfile

from measure import QUIET, RECORD, built_program, calls_of, has_stock_tools, least, make_stock, refixed, unfixed

STREAM = 256 << 20
RUNS = 10_000
SPARE = 70  # files of a byte, whose records become extension records
ROOM = 880  # bytes of mapping pairs in an extension record


def number_at(data, place, size, signed=False):
    return int.from_bytes(data[place : place + size], "little", signed=signed)


def quiet(words):
    subprocess.run([str(word) for word in words], **QUIET)


def attributes(block):
    place, found = number_at(block, 0x14, 2), []
    while number_at(block, place, 4) != 0xFFFFFFFF:
        found.append(bytes(block[place : place + number_at(block, place + 4, 4)]))
        place += len(found[-1])
    return found


def clusters_of(attribute):
    """The clusters of an attribute that isn't resident, in the order of their VCNs."""
    place, lcn, found = number_at(attribute, 0x20, 2), 0, []
    while attribute[place]:
        count, offset = attribute[place] & 15, attribute[place] >> 4
        lcn += number_at(attribute, place + 1 + count, offset, signed=True)
        found += range(lcn, lcn + number_at(attribute, place + 1, count))
        place += 1 + count + offset
    return found


def signed_bytes(number):
    size = next(size for size in range(1, 9) if -(1 << 8 * size - 1) <= number < 1 << 8 * size - 1)
    return number.to_bytes(size, "little", signed=True)


def extents_of(clusters):
    """The mapping pairs of these clusters, cut into extents: lowest VCN, next VCN and pairs of each."""
    breaks = [at for at in range(1, len(clusters)) if clusters[at] != clusters[at - 1] + 1]
    extents, pairs, lowest, before = [], b"", 0, 0
    for begin, end in zip([0] + breaks, breaks + [len(clusters)]):
        length, offset = signed_bytes(end - begin), signed_bytes(clusters[begin] - before)
        pair = bytes([len(offset) << 4 | len(length)]) + length + offset
        if len(pairs) + len(pair) > ROOM:
            extents.append((lowest, begin, pairs))
            length, offset = signed_bytes(end - begin), signed_bytes(clusters[begin])
            pairs, lowest, pair = b"", begin, bytes([len(offset) << 4 | len(length)]) + length + offset
        pairs, before = pairs + pair, clusters[begin]
    return extents + [(lowest, len(clusters), pairs)]


def extent(kind, instance, lowest, following, pairs, sizes):
    length = (0x40 + len(pairs) + 1 + 7) // 8 * 8
    head = struct.pack("<IIBBHHHQQHH4xQQQ", kind, length, 1, 0, 0x40, 0, instance, lowest, following - 1, 0x40, 0, *sizes)
    return (head + pairs).ljust(length, b"\0")


def with_attributes(block, base, found):
    """The record with these attributes and this base."""
    first = number_at(block, 0x14, 2)
    body = b"".join(found) + b"\xff\xff\xff\xff\0\0\0\0"
    block = bytearray(block[:first] + body.ljust(RECORD - first, b"\0"))
    block[0x12:0x14] = struct.pack("<H", 0 if base else 1)
    block[0x18:0x1C] = struct.pack("<I", first + len(body))
    block[0x20:0x28] = struct.pack("<Q", base)
    block[0x28:0x2A] = struct.pack("<H", 50)
    return refixed(block)


class Table:
    """The file records of a volume by their numbers."""

    def __init__(self, file, cluster):
        self.file, self.cluster = file, cluster
        file.seek(0x30)
        file.seek(int.from_bytes(file.read(8), "little") * cluster)
        data = next(a for a in attributes(unfixed(file.read(RECORD))) if a[0] == 0x80)
        self.clusters = clusters_of(data)

    def seek(self, number):
        at = number * RECORD
        self.file.seek(self.clusters[at // self.cluster] * self.cluster + at % self.cluster)

    def read(self, number):
        self.seek(number)
        return unfixed(self.file.read(RECORD))

    def write(self, number, block):
        self.seek(number)
        self.file.write(block)

    def free_run(self, count):
        """The first of so many clusters in a row that the volume's $Bitmap has as free."""
        bits = 0
        for lcn in reversed(clusters_of(next(a for a in attributes(self.read(6)) if number_at(a, 0, 4) == 0x80))):
            self.file.seek(lcn * self.cluster)
            bits = bits << 8 * self.cluster | int.from_bytes(self.file.read(self.cluster), "little")
        taken = bin(bits)[:1:-1]
        return taken.index("0" * count)


def reference(number, block):
    return number | number_at(block, 0x10, 2) << 48


def entry(attribute, lowest, told):
    return struct.pack("<IHBBQQH6x", number_at(attribute, 0, 4), 32, 0, 26, lowest, told, number_at(attribute, 0x0E, 2))


def scatter(volume, content, cluster, number, spare):
    """Scatters the stream of a record over its own clusters, in pieces of which each two neighbours change places."""
    with open(volume, "r+b") as file:
        table = Table(file, cluster)
        base = table.read(number)
        kept = [a for a in attributes(base) if number_at(a, 0, 4) != 0x80]
        old = sorted(clusters_of(next(a for a in attributes(base) if number_at(a, 0, 4) == 0x80)))
        pieces = min(RUNS, len(old))
        cuts = [len(old) * piece // pieces for piece in range(pieces + 1)]
        order = [piece ^ 1 if piece ^ 1 < pieces else piece for piece in range(pieces)]
        place, begins = 0, {}
        for piece in order:
            begins[piece] = place
            place += cuts[piece + 1] - cuts[piece]
        new = [old[begins[piece] + at] for piece in range(pieces) for at in range(cuts[piece + 1] - cuts[piece])]
        with open(content, "rb") as bytes_of:
            for lcn in new:
                file.seek(lcn * cluster)
                file.write(bytes_of.read(cluster))
        extents, entries = extents_of(new), [entry(a, 0, reference(number, base)) for a in kept]
        sizes = (len(new) * cluster, STREAM, STREAM)
        for (lowest, following, pairs), other in zip(extents, spare, strict=False):
            block = table.read(other)
            attribute = extent(0x80, 0, lowest, following, pairs, (0, 0, 0) if lowest else sizes)
            table.write(other, with_attributes(block, reference(number, base), [attribute]))
            entries.append(entry(attribute, lowest, reference(other, block)))
        listed = b"".join(entries)
        count = -(-len(listed) // cluster)
        lcn = table.free_run(count)
        file.seek(lcn * cluster)
        file.write(listed)
        pairs = bytes([0x41, count]) + lcn.to_bytes(4, "little")
        kept.append(extent(0x20, 40, 0, count, pairs, (count * cluster, len(listed), len(listed))))
        kept.sort(key=lambda a: number_at(a, 0, 4))
        table.write(number, with_attributes(base, 0, kept))
    return sum(b != a + 1 for a, b in zip(new, new[1:])) + 1


def stock_volume(folder, cluster, content):
    """A volume that the stock tools made with a file of these contents and spare ones, and the number of each name's record."""
    volume, one = folder / "volume", folder / "one"
    one.write_bytes(b"1")
    make_stock(volume, cluster, STREAM + (128 << 20), content, [content.name])
    for number in range(SPARE):
        quiet(["ntfscp", "-q", "-f", volume, one, f"spare{number}"])
    rows = subprocess.run(["ntfsls", "-f", "-i", volume], check=True, stdout=subprocess.PIPE, text=True).stdout.splitlines()
    return volume, {row.split()[1]: int(row.split()[0]) for row in rows if len(row.split()) == 2}


def memory(words):
    """The peak memory in KiB."""
    if shutil.which("/usr/bin/time") is None:
        return "not measured"
    done = subprocess.run(["/usr/bin/time", "-f", "%M", *map(str, words)], stdout=subprocess.DEVNULL, stderr=subprocess.PIPE, check=True)
    return int(done.stderr.split()[-1])


def measure(tools, content, out):
    plain = {}
    for name, words in tools.items():
        file = least(words, out)
        subprocess.run(["cmp", content, out], check=True)
        nothing = least(words)
        plain.setdefault("file", file)
        plain.setdefault("nothing", nothing)
        print(
            f"  {name:14} to a file {file:.3f} s (ratio {file / plain['file']:.2f}), to nothing {nothing:.3f} s "
            f"(ratio {nothing / plain['nothing']:.2f}), system calls {calls_of(words)}, peak {memory(words)} KiB",
            flush=True,
        )


def main():
    if not has_stock_tools():
        raise SystemExit("the stock tools aren't installed (Debian's package ntfs-3g)")
    program = built_program()
    with tempfile.TemporaryDirectory(dir=sys.argv[1] if len(sys.argv) > 1 else None) as folder:
        folder = pathlib.Path(folder)
        content, image, out = folder / "content", folder / "image", folder / "out"
        with open(content, "wb") as file:
            for number in range(STREAM // 4096):
                file.write(number.to_bytes(8, "little") * 512)
        for cluster in (512, 4096, 65_536):
            volume, numbers = stock_volume(folder, cluster, content)
            number = numbers[content.name]
            tools = {
                "cat": ["cat", content],
                "ntfscat": [program, "ntfscat", "-i", number, image],
                "stock ntfscat": ["ntfscat", "-f", "-i", number, image],
            }
            shutil.copyfile(volume, image)
            print(f"clusters of {cluster} bytes, as the stock tools wrote the file")
            measure(tools, content, out)
            runs = scatter(volume, content, cluster, number, [numbers[f"spare{at}"] for at in range(SPARE)])
            shutil.copyfile(volume, image)
            print(f"clusters of {cluster} bytes, {runs} runs")
            measure(tools, content, out)
            volume.unlink()


if __name__ == "__main__":
    main()
