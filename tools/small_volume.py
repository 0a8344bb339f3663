"""Small volumes with streams of one's choice, for the tools here, built from pieces of bench/'s independent generator.

Sectors have 512 bytes, records 1,024, and $MFT is one run of 32 records, so that each reader of this repository finds
them.
"""

import pathlib
import struct
import sys
from typing import NamedTuple

sys.path.insert(0, str(pathlib.Path(__file__).resolve().parent.parent / "bench"))

from make_reference import extent, resident  # noqa: E402

DATA = 0x80
RECORD = 1024
RECORDS = 32


class Runs(NamedTuple):
    """A stream in clusters: pairs of the first cluster, or None for a hole, and how many follow; its sizes in bytes."""

    runs: tuple
    size: int
    valid: int


class Volume(NamedTuple):
    """Bytes a cluster, clusters, the first cluster of $MFT, and the stream of each record by its number."""

    cluster: int
    clusters: int
    mft: int
    streams: dict


def pattern(lcn, cluster):
    """The bytes of a cluster: no two clusters have the same ones, and none is zeros."""
    return struct.pack("<Q", lcn * 2 + 1) * (cluster // 8)


def shown(volume, number):
    """The bytes that a reader of this record's stream has to show."""
    stream = volume.streams[number]
    if isinstance(stream, bytes):
        return stream
    zeros = bytes(volume.cluster)
    cells = [None if lcn is None else lcn + place for lcn, count in stream.runs for place in range(count)]
    content = b"".join(zeros if lcn is None else pattern(lcn, volume.cluster) for lcn in cells)
    return (content[: stream.valid] + bytes(max(0, len(content) - stream.valid)))[: stream.size]


def attribute(volume, stream):
    if isinstance(stream, bytes):
        return resident(DATA, stream).raw
    allocated = volume.cluster * sum(count for _, count in stream.runs)
    return extent(list(stream.runs), (allocated, stream.size, stream.valid)).raw


def record(number, attribute):
    """A file record in use with one attribute."""
    head = struct.pack("<4sHHQHHHHIIQHHI", b"FILE", 0x30, 3, 0, 1, 1, 0x38, 1, 0x38 + len(attribute) + 8, RECORD, 0, 1, 0, number)
    block = bytearray((head + struct.pack("<H6x", 1) + attribute + b"\xff\xff\xff\xff\0\0\0\0").ljust(RECORD, b"\0"))
    block[0x1FE:0x200] = block[0x3FE:0x400] = b"\x01\0"
    return bytes(block)


def boot(volume):
    sector = bytearray(512)
    sector[3:11] = b"NTFS    "
    each = volume.cluster // 512
    struct.pack_into("<HB", sector, 0x0B, 512, each)
    struct.pack_into("<QQQ", sector, 0x28, volume.clusters * each, volume.mft, volume.mft)
    sector[0x40], sector[0x44] = 0xF6, 0xF4
    return bytes(sector)


def build(path, volume):
    """Writes the image. What no stream has stays a hole of the file."""
    table = -(-RECORDS * RECORD // volume.cluster)
    streams = {0: Runs(((volume.mft, table),), RECORDS * RECORD, RECORDS * RECORD), **volume.streams}
    with open(path, "wb") as file:
        file.truncate(volume.clusters * volume.cluster)
        file.write(boot(volume))
        for number, stream in streams.items():
            file.seek(volume.mft * volume.cluster + number * RECORD)
            file.write(record(number, attribute(volume, stream)))
        for stream in volume.streams.values():
            for lcn, count in () if isinstance(stream, bytes) else stream.runs:
                if lcn is not None:
                    file.seek(lcn * volume.cluster)
                    file.write(b"".join(pattern(lcn + place, volume.cluster) for place in range(count)))
