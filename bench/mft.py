#!/usr/bin/env python3
"""Times what $MFT's map costs: `ntfscat` of a small file on a volume whose $MFT lies in 100 runs, as a ratio to the stock
`ntfscat` where it is installed, and a scan of 100,000 records, in one run and in 100, as a ratio to reading as many bytes in a
row.

For the scan it writes a program over the crates into a temporary folder, has `rt run` prove and run it, and takes the least time
of each step over its rounds. Both volumes stand in a temporary folder (name another one as the only argument). The repository is
only read, but for the built program.
"""

import pathlib
import struct
import sys
import tempfile

from measure import (
    RECORD, boot_of, built_program, data_of, has_stock_tools, least, make_stock, record_of, refixed, rounds_of, stock_number, unfixed,
)

CLUSTER = 4096
RECORDS = 100_000
LIVE = 1000
SMALL = b"hello, ntfs\n"
FILES = 400
RUNS = 100
CRATES = (
    "ntfs_base", "ntfs_boot", "ntfs_fixup", "ntfs_host", "ntfs_runs", "ntfs_record", "ntfs_attrlist", "ntfs_volume",
)

PROGRAM = """\
//! Times a scan of the records of a volume.
#![tactic(auto)]

ghost use Rattle.std.specs.Prelude.{◌≡◌, length, IfOk, vec_len};
ghost use Rattle.ntfs_volume.specs.Opened.{HasClusters};

use ntfs_base::{Image, Shelf};
use ntfs_host::{Access, DiskShelf};
use ntfs_volume::{Table, read_table};
use std::alloc::{AllocError, Global};
use std::env;
use std::io;
use std::rt::Clock;
use std::time::Instant;

const MEBIBYTE: usize = 1 << 20;
const RECORDS: u64 = 100_000;
const LIVE: u64 = 1000;
const ROUNDS: usize = 5;

fn zeros(alloc: Global, count: usize) -> Result<Vec<u8>, AllocError>
    ensures { IfOk result (λ bytes. vec_len bytes ≡ count) }
{
    vec![in alloc; 0; count]
}

/// How many of the records begin as one in use does.
fn live(records: &[u8]) -> u64 {
    let mut count: u64 = 0;
    for record in records.chunks(1024) {
        if record.starts_with(b"FILE") {
            count = count.wrapping_add(1);
        }
    }
    count
}

/// Reads all records through a buffer: how many are in use.
fn scan_all<G: Image>(image: &mut G, table: &Table, buffer: &mut [u8]) -> u64
    requires { HasClusters (G.seen image.old).size table.now }
    ensures { G.seen image.new ≡ G.seen image.old }
{
    let mut count: u64 = 0;
    let mut scan = table.scan();
    'fills: for _ in 0..RECORDS {
        match scan.fill(image, buffer) {
            Err(_) => return 0,
            Ok(filled) => {
                if filled == 0 {
                    return count;
                }
                if let Some(front) = buffer.get(..1024_u64.saturating_mul(filled) as usize) {
                    count = count.wrapping_add(live(front));
                }
            }
        }
    }
    count
}

/// Reads each record by itself: how many are in use.
fn read_each<G: Image>(image: &mut G, table: &Table, block: &mut [u8]) -> u64
    requires held { HasClusters (G.seen image.old).size table.now }
    requires block { length block.old ≡ table.now.geometry.record_size }
    ensures { G.seen image.new ≡ G.seen image.old }
{
    let mut count: u64 = 0;
    'records: for number in 0..RECORDS {
        if table.read_record(image, number, block).is_ok() {
            count = count.wrapping_add(1);
        }
    }
    count
}

/// Reads as many bytes in a row.
fn read_row<G: Image>(image: &mut G, buffer: &mut [u8]) -> bool {
    let mut place: u64 = 0;
    'pieces: while place < 1024 * RECORDS {
        if buffer.len() != MEBIBYTE || place.saturating_add(MEBIBYTE as u64) > image.len() {
            return false;
        }
        if image.read_at(place, buffer).is_err() {
            return false;
        }
        place += MEBIBYTE as u64;
    }
    true
}

fn round<G: Image>(rt: &impl Clock, alloc: Global, image: &mut G) -> io::Result<(u128, u128, u128, bool)> {
    let mut buffer = zeros(alloc, MEBIBYTE)?;
    let start = Instant::now(rt)?;
    let copied = read_row(image, &mut buffer);
    let row = start.elapsed(rt)?;
    match read_table(alloc, image) {
        Err(_) => Ok((0, 0, 0, false)),
        Ok(table) => {
            let mut block = zeros(alloc, table.geometry().record_size as usize)?;
            let start = Instant::now(rt)?;
            let scanned = scan_all(image, &table, &mut buffer);
            let all = start.elapsed(rt)?;
            let start = Instant::now(rt)?;
            let read = read_each(image, &table, &mut block);
            let each = start.elapsed(rt)?;
            let right = copied && scanned == LIVE && read == LIVE;
            Ok((row.as_micros(), all.as_micros(), each.as_micros(), right))
        }
    }
}

fn rounds(rt: &HostRuntime, alloc: Global, word: &str) -> io::Result<()> {
    let mut shelf = DiskShelf::new(alloc, rt, Access::ReadOnly);
    if let Ok(mut image) = shelf.attach(word) {
        for _ in 0..ROUNDS {
            let (row, all, each, right) = round(rt, alloc, &mut image)?;
            println!(rt; "{row} {all} {each} {right}")?;
        }
    }
    Ok(())
}

fn main(rt: HostRuntime) -> io::Result<()> {
    for word in env::args(&rt)?.skip(1) {
        rounds(&rt, rt.alloc(), &word)?;
    }
    Ok(())
}
"""

SCAN = """\
use Rattle.std.proofs.Common.{◌≡◌}
use Rattle.bench_mft.proofs.scan_all.Given as goal

abbrev pub invariant-fills : goal.invariant-fills
invariant-fills g l = record {
  seen : g.G.Image.seen l.image ≡ g.G.Image.seen l.initial.image;
  table : l.scan.table ≡ l.table;
}
"""

EACH = """\
use Rattle.std.proofs.Common.{◌≡◌, length}
use Rattle.bench_mft.proofs.read_each.Given as goal

abbrev pub invariant-records : goal.invariant-records
invariant-records g l = record {
  seen : g.G.Image.seen l.image ≡ g.G.Image.seen l.initial.image;
  block : length l.block ≡ l.table.geometry.record_size;
}
"""

ROW = """\
use Rattle.std.proofs.Common.{◌-◌}
use Rattle.bench_mft.proofs.read_row.Given as goal

abbrev pub decreases-pieces : goal.decreases-pieces
decreases-pieces g l = 102400000 - l.place
"""

PROOFS = {"scan_all": SCAN, "read_each": EACH, "read_row": ROW}


# ---- a volume of 100,000 records, of which each hundredth is in use

def signed(number):
    """The fewest bytes of a signed number."""
    size = 1
    while not -(1 << (8 * size - 1)) <= number < 1 << (8 * size - 1):
        size += 1
    return number.to_bytes(size, "little", signed=True)


def pairs_of(runs):
    """The mapping pairs of runs of a first cluster and a length each."""
    pairs, last = b"", 0
    for first, count in runs:
        length, delta = signed(count), signed(first - last)
        pairs += bytes([len(delta) << 4 | len(length)]) + length + delta
        last = first
    return pairs + b"\0"


def make_records(image, pieces):
    """A volume whose $MFT has so many runs, with as many clusters between two of them as a run has."""
    each = RECORDS * RECORD // CLUSTER // pieces
    runs = [(64 + 2 * each * piece, each) for piece in range(pieces)]
    clusters = runs[-1][0] + each
    with open(image, "wb") as file:
        file.write(boot_of(CLUSTER, clusters, runs[0][0], 32))
        for number in range(0, RECORDS, RECORDS // LIVE):
            piece, place = divmod(number * RECORD, each * CLUSTER)
            file.seek(runs[piece][0] * CLUSTER + place)
            table = data_of(CLUSTER, each * pieces, RECORDS * RECORD, pairs_of(runs))
            file.write(record_of(number, table if number == 0 else b""))
        file.truncate(max((clusters + 1) * CLUSTER, RECORDS * RECORD + (1 << 20)))


def report_scans(folder):
    images = {"one run": folder / "one", f"{RUNS} runs": folder / "hundred"}
    for image, pieces in zip(images.values(), (1, RUNS)):
        make_records(image, pieces)
    lines = rounds_of(CRATES, "bench_mft", PROGRAM, uses=("ntfs_base", "ntfs_host", "ntfs_volume"), proofs=PROOFS, words=images.values())
    count = len(lines) // len(images)
    for place, name in enumerate(images):
        row, scan, each = (min(line[i] for line in lines[count * place:count * (place + 1)]) for i in range(3))
        print(f"{RECORDS:,} records in {name}, least of {count} rounds")
        print(f"bytes in a row    {row:8} us")
        print(f"scan              {scan:8} us  {scan / row:.2f} rows")
        print(f"record by record  {each:8} us  {each / row:.2f} rows")


# ---- a stock volume whose $MFT is moved into many runs

def runs_in(pairs):
    """The runs of mapping pairs without holes."""
    runs, last = [], 0
    while pairs[0]:
        length, delta = pairs[0] & 15, pairs[0] >> 4
        last += int.from_bytes(pairs[1 + length:1 + length + delta], "little", signed=True)
        runs.append((last, int.from_bytes(pairs[1:1 + length], "little", signed=True)))
        pairs = pairs[1 + length + delta:]
    return runs


def data_at(block):
    """The place of a record's unnamed data."""
    place = struct.unpack_from("<H", block, 0x14)[0]
    while struct.unpack_from("<I", block, place)[0] != 0x80:
        place += struct.unpack_from("<I", block, place + 4)[0]
    return place


def with_pairs(block, pairs):
    """The unfixed record with other mapping pairs of its unnamed data."""
    place = data_at(block)
    length, start = struct.unpack_from("<I", block, place + 4)[0], struct.unpack_from("<H", block, place + 0x20)[0]
    used = struct.unpack_from("<I", block, 0x18)[0]
    longer = (start + len(pairs) + 7) // 8 * 8
    behind = bytes(block[place + length:used])
    changed = bytes(block[:place + start]) + pairs.ljust(longer - start, b"\0") + behind
    if len(changed) > RECORD:
        raise SystemExit("the runs of $MFT don't fit record 0")
    block = bytearray(changed.ljust(RECORD, b"\0"))
    struct.pack_into("<I", block, place + 4, longer)
    struct.pack_into("<I", block, 0x18, len(changed))
    return block


def scatter(volume):
    """Moves all of $MFT but its first piece into runs of one or more clusters each, with others between them."""
    with open(volume, "r+b") as file:
        boot = file.read(512)
        first, mirror = struct.unpack_from("<QQ", boot, 0x30)
        file.seek(first * CLUSTER)
        head = unfixed(file.read(RECORD))
        place = data_at(head)
        start = struct.unpack_from("<H", head, place + 0x20)[0]
        old = [first + k for first, count in runs_in(bytes(head[place + start:])) for k in range(count)]
        each = len(old) // RUNS
        lengths = [each + (1 if piece < len(old) % RUNS else 0) for piece in range(RUNS)]
        at = struct.unpack_from("<Q", boot, 0x28)[0] // (CLUSTER // 512) * 3 // 4
        runs, new = [], []
        for piece, count in enumerate(lengths):
            begin = old[0] if piece == 0 else at
            runs.append((begin, count))
            new += [begin + k for k in range(count)]
            at += count + 1
        moved = []
        for cluster in old:
            file.seek(cluster * CLUSTER)
            moved.append(file.read(CLUSTER))
        for cluster, bytes_of in zip(new, moved):
            file.seek(cluster * CLUSTER)
            file.write(bytes_of)
        changed = refixed(with_pairs(head, pairs_of(runs)))
        for cluster in (first, mirror):
            file.seek(cluster * CLUSTER)
            file.write(changed)


def stock_volume(folder):
    """A volume of the stock tools with many files and its $MFT in many runs, and the number of its last file's record."""
    volume, content = folder / "stock", folder / "content"
    content.write_bytes(SMALL)
    names = [f"file{number}" for number in range(FILES)]
    make_stock(volume, CLUSTER, 64 << 20, content, names)
    scatter(volume)
    return volume, stock_number(volume, names[-1])


def report_cat(folder):
    if not has_stock_tools():
        print("ntfscat: the stock tools are not installed")
        return
    program, out = built_program(), folder / "out"
    volume, number = stock_volume(folder)
    times = {}
    for name, words in (
        ("stock ntfscat", ["ntfscat", "-f", "-i", number, volume]),
        ("ntfscat", [program, "ntfscat", "-i", number, volume]),
    ):
        times[name] = least(words, out)
        if out.read_bytes() != SMALL:
            raise SystemExit(f"{name}: other bytes")
        print(f"{name}, record {number} of $MFT in {RUNS} runs: {times[name] * 1000:.2f} ms (ratio {times[name] / times['stock ntfscat']:.2f})")


def main():
    with tempfile.TemporaryDirectory(dir=sys.argv[1] if len(sys.argv) > 1 else None) as folder:
        report_scans(pathlib.Path(folder))
        report_cat(pathlib.Path(folder))


if __name__ == "__main__":
    main()
