#!/usr/bin/env python3
"""Times the walk of an index of some 10,000 and some 100,000 names in blocks of 4,096 bytes in memory, as a ratio to fetching
each block once in the same run, and prints how much more memory a walk takes than that fetching, where GNU `time` is installed.

It writes a program over the crates of this repository into a temporary folder, has `rt run` prove and run it, and takes the
least time of each step over its rounds. The repository is only read.
"""

from measure import program_over, report

CRATES = ("ntfs_base", "ntfs_boot", "ntfs_fixup", "ntfs_index")
NAME = "bench_index"

PROGRAM = """\
//! Times fetching the blocks of an index, and walking it.
#![tactic(auto)]

ghost use Rattle.std.specs.Prelude.{◌≡◌, ◌<◌, ◌≤◌, length, IfOk, vec_len};

use byteorder::{ByteOrder, LittleEndian};
use ntfs_boot::Geometry;
use ntfs_index::{Blocks, MemBlocks, start};
use std::alloc::{AllocError, Global};
use std::env;
use std::io;
use std::rt::Clock;
use std::time::Instant;

const BLOCK: usize = 4096;
/// Where the entries of a block begin.
const FIRST: usize = 0x40;
/// The bytes of an entry without a child: 16, and a key of 86 bytes, whose name has 10 units.
const ENTRY: u16 = 104;
const ROUNDS: usize = 10;

fn zeros(alloc: Global, len: usize) -> Result<Vec<u8>, AllocError>
    ensures { IfOk result (λ v. vec_len v ≡ len) }
{
    vec![in alloc; 0; len]
}

/// Adds an entry, or with the flag 2 the end, with a child where there is one.
fn put_entry(node: &mut Vec<u8>, reference: u64, ends: bool, child: Option<u64>) -> Result<(), AllocError> {
    let plain = if ends { 16 } else { ENTRY };
    let length = if child.is_some() { plain + 8 } else { plain };
    let flags = u8::from(child.is_some()) | if ends { 2 } else { 0 };
    node.extend_from_slice(&reference.to_le_bytes())?;
    node.extend_from_slice(&length.to_le_bytes())?;
    node.extend_from_slice(&[if ends { 0 } else { 86 }, 0, flags, 0, 0, 0])?;
    for i in 16..plain {
        node.push(if i == 0x50 { 10 } else { 7 })?;
    }
    match child {
        Some(vcn) => node.extend_from_slice(&vcn.to_le_bytes())?,
        None => {}
    }
    Ok(())
}

/// A header of a node whose entries begin so many bytes behind it.
fn put_header(node: &mut Vec<u8>, first: u32, entries: &[u8]) -> Result<(), AllocError>
    requires { first < 1000 }
{
    let used = first + (entries.len() % 65536) as u32;
    node.extend_from_slice(&first.to_le_bytes())?;
    node.extend_from_slice(&used.to_le_bytes())?;
    node.extend_from_slice(&used.to_le_bytes())?;
    node.extend_from_slice(&[0; 4])
}

/// Saves the ends of the strides of a block and puts the number 7 there.
fn guard(block: &mut [u8])
    requires { length block.old ≡ BLOCK }
{
    LittleEndian::write_u16(&mut block[0x28..], 7);
    'strides: for stride in 0..8usize {
        let last = 512 * stride + 510;
        let saved = LittleEndian::read_u16(&block[last..]);
        LittleEndian::write_u16(&mut block[0x2A + 2 * stride..], saved);
        LittleEndian::write_u16(&mut block[last..], 7);
    }
}

/// Adds the block of the next VCN.
fn put_block(alloc: Global, blocks: &mut Vec<u8>, entries: &[u8]) -> Result<(), AllocError> {
    let mut block = Vec::new(alloc);
    block.extend_from_slice(b"INDX\\x28\\0\\x09\\0\\0\\0\\0\\0\\0\\0\\0\\0")?;
    block.extend_from_slice(&((blocks.len() / BLOCK) as u64).to_le_bytes())?;
    put_header(&mut block, (FIRST - 0x18) as u32, entries)?;
    for _ in 0..FIRST.saturating_sub(block.len()) {
        block.push(0)?;
    }
    block.extend_from_slice(entries)?;
    let mut whole = zeros(alloc, BLOCK)?;
    for (to, from) in whole.iter_mut().zip(&block) {
        *to = *from;
    }
    guard(&mut whole);
    blocks.extend_from_slice(&whole)
}

/// A leaf with 38 entries.
fn put_leaf(alloc: Global, blocks: &mut Vec<u8>, first: u64) -> Result<(), AllocError> {
    let mut entries = Vec::new(alloc);
    for i in 0..38u64 {
        put_entry(&mut entries, first.wrapping_add(i), false, None)?;
    }
    put_entry(&mut entries, 0, true, None)?;
    put_block(alloc, blocks, &entries)
}

/// A block with 35 entries and 36 leaves below it, which follow it.
fn put_inner(alloc: Global, blocks: &mut Vec<u8>, first: u64) -> Result<(), AllocError> {
    let vcn = (blocks.len() / BLOCK) as u64;
    let mut entries = Vec::new(alloc);
    for i in 0..35u64 {
        put_entry(&mut entries, first.wrapping_add(i), false, Some(vcn.wrapping_add(i + 1)))?;
    }
    put_entry(&mut entries, 0, true, Some(vcn.wrapping_add(36)))?;
    put_block(alloc, blocks, &entries)?;
    for i in 0..36u64 {
        put_leaf(alloc, blocks, first.wrapping_add(35 + 38 * i))?;
    }
    Ok(())
}

/// A root with an entry above each inner block but the last, and the blocks: 1,404 names an inner block but one.
fn tree(alloc: Global, inner: u64) -> Result<(Vec<u8>, Vec<u8>), AllocError> {
    let mut entries = Vec::new(alloc);
    let mut blocks = Vec::new(alloc);
    for i in 0..inner {
        let child = Some((blocks.len() / BLOCK) as u64);
        put_inner(alloc, &mut blocks, i.wrapping_mul(1404))?;
        put_entry(&mut entries, i.wrapping_mul(1404).wrapping_add(1403), i + 1 == inner, child)?;
    }
    let mut root = Vec::new(alloc);
    root.extend_from_slice(&[0x30, 0, 0, 0, 1, 0, 0, 0, 0, 0x10, 0, 0, 1, 0, 0, 0])?;
    put_header(&mut root, 0x10, &entries)?;
    root.extend_from_slice(&entries)?;
    Ok((root, blocks))
}

/// Fetches each block once: how many came.
fn fetch(blocks: &mut MemBlocks, into: &mut [u8]) -> u64
    requires { length into.old ≡ blocks.old.size }
    ensures { blocks.new.size ≡ blocks.old.size }
{
    let mut count = 0u64;
    'fetched: for vcn in 0..(blocks.bytes.len() / BLOCK) as u64 {
        if blocks.block(vcn, into).is_ok() {
            count = count.wrapping_add(1);
        }
    }
    count
}

/// Walks the index: how many entries it gives, the sum of their references and that of the lengths of their keys.
fn walk(alloc: Global, root: &[u8], geometry: &Geometry, blocks: &mut MemBlocks) -> (u64, u64, u64)
    requires block { geometry.now.block ≡ 4096 }
    requires size { blocks.old.size ≡ 4096 }
    ensures { blocks.new.size ≡ blocks.old.size }
{
    let (mut count, mut sum, mut keys) = (0u64, 0u64, 0u64);
    let Ok(mut walk) = start(alloc, root, geometry) else {
        return (0, 0, 0);
    };
    'walked: for _ in 0..1_000_000u32 {
        match walk.next(blocks) {
            Ok(Some(entry)) => {
                count = count.wrapping_add(1);
                sum = sum.wrapping_add(entry.reference);
                keys = keys.wrapping_add(walk.key().len() as u64);
            }
            Ok(None) => return (count, sum, keys),
            Err(_) => return (0, 0, 0),
        }
    }
    (0, 0, 0)
}

fn geometry() -> Geometry
    ensures block { result.block ≡ 4096 }
    ensures cluster { result.cluster ≡ 4096 }
{
    Geometry {
        sector: 512,
        cluster: 4096,
        record_size: 1024,
        block: 4096,
        sectors: 0,
        clusters: 0,
        mft: 0,
        mirror: 0,
        serial: 0,
    }
}

/// Each entry came once: 1,404 an inner block but one, with all references from 0 on but the last, and each with its key.
fn is_right(inner: u64, found: (u64, u64, u64)) -> bool {
    let names = inner.wrapping_mul(1404).wrapping_sub(1);
    found.0 == names
        && found.1 == names.wrapping_mul(names.wrapping_sub(1)) / 2
        && found.2 == names.wrapping_mul(86)
}

fn round(rt: &impl Clock, alloc: Global, root: &[u8], blocks: &mut MemBlocks, walks: bool) -> io::Result<(u128, u128, bool)>
    requires { blocks.old.size ≡ 4096 }
    ensures { blocks.new.size ≡ 4096 }
{
    let mut into = zeros(alloc, BLOCK)?;
    let start = Instant::now(rt)?;
    let came = fetch(blocks, &mut into);
    let fetched = start.elapsed(rt)?;
    if !walks {
        return Ok((fetched.as_micros(), 0, came > 0));
    }
    let start = Instant::now(rt)?;
    let found = walk(alloc, root, &geometry(), blocks);
    let walked = start.elapsed(rt)?;
    Ok((fetched.as_micros(), walked.as_micros(), is_right(came / 37, found)))
}

fn measure<R: Print + Clock>(rt: &R, alloc: Global, inner: u64, walks: bool) -> io::Result<()> {
    let (root, bytes) = tree(alloc, inner)?;
    let mut blocks = MemBlocks::new(alloc, bytes, &geometry());
    'rounds: for _ in 0..ROUNDS {
        let (fetched, walked, right) = round(rt, alloc, &root, &mut blocks, walks)?;
        println!(rt; "{inner} {fetched} {walked} {right}")?;
    }
    Ok(())
}

fn main(rt: HostRuntime) -> io::Result<()> {
    let words = env::args(&rt)?.count();
    for inner in [7, 72] {
        measure(&rt, rt.alloc(), inner, words < 3)?;
    }
    Ok(())
}
"""

# the invariant of a loop of each function, by the function's name
INVARIANTS = {
    "guard": "strides l = length l.block ≡ 4096",
    "fetch": "fetched l = (length l.into ≡ l.blocks.size) × (l.blocks.size ≡ l.initial.blocks.size)",
    "walk": "walked l = (l.walk.size ≡ 4096) × (l.blocks.size ≡ 4096)",
    "measure": "rounds g l = l.blocks.size ≡ 4096",
}


def proof_of(function, invariant):
    """The file that gives a loop's invariant."""
    loop = invariant.split()[0]
    return (
        "use Rattle.std.proofs.Common.{◌≡◌, length}\n"
        f"use Rattle.{NAME}.proofs.{function}.Given as goal\n\n"
        f"abbrev pub invariant-{loop} : goal.invariant-{loop}\n"
        f"invariant-{invariant}\n"
    )


def main():
    proofs = {function: proof_of(function, invariant) for function, invariant in INVARIANTS.items()}
    with program_over(CRATES, NAME, PROGRAM, ("ntfs_boot", "ntfs_index"), proofs) as (program, rounds):
        for inner in sorted({line[0] for line in rounds}):
            times = [line[1:] for line in rounds if line[0] == inner]
            report(program, f"{inner * 1404 - 1:,} names", times, ("fetched", "fetching"), "walked")


if __name__ == "__main__":
    main()
