#!/usr/bin/env python3
"""Times the survey of a volume of 100,000 records in memory, of which each has two runs, as a ratio to copying $MFT's bytes once
in the same run, and prints how much more memory a survey takes than that copying, where GNU `time` is installed.

It writes a program over the crates of this repository into a temporary folder, has `rt run` prove and run it, and takes the
least time of each step over its rounds. The repository is only read.
"""

from measure import program_over, report

CRATES = ("ntfs_base", "ntfs_boot", "ntfs_fixup", "ntfs_runs", "ntfs_record", "ntfs_attrlist", "ntfs_volume", "ntfs_survey")
NAME = "bench_survey"

PROGRAM = """\
//! Times copying the bytes of $MFT, and surveying the volume.
#![tactic(auto)]

use ntfs_base::MemImage;
use ntfs_survey::survey_volume;
use ntfs_volume::open_volume;
use std::alloc::{AllocError, Global};
use std::env;
use std::io;
use std::rt::Clock;
use std::time::Instant;

const CLUSTERS: u64 = 26_000;
const CLUSTER: usize = 4096;
const RECORDS: u32 = 100_000;
/// Where $MFT begins, in cluster 4, and how many bytes it has.
const TABLE: usize = 16_384;
const BYTES: u64 = 102_400_000;
const PIECE: usize = 1_048_576;
const ROUNDS: usize = 10;

fn patch(bytes: &mut [u8], at: usize, text: &[u8]) {
    if at <= bytes.len() && text.len() <= bytes.len() - at {
        bytes[at..at + text.len()].copy_from_slice(text);
    }
}

/// Writes an attribute of 80 bytes that isn't resident from VCN 0 up to another one, and the end behind it.
fn put_runs(record: &mut [u8], at: usize, next: u64, pairs: &[u8]) {
    patch(record, at, &[0x80, 0, 0, 0, 80, 0, 0, 0, 1, 0, 64, 0]);
    patch(record, at.saturating_add(0x18), &next.wrapping_sub(1).to_le_bytes());
    patch(record, at.saturating_add(0x20), &[64, 0]);
    patch(record, at.saturating_add(0x30), &BYTES.to_le_bytes());
    patch(record, at.saturating_add(0x38), &BYTES.to_le_bytes());
    patch(record, at.saturating_add(64), pairs);
    patch(record, at.saturating_add(80), &[0xFF; 4]);
}

/// A record in use of this number: two resident attributes, and one with these pairs.
fn record(alloc: Global, number: u32, next: u64, pairs: &[u8]) -> Result<Vec<u8>, AllocError> {
    let mut record = vec![in alloc; 0; 1024]?;
    patch(&mut record, 0, b"FILE\\x30\\0\\x03\\0");
    patch(&mut record, 0x10, &[1, 0, 1, 0, 56, 0, 1, 0, 0, 2, 0, 0, 0, 4]);
    patch(&mut record, 0x2C, &number.to_le_bytes());
    patch(&mut record, 0x30, &[5, 0]);
    patch(&mut record, 510, &[5, 0]);
    patch(&mut record, 1022, &[5, 0]);
    patch(&mut record, 56, &[0x10, 0, 0, 0, 72, 0, 0, 0, 0, 0, 24, 0, 0, 0, 0, 0, 48, 0, 0, 0, 24, 0]);
    patch(&mut record, 128, &[0x30, 0, 0, 0, 112, 0, 0, 0, 0, 0, 24, 0, 0, 0, 1, 0, 82, 0, 0, 0, 24, 0]);
    put_runs(&mut record, 240, next, pairs);
    Ok(record)
}

/// The bytes of a volume whose records each own four clusters and then three.
fn volume(alloc: Global) -> Result<Vec<u8>, AllocError> {
    let mut bytes = vec![in alloc; 0; CLUSTER * CLUSTERS as usize + 512]?;
    patch(&mut bytes, 3, b"NTFS    \\0\\x02\\x08");
    patch(&mut bytes, 0x28, &(CLUSTERS * 8).to_le_bytes());
    patch(&mut bytes, 0x30, &[4]);
    patch(&mut bytes, 0x38, &[4]);
    patch(&mut bytes, 0x40, &[0xF6]);
    patch(&mut bytes, 0x44, &[0xF4]);
    let first = record(alloc, 0, 25_000, &[0x12, 0xA8, 0x61, 4, 0])?;
    patch(&mut bytes, TABLE, &first);
    let mut other = record(alloc, 0, 7, &[0x11, 4, 100, 0x11, 3, 10, 0])?;
    for number in 1..RECORDS {
        patch(&mut other, 0x2C, &number.to_le_bytes());
        patch(&mut bytes, TABLE + 1024 * number as usize, &other);
    }
    Ok(bytes)
}

/// Copies $MFT's bytes piece by piece into a buffer.
fn copied(bytes: &[u8], into: &mut [u8]) -> u64 {
    let mut sum = 0u64;
    let (_, table) = bytes.split_at(TABLE.min(bytes.len()));
    let (table, _) = table.split_at((BYTES as usize).min(table.len()));
    for piece in table.chunks(PIECE) {
        if piece.len() <= into.len() {
            into[..piece.len()].copy_from_slice(piece);
            sum = sum.wrapping_add(u64::from(piece[piece.len() / 2]));
        }
    }
    sum
}

/// How many owners the volume has, and that none came where it was refused.
fn surveyed(alloc: Global, image: &mut MemImage) -> u64 {
    match open_volume(alloc, image) {
        Err(_) => 0,
        Ok(mut volume) => match survey_volume(alloc, &mut volume) {
            Err(_) => 0,
            Ok(survey) => survey.owners().len() as u64,
        },
    }
}

fn round(rt: &impl Clock, alloc: Global, image: &mut MemImage, into: &mut [u8], surveys: bool) -> io::Result<(u128, u128, bool)> {
    let start = Instant::now(rt)?;
    let sum = copied(&image.inside.bytes, into);
    let copying = start.elapsed(rt)?;
    if !surveys {
        return Ok((copying.as_micros(), 0, sum < u64::MAX));
    }
    let start = Instant::now(rt)?;
    let owners = surveyed(alloc, image);
    let surveying = start.elapsed(rt)?;
    Ok((copying.as_micros(), surveying.as_micros(), owners == 2 * u64::from(RECORDS) - 1))
}

fn measure<R: Print + Clock>(rt: &R, alloc: Global, surveys: bool) -> io::Result<()> {
    let mut image = MemImage::new(alloc, volume(alloc)?);
    let mut into = vec![in alloc; 0; PIECE]?;
    'rounds: for _ in 0..ROUNDS {
        let (copying, surveying, right) = round(rt, alloc, &mut image, &mut into, surveys)?;
        println!(rt; "{copying} {surveying} {right}")?;
    }
    Ok(())
}

fn main(rt: HostRuntime) -> io::Result<()> {
    let words = env::args(&rt)?.count();
    measure(&rt, rt.alloc(), words < 3)
}
"""


def main():
    with program_over(CRATES, NAME, PROGRAM, ("ntfs_base", "ntfs_volume", "ntfs_survey")) as (program, rounds):
        report(program, "100,000 records", rounds, ("copied", "copying"), "surveyed")


if __name__ == "__main__":
    main()
