#!/bin/sh
# Times reading and spelling run lists of 100,000 and of 1,000,000 runs, in runs a second and as a ratio to copying the same
# bytes, in one run. It proves and builds a small program in a temporary folder, beside a copy of the crate, and removes both.
set -eu
here=$(cd "$(dirname "$0")/.." && pwd)
work=$(mktemp -d)
trap 'rm -rf "$work"' EXIT
mkdir -p "$work/crates/ntfs_runs" "$work/crates/runs_bench/src"
for part in src specs proofs; do cp -r "$here/crates/ntfs_runs/$part" "$work/crates/ntfs_runs/"; done
printf 'ntfs_runs: byteorder\nruns_bench: ntfs_runs\n' > "$work/crates.txt"
cat > "$work/crates/runs_bench/src/main.rt" <<'PROGRAM'
//! Times run lists.
#![tactic(auto)]


use ntfs_runs::{decode, encode_into, pairs};
use std::alloc::{AllocError, Global};
use std::io;
use std::rt::Clock;
use std::time::{Duration, Instant};

const ROUNDS: u32 = 20;

/// Pairs of so many runs, two at a time: eight clusters 256 further, four clusters 16 back.
fn text(alloc: Global, runs: u32) -> Result<Vec<u8>, AllocError> {
    let mut bytes = Vec::new(alloc);
    for _ in 0..runs / 2 {
        bytes.extend_from_slice(&[0x21, 0x08, 0x00, 0x01, 0x11, 0x04, 0xF0])?;
    }
    bytes.push(0)?;
    Ok(bytes)
}

fn clusters(bytes: &[u8]) -> u64 {
    let mut sum = 0u64;
    for item in pairs(bytes) {
        if let Ok(run) = item {
            sum = sum.wrapping_add(run.length);
        }
    }
    sum
}

fn nanos(time: Duration) -> u64 {
    time.as_secs()
        .wrapping_mul(1_000_000_000)
        .wrapping_add(u64::from(time.subsec_nanos()))
        .max(1)
}

fn row(rt: &impl Print, what: &str, runs: u32, time: u64, copy: u64) -> io::Result<()> {
    let each = u64::from(runs).wrapping_mul(u64::from(ROUNDS));
    let rate = each.wrapping_mul(1_000) / time.max(1);
    let ratio = time / copy.max(1);
    let micros = time / 1_000 / u64::from(ROUNDS);
    println!(rt; "{runs} runs, {what}: {micros} us, {rate} million runs a second, {ratio} times copying")
}

fn copied(rt: &impl Clock, bytes: &[u8], into: &mut [u8]) -> io::Result<u64>
{
    let start = Instant::now(rt)?;
    for _ in 0..ROUNDS {
        if into.len() == bytes.len() {
            into.copy_from_slice(bytes);
        }
    }
    Ok(nanos(start.elapsed(rt)?))
}

fn walked(rt: &impl Clock, bytes: &[u8]) -> io::Result<(u64, u64)> {
    let mut sum = 0u64;
    let start = Instant::now(rt)?;
    for _ in 0..ROUNDS {
        sum = sum.wrapping_add(clusters(bytes));
    }
    Ok((nanos(start.elapsed(rt)?), sum))
}

fn decoded(rt: &impl Clock, alloc: Global, bytes: &[u8]) -> io::Result<(u64, usize)> {
    let mut sum = 0usize;
    let start = Instant::now(rt)?;
    for _ in 0..ROUNDS {
        if let Ok(runs) = decode(alloc, bytes) {
            sum = sum.wrapping_add(runs.runs().len());
        }
    }
    Ok((nanos(start.elapsed(rt)?), sum))
}

fn encoded(rt: &impl Clock, alloc: Global, bytes: &[u8], into: &mut [u8]) -> io::Result<(u64, usize)> {
    let mut sum = 0usize;
    let Ok(runs) = decode(alloc, bytes) else {
        return Ok((0, 0));
    };
    let start = Instant::now(rt)?;
    for _ in 0..ROUNDS {
        if let Some(size) = encode_into(&runs, into) {
            sum = sum.wrapping_add(size);
        }
    }
    Ok((nanos(start.elapsed(rt)?), sum))
}

fn measure<R: Print + Clock>(rt: &R, alloc: Global, runs: u32) -> io::Result<()> {
    let bytes = text(alloc, runs)?;
    let mut into = vec![in alloc; 0u8; bytes.len()]?;
    let copy = copied(rt, &bytes, &mut into)?;
    let (walk, clusters) = walked(rt, &bytes)?;
    let (read, count) = decoded(rt, alloc, &bytes)?;
    let (write, size) = encoded(rt, alloc, &bytes, &mut into)?;
    let micros = copy / 1_000 / u64::from(ROUNDS);
    println!(rt; "{runs} runs, copying: {micros} us")?;
    row(rt, "walking", runs, walk, copy)?;
    row(rt, "decoding", runs, read, copy)?;
    row(rt, "encoding", runs, write, copy)?;
    println!(rt; "  ({clusters} clusters, {count} runs, {size} bytes)")
}

fn main(rt: HostRuntime) -> io::Result<()> {
    measure(&rt, rt.alloc(), 100_000)?;
    measure(&rt, rt.alloc(), 1_000_000)
}
PROGRAM
(cd "$work" && git init -q .)
cd "$work/crates/runs_bench"
rt run > "$work/log" 2>&1 || { cat "$work/log"; exit 1; }
grep -E '^ *[0-9(]+ (runs|clusters)' "$work/log"
