#!/usr/bin/env python3
"""Times sorting 100,000 names of 20 units by `collate`, as a ratio to sorting them by their plain bytes in the same run.

It writes a program over the crates of this repository into a temporary folder, has `rt run` prove and run it, and takes the
least time of each sort over its rounds: once over names that differ early, and once over names whose first 14 units are the
same. The repository is only read.
"""

from measure import rounds_of

PROGRAM = """\
//! Times sorting names by the order of a volume, and by their bytes.
#![tactic(auto)]

ghost use Rattle.std.specs.Prelude.{◌≡◌, IfOk, vec_len};

use ntfs_upcase::UpCase;
use std::alloc::{AllocError, Global};
use std::io;
use std::rt::Clock;
use std::time::Instant;

const NAMES: usize = 100_000;
const SIZE: usize = 40;
const ROUNDS: usize = 10;

fn zeros(alloc: Global, len: usize) -> Result<Vec<u8>, AllocError>
    ensures { IfOk result (λ v. vec_len v ≡ len) }
{
    vec![in alloc; 0; len]
}

fn put_units(table: &mut [u8]) {
    for unit in 0..table.len() / 2 {
        let upper = if 97 <= unit && unit <= 122 { unit - 32 } else { unit };
        table[2 * unit] = (upper % 256) as u8;
        table[2 * unit + 1] = (upper / 256 % 256) as u8;
    }
}

fn next(seed: u64) -> u64 {
    let a = seed ^ (seed << 13);
    let b = a ^ (a >> 7);
    b ^ (b << 17)
}

// The units of a name: letters in either case, behind `common` of one letter.
fn put_name(names: &mut Vec<u8>, common: usize, seed: u64) -> Result<u64, AllocError> {
    let mut seed = seed;
    for unit in 0..20usize {
        seed = next(seed);
        let lower = if unit < common || seed & 64 == 0 { 65u8 } else { 97u8 };
        let letter = if unit < common { 4u8 } else { ((seed >> 20) % 26) as u8 };
        names.push(lower + letter)?;
        names.push(0)?;
    }
    Ok(seed)
}

fn names(alloc: Global, common: usize) -> Result<Vec<u8>, AllocError> {
    let mut names = Vec::with_capacity(alloc, NAMES * SIZE)?;
    let mut seed = 88_172_645_463_325_252u64;
    for _ in 0..NAMES {
        seed = put_name(&mut names, common, seed)?;
    }
    Ok(names)
}

fn list<'a>(alloc: Global, names: &'a [u8]) -> Result<Vec<&'a [u8]>, AllocError> {
    let mut list = Vec::with_capacity(alloc, NAMES)?;
    for name in names.chunks_exact(SIZE) {
        list.push(name)?;
    }
    Ok(list)
}

fn is_ordered(table: &UpCase, list: &[&[u8]]) -> bool {
    for pair in list.windows(2) {
        if let [a, b] = pair {
            if table.collate(a, b).is_gt() {
                return false;
            }
        }
    }
    true
}

fn by_bytes(rt: &impl Clock, alloc: Global, names: &[u8]) -> io::Result<u128> {
    let mut list = list(alloc, names)?;
    let start = Instant::now(rt)?;
    list.sort_unstable_by(|a, b| a.cmp(b));
    Ok(start.elapsed(rt)?.as_micros())
}

fn by_table(rt: &impl Clock, alloc: Global, names: &[u8], table: &UpCase) -> io::Result<(u128, bool)> {
    let mut list = list(alloc, names)?;
    let start = Instant::now(rt)?;
    list.sort_unstable_by(|a, b| table.collate(a, b));
    let time = start.elapsed(rt)?.as_micros();
    Ok((time, is_ordered(table, &list)))
}

fn main(rt: HostRuntime) -> io::Result<()> {
    let mut bytes = zeros(rt.alloc(), 131_072)?;
    put_units(&mut bytes);
    let table = UpCase::from_bytes(rt.alloc(), &bytes)?;
    for common in [0usize, 14] {
        let names = names(rt.alloc(), common)?;
        for _ in 0..ROUNDS {
            let plain = by_bytes(&rt, rt.alloc(), &names)?;
            let (collated, ordered) = by_table(&rt, rt.alloc(), &names, &table)?;
            println!(rt; "{common} {plain} {collated} {ordered}")?;
        }
    }
    Ok(())
}
"""


def main():
    rounds = rounds_of(("ntfs_base", "ntfs_upcase"), "bench_upcase", PROGRAM)
    for common in (0, 14):
        lines = [line for line in rounds if line[0] == common]
        plain, collated = (min(line[i] for line in lines) for i in (1, 2))
        print(f"100,000 names of 20 units, {common} in common, least of {len(lines)} rounds")
        print(f"by bytes    {plain:7} us")
        print(f"by collate  {collated:7} us  {collated / plain:.2f} times")


if __name__ == "__main__":
    main()
