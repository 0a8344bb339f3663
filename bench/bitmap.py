#!/usr/bin/env python3
"""Times a set of clusters: a million claims of three clusters each, none beside another, in ascending and in scattered
order, then counting them, and comparing the set with its bitmap; and prints how much more memory the set takes than a program
without it, where GNU `time` is installed.

It writes a program over the crate into a temporary folder, has `rt run` prove and run it, and takes the least time of each step
over its rounds. The repository is only read.
"""

import shutil

from measure import peak, program_over

NAME = "bench_bitmap"
ORDERS = ("ascending", "scattered")

PROGRAM = """\
//! Times a set of clusters.
#![tactic(auto)]

ghost use Rattle.std.specs.Prelude.{◌≡◌, ◌+◌, ◌≤◌, IfOk, OnOk};
ghost use Rattle.ntfs_bitmap.specs.ClusterSet.{bound_of};

use ntfs_bitmap::{ClaimFault, ClusterSet};
use std::alloc::{AllocError, Global};
use std::env;
use std::io;
use std::rt::Clock;
use std::time::Instant;

const RUNS: u64 = 1 << 20;
const BOUND: u64 = 4 << 20;
const ROUNDS: usize = 5;

/// The first cluster of a run: each fourth one, in ascending or in scattered order.
fn first_of(run: u64, scattered: bool) -> u64
    ensures { result + 3 ≤ 4194304 }
{
    let place = if scattered {
        let mixed = run.wrapping_mul(0x9E37_79B1) % RUNS;
        (mixed ^ (mixed >> 10)).wrapping_mul(0x85EB_CA6B)
    } else {
        run
    };
    4 * (place % RUNS)
}

/// Claims a run of an order: whether it came.
fn claim(set: &mut ClusterSet, run: u64, scattered: bool) -> bool
    requires { bound_of set.old ≡ 4194304 }
    ensures { bound_of set.new ≡ 4194304 }
{
    set.claim_run(first_of(run, scattered), 3).is_ok()
}

fn claim_all(set: &mut ClusterSet, scattered: bool) -> bool
    requires { bound_of set.old ≡ 4194304 }
    ensures { bound_of set.new ≡ 4194304 }
{
    let mut all = true;
    'runs: for run in 0..RUNS {
        all = claim(set, run, scattered) && all;
    }
    all
}

/// The bitmap of all runs: three of each four bits.
fn bitmap(alloc: Global) -> Result<Vec<u8>, AllocError> {
    vec![in alloc; 0x77; 524_288]
}

fn round(rt: &impl Clock, alloc: Global, bits: &[u8], scattered: bool) -> io::Result<(u128, u128, u128, bool)> {
    let mut set = ClusterSet::empty(alloc, BOUND)?;
    let start = Instant::now(rt)?;
    let all = claim_all(&mut set, scattered);
    let claimed = start.elapsed(rt)?;
    let start = Instant::now(rt)?;
    let count = set.count_below(BOUND);
    let counted = start.elapsed(rt)?;
    let start = Instant::now(rt)?;
    let difference = set.first_difference(0, bits);
    let compared = start.elapsed(rt)?;
    let right = all && count == 3 * RUNS && difference.is_none();
    Ok((claimed.as_micros(), counted.as_micros(), compared.as_micros(), right))
}

fn main(rt: HostRuntime) -> io::Result<()> {
    let words = env::args(&rt)?.count();
    let bits = bitmap(rt.alloc())?;
    let rounds = if words == 1 { ROUNDS } else { 1 };
    'rounds: for _ in 0..rounds {
        for order in 0..2usize {
            if words == 1 || words == 2 + order {
                let (claimed, counted, compared, right) = round(&rt, rt.alloc(), &bits, order == 1)?;
                println!(rt; "{order} {claimed} {counted} {compared} {right}")?;
            }
        }
    }
    Ok(())
}
"""

INVARIANT = """\
use Rattle.std.proofs.Common.{◌≡◌}
use Rattle.ntfs_bitmap.specs.ClusterSet.{bound_of}
use Rattle.bench_bitmap.proofs.claim_all.Given as goal

abbrev pub invariant-runs : goal.invariant-runs
invariant-runs l = bound_of l.set ≡ 4194304
"""


def report(program, lines):
    for order, name in enumerate(ORDERS):
        rounds = [line for line in lines if line[0] == order]
        claimed, counted, compared = (min(line[i] for line in rounds) for i in (1, 2, 3))
        print(f"1,048,576 claims in {name} order, least of {len(rounds)} rounds")
        print(f"claimed   {claimed:8} us")
        print(f"counted   {counted:8} us")
        print(f"compared  {compared:8} us")
        if shutil.which("/usr/bin/time"):
            # with one word the claims ascend, with two they are scattered, with three there are none
            print(f"memory    {peak(program, 1 + order) - peak(program, 3):8} KiB")


def main():
    with program_over(["ntfs_bitmap"], NAME, PROGRAM, proofs={"claim_all": INVARIANT}) as (program, rounds):
        report(program, rounds)


if __name__ == "__main__":
    main()
