#!/usr/bin/env python3
"""Times unfixing and refixing over 64 MiB of file records of 1,024 bytes, as ratios to copying the same bytes in the same run.

It writes a program over the crates of this repository into a temporary folder, has `rt run` prove and run it, and takes the
least time of each step over its rounds. The repository is only read.
"""

from measure import rounds_of

PROGRAM = """\
//! Times a copy of an image, its unfixing, and its unfixing and refixing.
#![tactic(auto)]

ghost use Rattle.std.specs.Prelude.{◌≡◌, length, IfOk, vec_len};

use byteorder::{ByteOrder, LittleEndian};
use ntfs_fixup::laws::any_good_array_is_taken;
use ntfs_fixup::{Magic, refix, unfix};
use std::alloc::{AllocError, Global};
use std::io;
use std::time::Instant;

const RECORD: usize = 1024;
const RECORDS: usize = 65_536;
const ROUNDS: usize = 10;

fn zeros(alloc: Global, len: usize) -> Result<Vec<u8>, AllocError>
    ensures { IfOk result (λ v. vec_len v ≡ len) }
{
    vec![in alloc; 1; len]
}

// Writes the front of each record: the magic, an array of three words at 0x30, and the number that its strides end with.
fn fill(image: &mut [u8]) {
    for i in 0..image.len() / RECORD {
        let record = &mut image[RECORD * i..RECORD * i + RECORD];
        LittleEndian::write_u32(record, 0x454C_4946);
        LittleEndian::write_u16(&mut record[4..], 0x30);
        LittleEndian::write_u16(&mut record[6..], 3);
        LittleEndian::write_u16(&mut record[0x30..], 0x0101);
    }
}

// Unfixes each record: whether all were whole.
fn unfix_all(image: &mut [u8]) -> bool {
    let mut all = true;
    for i in 0..image.len() / RECORD {
        let record = &mut image[RECORD * i..RECORD * i + RECORD];
        if unfix(record, Magic::File).is_err() {
            all = false;
        }
    }
    all
}

// Unfixes one record and refixes it.
fn turn(record: &mut [u8]) -> bool
    requires { length record.old ≡ RECORD }
{
    match unfix(record, Magic::File) {
        Ok(()) => {
            any_good_array_is_taken(record, Magic::File);
            refix(record);
            true
        }
        Err(_) => false,
    }
}

// Unfixes each record and refixes it: whether all were whole.
fn turn_all(image: &mut [u8]) -> bool {
    let mut all = true;
    for i in 0..image.len() / RECORD {
        if !turn(&mut image[RECORD * i..RECORD * i + RECORD]) {
            all = false;
        }
    }
    all
}

fn copy(to: &mut [u8], from: &[u8]) {
    if to.len() == from.len() {
        to.copy_from_slice(from);
    }
}

fn main(rt: HostRuntime) -> io::Result<()> {
    let mut image = zeros(rt.alloc(), RECORD * RECORDS)?;
    let mut spare = zeros(rt.alloc(), RECORD * RECORDS)?;
    fill(&mut image);
    for _ in 0..ROUNDS {
        let start = Instant::now(&rt)?;
        copy(&mut spare, &image);
        let copied = start.elapsed(&rt)?;
        let start = Instant::now(&rt)?;
        let were_whole = unfix_all(&mut spare);
        let unfixed = start.elapsed(&rt)?;
        let start = Instant::now(&rt)?;
        let are_whole = turn_all(&mut image);
        let turned = start.elapsed(&rt)?;
        let whole = were_whole && are_whole;
        let copied = copied.as_micros();
        let unfixed = unfixed.as_micros();
        let turned = turned.as_micros();
        println!(rt; "{copied} {unfixed} {turned} {whole}")?;
    }
    Ok(())
}
"""


def main():
    rounds = rounds_of(("ntfs_base", "ntfs_fixup"), "bench_fixup", PROGRAM)
    copied, unfixed, turned = (min(line[i] for line in rounds) for i in range(3))
    print(f"64 MiB in records of 1,024 bytes, least of {len(rounds)} rounds")
    print(f"copy               {copied:7} us")
    print(f"unfix              {unfixed:7} us  {unfixed / copied:.2f} copies")
    print(f"unfix and refix    {turned:7} us  {turned / copied:.2f} copies")
    print(f"refix (difference) {turned - unfixed:7} us  {(turned - unfixed) / copied:.2f} copies")


if __name__ == "__main__":
    main()
