#!/usr/bin/env python3
"""Has the crates judge damaged volumes, and compares their verdicts with what was expected by hand (tools/breaks.py), and, for
random damage (tools/random_damage.py), with what the independent reading of the rules says (tools/check.py).

    try_check.py [WORD ..]      the damages of the table, or those alone whose name has all WORDs
    try_check.py --made N       N made volumes with random damage
    try_check.py --stock N      N stock volumes with random damage; it needs ntfs-3g and the right to mount

With -v each verdict is printed, and --from M begins with the random damage of number M. It writes a program over the crates into a
temporary folder, beside copies of the crates, and the volumes as sparse files, and `rt try` builds the program without a proof and
runs it once on all of them. With --program FILE one is run that was built before (bench/rules.py keeps one where it is told to),
which is faster by far, since `rt try` looks at each access to memory. The repository is only read. It ends with 1 where a verdict
differs.
"""
import argparse
import collections
import itertools
import pathlib
import re
import resource
import subprocess
import sys
import tempfile

sys.dont_write_bytecode = True
TOP = pathlib.Path(__file__).resolve().parent.parent
sys.path[:0] = [str(TOP / "bench"), str(TOP / "tools")]
import breaks
import check
import random_damage
from measure import tried_over, write_sparse

AT_ONCE = 200
USES = ["ntfs_base", "ntfs_bitmap", "ntfs_host", "ntfs_volume", "ntfs_check"]

PROGRAM = """\
//! Judges the volumes of the files that the words name, a line for each.
#![tactic(auto)]

use ntfs_base::{Image, Rule, Shelf};
use ntfs_check::{CheckFault, judge};
use ntfs_host::{Access, DiskShelf};
use ntfs_volume::{Table, VolumeFault, read_table};
use std::alloc::Global;
use std::env;
use std::io;

ghost use Rattle.std.specs.Prelude.{◌≡◌};
ghost use Rattle.ntfs_volume.specs.Opened.{HasClusters};

fn rule_number(rule: Rule) -> u8 {
    match rule {
RULES
    }
}

fn tell_table<G: Image>(rt: &HostRuntime, alloc: Global, image: &mut G, table: &Table) -> io::Result<()>
    requires { HasClusters (G.seen image.old).size table.now }
    ensures { G.seen image.new ≡ G.seen image.old }
{
    match judge(alloc, image, table) {
        Ok(owned) => println!(rt; "accepted {}", owned.count_below(table.geometry().clusters)),
        Err(CheckFault::Damaged { rule, number }) => {
            println!(rt; "damaged: rule C{} record {number}", rule_number(rule))
        }
        Err(CheckFault::ReadFault) => println!(rt; "read fault"),
        Err(CheckFault::NoMemory) => println!(rt; "no memory"),
    }
}

fn tell<G: Image>(rt: &HostRuntime, alloc: Global, image: &mut G) -> io::Result<()>
    ensures { G.seen image.new ≡ G.seen image.old }
{
    match read_table(alloc, image) {
        Ok(table) => tell_table(rt, alloc, image, &table),
        Err(VolumeFault::NotNtfs) => println!(rt; "not an NTFS volume"),
        Err(VolumeFault::BadGeometry { field, value }) => {
            println!(rt; "bad geometry: field {field} value {value}")
        }
        Err(VolumeFault::ImageShort { len, need }) => println!(rt; "image has {len} bytes, needs {need}"),
        Err(VolumeFault::Damaged { rule, number }) => {
            println!(rt; "damaged: rule C{} record {number}", rule_number(rule))
        }
        Err(_) => println!(rt; "another refusal"),
    }
}

/// Each file has a shelf of its own, so that none has to be released.
fn tell_file(rt: &HostRuntime, word: &str) -> io::Result<()> {
    let mut shelf = DiskShelf::new(rt.alloc(), rt, Access::ReadOnly);
    match shelf.attach(word) {
        Ok(mut image) => tell(rt, rt.alloc(), &mut image),
        Err(_) => println!(rt; "no such file"),
    }
}

fn main(rt: HostRuntime) -> io::Result<()> {
    println!(rt; "0 true")?;
    for word in env::args(&rt)?.skip(1) {
        tell_file(&rt, &word)?;
    }
    Ok(())
}
""".replace("RULES", "\n".join(f"        Rule::C{number} => {number}," for number in range(1, 17)))


def crates_below(name, needs):
    """A crate and those of the repository that it stands on, lowest first."""
    found = []
    for other in needs.get(name, []):
        found += [one for one in crates_below(other, needs) if one not in found]
    return found + ([name] if name in needs else [])


def crates():
    lines = (TOP / "crates.txt").read_text().splitlines()
    needs = {line.split(":")[0]: line.split(":")[1].split() for line in lines if ":" in line and not line.startswith("#")}
    below = crates_below("ntfs_check", needs)
    return below + [one for one in crates_below("ntfs_host", needs) if one not in below]


def image_of(volume, steps):
    made = breaks.Volume(*volume)
    for step in steps:
        step(made)
    return bytes(made.image)


def table():
    """The damages of the table, with the verdicts that are expected or that the words of the rules allow."""
    rows = [(name, volume, steps, {expected}) for name, volume, steps, expected in breaks.TABLE]
    rows += [(name, volume, steps, set(answers)) for name, volume, steps, answers in breaks.OPEN]
    for name, volume, steps, answers in sorted(rows, key=lambda row: row[1]):
        yield name, lambda: image_of(volume, steps), answers


def within_memory(image):
    """The verdict of the independent reading, or nothing where it would take 8 GiB, as by a stream of a huge hole."""
    limits = resource.getrlimit(resource.RLIMIT_AS)
    resource.setrlimit(resource.RLIMIT_AS, (8 << 30, limits[1]))
    try:
        return check.verdict(image)
    except MemoryError:
        return None
    finally:
        resource.setrlimit(resource.RLIMIT_AS, limits)


def wanted(told):
    """Name, image and allowed verdicts of each volume that is to be tried."""
    if told.made or told.stock:
        volumes, count = (random_damage.made, told.made) if told.made else (random_damage.stock, told.stock)
        for name, image in volumes(told.first, told.first + count):
            if (verdict := within_memory(image)) is not None:
                yield name, image, {verdict}
        return
    for name, image, answers in table():
        if all(word in name for word in told.words):
            yield name, image(), answers


def tried(files, program=None):
    """The verdict of the crates, or of a program that is named, on the volume of each file."""
    if program is None:
        lines = tried_over(crates(), "try_check", PROGRAM, files, uses=USES)[1:]
    else:
        lines = subprocess.run([program, *files], check=True, stdout=subprocess.PIPE, text=True).stdout.splitlines()[1:]
    if len(lines) != len(files):
        raise SystemExit(f"{len(files)} volumes, but {len(lines)} verdicts")
    return lines


def told_of(volumes, program):
    """Names with allowed verdicts, and the verdicts: of all volumes at once, or of some at a time where there is a program."""
    while True:
        rows = []
        with tempfile.TemporaryDirectory() as folder:
            files = []
            for name, image, answers in itertools.islice(volumes, AT_ONCE if program else None):
                rows.append((name, answers))
                files.append(pathlib.Path(folder) / str(len(files)))
                write_sparse(files[-1], image)
            if not rows:
                return
            yield rows, tried(files, program)


def main():
    parser = argparse.ArgumentParser()
    parser.add_argument("-v", action="store_true")
    parser.add_argument("--program")
    for option in ("--made", "--stock", "--from"):
        parser.add_argument(option, type=int, default=0, dest="first" if option == "--from" else None)
    parser.add_argument("words", nargs="*")
    told = parser.parse_args()
    wrong, kinds = 0, collections.Counter()
    for rows, lines in told_of(wanted(told), told.program):
        for (name, answers), line in zip(rows, lines):
            kinds[re.sub(r"^(damaged: rule C\d+|bad geometry|accepted|image|\w+).*", r"\1", line)] += 1
            wrong += line not in answers
            if told.v or line not in answers:
                print(f"{'as expected' if line in answers else 'DIFFERS'}  {name}: {line}; expected {' or '.join(sorted(answers))}", flush=True)
    print(", ".join(f"{kind} {count}" for kind, count in kinds.most_common()))
    print(f"{kinds.total()} volumes, {wrong} differ")
    sys.exit(1 if wrong else 0)


if __name__ == "__main__":
    main()
