#!/usr/bin/env python3
"""Has each allocation of some work refused in turn, and says how the work ended then: whole, in want of memory, or
wrong.

The work is what the functions named `..._is_whole` and `..._are_whole` in the tests of the crates do: each answers
whether all was done, and fails where something is wrong. `rt try --test --fail-alloc N` refuses the Nth allocation of
each test. So this script writes N tests for each of these functions into a copy of the repository. They take 0, 1, 2
.. allocations before the function begins, so that together they refuse each allocation of it. Of the last tests none
may miss one, else N is too small.

Usage: tools/refused_memory.py [CRATE | CRATE:WORK ..]. It ends with 1 where something was wrong. The repository is only read.
"""

import concurrent.futures
import os
import pathlib
import re
import shutil
import subprocess
import sys
import tempfile

TOP = pathlib.Path(__file__).resolve().parent.parent
WORK = re.compile(r"^fn (\w+_(?:is|are)_whole)\(rt: &impl Abort, host: &HostRuntime\)", re.MULTILINE)
OTHER = re.compile(r"(?:^///[^\n]*\n)*^#\[test\]\n.*?^}\n", re.MULTILINE | re.DOTALL)
# So many tests are made at once.
PIECE = 128
# So many allocations behind the last one that was missed have to be none of the work's.
BEHIND = 16

SPEND = """
fn spend(host: &HostRuntime, count: usize) {
    for _ in 0..count {
        let mut one = Vec::new(host.alloc());
        let _ = one.push(0u8);
    }
}
"""

TEST = """
#[test]
fn refused_behind_COUNT(rt: HostRuntime) -> Result<(), Fail> {
    spend(&rt, COUNT);
    assert!(rt; !WORK(&rt, &rt)?, "all was done");
    Ok(())
}
"""


def endings(crate, file, work, number, counts):
    """How the work ended in a copy of the repository where this allocation was refused, by how many came first."""
    with tempfile.TemporaryDirectory() as folder:
        top = pathlib.Path(folder) / "copy"
        shutil.copytree(TOP, top, ignore=shutil.ignore_patterns(".git", "out", "must-fail"))
        subprocess.run(["git", "init", "-q", top], check=True)
        for other in (top / "crates" / crate / "src").rglob("*.rt"):
            # The other tests would only take time.
            other.write_text(OTHER.sub("", other.read_text()))
        tests = "".join(TEST.replace("COUNT", str(count)).replace("WORK", work) for count in counts)
        copied = top / file.relative_to(TOP)
        copied.write_text(copied.read_text() + SPEND + tests)
        words = ["rt", "try", "--test", "--seconds", "600", "--fail-alloc", str(number)]
        told = subprocess.run(words, cwd=top / "crates" / crate, capture_output=True, text=True)
    ends = {}
    for one in re.split(r"^test ", told.stdout + told.stderr, flags=re.MULTILINE):
        if found := re.match(r"\S*refused_behind_(\d+) \.\.\. (ok|FAILED)", one):
            is_wanting = found[2] == "ok"
            ends[int(found[1])] = "wanting" if is_wanting else "whole" if "all was done" in one else one.strip()
    if len(ends) != len(counts):
        raise SystemExit(told.stdout + told.stderr)
    return ends


def is_behind(crate, file, work, number):
    """Whether the last allocations up to this number are none of the work's."""
    ends = endings(crate, file, work, number, range(BEHIND))
    return all(end == "whole" for end in ends.values())


def enough(crate, file, work):
    """A number behind all allocations of the work, and not far behind them."""
    least, most = 0, PIECE
    while not is_behind(crate, file, work, most):
        least, most = most, 2 * most
    while most - least > PIECE:
        middle = (least + most) // 2
        if is_behind(crate, file, work, middle):
            most = middle
        else:
            least = middle
    return most


def tried(crate, file, work, pool):
    """Refuses each allocation of some work: whether none ended wrong."""
    number = enough(crate, file, work)
    pieces = [range(first, min(first + PIECE, number)) for first in range(0, number, PIECE)]
    ends = {}
    for piece in pool.map(lambda counts: endings(crate, file, work, number, counts), pieces):
        ends.update(piece)
    wanting = sum(end == "wanting" for end in ends.values())
    wrong = [f"{count} before it: {end}" for count, end in sorted(ends.items()) if end not in ("wanting", "whole")]
    print(f"{crate}, {work}: {wanting} refused allocations ended with want of memory, {len(wrong)} wrong", flush=True)
    for line in wrong:
        print(line)
    return not wrong


def main():
    lines = (TOP / "crates.txt").read_text().splitlines()
    crates = sys.argv[1:] or [line.split(":")[0] for line in lines if ":" in line]
    are_right = True
    with concurrent.futures.ThreadPoolExecutor(os.cpu_count()) as pool:
        for name in crates:
            crate, _, one = name.partition(":")
            for file in sorted((TOP / "crates" / crate / "src").rglob("*.rt")):
                for work in WORK.findall(file.read_text()):
                    if one in ("", work):
                        are_right &= tried(crate, file, work, pool)
    sys.exit(0 if are_right else 1)


if __name__ == "__main__":
    main()
