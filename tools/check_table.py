#!/usr/bin/env python3
"""Writes the tables of damages that the tests of ntfs_check try, from the damages of tools/breaks.py: of each rule some that break it
at different records, by few bytes, with the verdicts that were written by hand there.

    check_table.py            prints the modules
    check_table.py --write    writes them to crates/ntfs_check/src/damages.rt and crates/ntfs_check/src/damages/
"""
import collections
import pathlib
import re
import sys

sys.dont_write_bytecode = True
TOP = pathlib.Path(__file__).resolve().parent.parent
sys.path[:0] = [str(TOP / "bench"), str(TOP / "tools")]
import breaks

VOLUME = (0, 1024, 4096)
EACH = 4
PAIRS = 10
NEAR = 10

GROUPS = [("records", "records", ["C4", "C5", "C6"]), ("clusters", "clusters and their owners", ["C7", "C8", "C9"]),
          ("files", "base references, lists and streams", ["C10", "C11", "C12"]), ("directories", "directories", ["C13", "C14"]),
          ("fixed", "the records with fixed numbers", ["C15", "C16"])]

HEAD = """\
//! Damages of the made volume of seed 0 with 1,024 clusters of 4,096 bytes: which bytes stand at which places, and the
//! rule that is broken then with the record that is named. `tools/check_table.py` writes them from `tools/breaks.py`,
//! whose verdicts were written by hand.

{modules}
use ntfs_base::Rule;

/// A place, and the bytes there.
pub(crate) type Patch = (usize, &'static [u8]);

/// A damaged volume, and its verdict.
#[derive(Clone, Copy)]
pub(crate) struct Damage {{
    pub(crate) name: &'static str,
    pub(crate) patches: &'static [Patch],
    pub(crate) rule: Rule,
    pub(crate) number: u64,
}}
"""

PART = """\
//! Damages of {subject}.

use crate::damages::Damage;
use ntfs_base::Rule;
"""


def patches_of(old, new):
    """The pieces in which two volumes differ; bytes that are the same between two near ones belong to the piece."""
    found = []
    for start in (start for start in range(0, len(old), 512) if old[start:start + 512] != new[start:start + 512]):
        for place in (place for place in range(start, start + 512) if old[place] != new[place]):
            if found and place - (found[-1][0] + len(found[-1][1])) < NEAR:
                first = found[-1][0]
                found[-1] = first, new[first:place + 1]
            else:
                found.append((place, new[place:place + 1]))
    return found


def damages():
    """By rule and record the damages of the volume, those of the fewest bytes first."""
    found = collections.defaultdict(list)
    for name, volume, steps, expected in breaks.TABLE:
        verdict = re.fullmatch(r"damaged: rule (C\d+) record (\d+)", expected)
        if volume == VOLUME and verdict and "other order" not in name:
            made = breaks.Volume(*volume)
            old = bytes(made.image)
            for step in steps:
                step(made)
            if len(made.image) == len(old):
                patches = patches_of(old, bytes(made.image))
                found[verdict[1], int(verdict[2])].append((sum(len(new) for _, new in patches), name, patches))
    return {key: sorted(rows) for key, rows in found.items()}


def text_of(name, patches, rule, number):
    pieces = "".join(f"            ({place}, &[{', '.join(str(byte) for byte in new)}]),\n" for place, new in patches)
    quoted = name.replace("\\", "\\\\").replace('"', '\\"')
    return (f"    Damage {{\n        name: \"{quoted}\",\n        patches: &[\n{pieces}        ],\n"
            f"        rule: Rule::{rule},\n        number: {number},\n    }},\n")


def chosen(found, rule):
    """Some damages that break this rule alone, at different records as far as there are."""
    alone = {number: [row for row in rows if not row[1].startswith("pair:")] for (one, number), rows in found.items() if one == rule}
    rows = []
    for turn in range(EACH):
        for number in sorted(alone):
            rows += [(number, row) for row in alone[number][turn:turn + 1]]
    return sorted(rows[:EACH], key=lambda row: (row[0], row[1][1]))


def pairs(found):
    """Some pairs of rules that are broken together, a pair a rule."""
    rows, met = [], set()
    for (rule, number), some in sorted(found.items(), key=lambda item: (int(item[0][0][1:]), item[0][1])):
        for row in some:
            if row[1].startswith("pair:") and rule != "C3" and rule not in met and len(rows) < PAIRS:
                met.add(rule)
                rows.append((rule, number, row))
    return rows


def parts():
    """The modules of the tables by their names, each with its text."""
    found = damages()
    texts = {}
    for name, subject, rules in GROUPS:
        texts[name] = PART.format(subject=subject)
        for rule in rules:
            rows = "".join(text_of(name, patches, rule, number) for number, (_, name, patches) in chosen(found, rule))
            texts[name] += f"\n/// Volumes that break rule {rule} alone.\npub(crate) const {rule}: &[Damage] = &[\n{rows}];\n"
    rows = "".join(text_of(name, patches, rule, number) for rule, number, (_, name, patches) in pairs(found))
    texts["pairs"] = (PART.format(subject="two rules at once") + "\n/// Volumes that break two rules: the first is named.\n"
                      f"pub(crate) const PAIRS: &[Damage] = &[\n{rows}];\n")
    return texts


def modules():
    """The files of the tables by their paths below src/."""
    texts = parts()
    head = HEAD.format(modules="".join(f"pub(crate) mod {name};\n" for name in sorted(texts)))
    return {"damages.rt": head} | {f"damages/{name}.rt": text for name, text in texts.items()}


if __name__ == "__main__":
    for path, text in modules().items():
        if sys.argv[1:] == ["--write"]:
            target = TOP / "crates" / "ntfs_check" / "src" / path
            target.parent.mkdir(exist_ok=True)
            target.write_text(text)
        else:
            print(text, end="")
