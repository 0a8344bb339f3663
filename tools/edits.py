#!/usr/bin/env python3
"""Edits attributes of random file records, and compares each result with that of `ntfs_edit`, byte for byte.

What an edit comes to is written down here once more, from the format alone: mapping pairs keep an attribute's length
where they fit, a value has its length rounded up to 8, what follows is shifted, the bytes in use are told, and all
other bytes stay. The other side is a program over the crates, written into a temporary folder, which `rt run` proves
and runs. Usage: tools/edits.py [SEED]. It ends with 1 where a result differs. The repository is only read.
"""

import pathlib
import random
import shutil
import subprocess
import sys
import tempfile

TOP = pathlib.Path(__file__).resolve().parent.parent
CRATES = ("ntfs_base", "ntfs_fixup", "ntfs_runs", "ntfs_record", "ntfs_edit")
NAME = "edits_of_records"
RECORDS = 500

PROGRAM = """\
//! Edits the records that its input tells, a line each.
#![tactic(auto)]

ghost use Rattle.std.specs.Prelude.{◌≡◌, IfSome};
ghost use Rattle.ntfs_record.specs.Layout.{first_attribute_of};
ghost use Rattle.ntfs_record.specs.Parsing.{raws_of, IsAccepted};
ghost use Rattle.ntfs_record.specs.Views.{shown_body};
ghost use Rattle.ntfs_edit.specs.Edits.{BeginsFrom, residence_of};

use ntfs_edit::laws::{edited_records_parse, one_attribute_is_edited};
use ntfs_edit::{NoRoom, replace_pairs, set_resident, set_sizes};
use ntfs_record::{Body, parse};
use std::alloc::{AllocError, Global};
use std::io;

fn residence(body: &Body<'_>) -> u8
    ensures { result ≡ residence_of (shown_body body.now).is_resident }
{
    match body {
        Body::Resident { .. } => 0,
        Body::Runs { .. } => 1,
    }
}

fn place_of(bytes: &[u8], wanted: u8, there: u32) -> Option<u32>
    ensures accepted { IfSome result (λ place. IsAccepted bytes.now) }
    ensures begins { IfSome result (λ place. BeginsFrom wanted place (first_attribute_of bytes.now)
        (raws_of bytes.now (first_attribute_of bytes.now))) }
{
    edited_records_parse(bytes);
    one_attribute_is_edited(bytes);
    let view = parse(bytes).ok()?;
    'attributes: for attribute in view.attributes() {
        if residence(&attribute.body) == wanted && attribute.place == there {
            return Some(attribute.place);
        }
    }
    None
}

fn edit(bytes: &mut [u8], word: &str, place: u32, body: &[u8], numbers: [u64; 3]) -> Option<Result<(), NoRoom>> {
    if word == "pairs" {
        let place = place_of(bytes, 1, place)?;
        return Some(replace_pairs(bytes, place, body, numbers[0]));
    }
    if word == "value" {
        let place = place_of(bytes, 0, place)?;
        return Some(set_resident(bytes, place, body));
    }
    let place = place_of(bytes, 1, place)?;
    set_sizes(bytes, place, numbers[0], numbers[1], numbers[2]);
    Some(Ok(()))
}

fn number(word: Option<&str>) -> u64 {
    match word {
        Some(digits) => digits.parse::<u64>().unwrap_or(0),
        None => 0,
    }
}

fn decoded(alloc: Global, word: Option<&str>) -> Result<Vec<u8>, AllocError> {
    match hex::decode(alloc, word.unwrap_or("")) {
        Ok(bytes) => Ok(bytes),
        Err(_) => Ok(Vec::new(alloc)),
    }
}

fn answer(alloc: Global, line: &str) -> Result<String, AllocError> {
    let mut words = line.split_whitespace();
    let word = words.next().unwrap_or("");
    let place = u32::try_from(number(words.next())).unwrap_or(0);
    let numbers = [number(words.next()), number(words.next()), number(words.next())];
    let body = decoded(alloc, words.next())?;
    let mut bytes = decoded(alloc, words.next())?;
    let result = edit(&mut bytes, word, place, &body, numbers);
    let text = hex::encode(alloc, bytes.as_slice())?;
    match result {
        None => format!(in alloc; "none 0 0 {text}"),
        Some(Ok(())) => format!(in alloc; "done 0 0 {text}"),
        Some(Err(refusal)) => format!(in alloc; "room {} {} {text}", refusal.need, refusal.have),
    }
}

fn main(rt: HostRuntime) -> io::Result<()> {
    for line in rt.lines(rt.alloc()) {
        let text = answer(rt.alloc(), line?.as_str())?;
        println!(rt; "{text}")?;
    }
    Ok(())
}
"""

INVARIANTS = """\
use Rattle.std.proofs.Common.{map}
use Rattle.std.specs.List.{AllByRecursion}
use Rattle.ntfs_record.specs.Parsing.{IsAccepted}
use Rattle.ntfs_record.specs.Views.{shown_placed}
use Rattle.ntfs_edit.specs.Edits.{BeginsAsShown}
use Rattle.edits_of_records.proofs.place_of.Given as goal

abbrev pub invariant-attributes : goal.invariant-attributes
invariant-attributes l = record {
  can : (goal.iterator-attributes).can_next l.attribute-iterator;
  finite : (goal.iterator-attributes).is_finite l.attribute-iterator;
  accepted : IsAccepted l.bytes;
  begin : AllByRecursion (BeginsAsShown l.bytes) (map shown_placed l.attribute-iterator);
}
"""


def number_at(size, place, data):
    """The number of so many bytes at a place."""
    return int.from_bytes(data[place : place + size], "little")


def with_number(size, place, value, data):
    """The bytes with another number of so many bytes at a place."""
    return data[:place] + value.to_bytes(size, "little") + data[place + size :]


def rounded(number):
    """The least multiple of 8 from a number on."""
    return -(-number // 8) * 8


def with_attribute(record, place, attribute):
    """The record with other bytes for the attribute at a place, and the answer."""
    used = number_at(4, 0x18, record)
    end = place + number_at(4, place + 4, record)
    new = record[:place] + attribute + record[end:used]
    if len(new) > len(record):
        return f"room {len(new)} {len(record)}", record
    return "done 0 0", with_number(4, 0x18, len(new), new + record[len(new) :])


def with_pairs(record, place, pairs, following):
    """What replacing the mapping pairs comes to; `following` is the VCN after the highest."""
    length = number_at(4, place + 4, record)
    offset = number_at(2, place + 0x20, record)
    size = length if offset + len(pairs) <= length else rounded(offset + len(pairs))
    attribute = (record[place : place + offset] + pairs).ljust(size, b"\0")
    attribute = with_number(4, 4, size, with_number(8, 0x18, (following - 1) % 2**64, attribute))
    return with_attribute(record, place, attribute)


def with_value(record, place, value):
    """What setting the value comes to."""
    offset = number_at(2, place + 0x14, record)
    size = rounded(offset + len(value))
    attribute = (record[place : place + offset] + value).ljust(size, b"\0")
    attribute = with_number(4, 4, size, with_number(4, 0x10, len(value), attribute))
    return with_attribute(record, place, attribute)


def with_sizes(record, place, allocated, size, valid):
    """What setting the sizes comes to."""
    for offset, value in ((0x28, allocated), (0x30, size), (0x38, valid)):
        record = with_number(8, place + offset, value, record)
    return "done 0 0", record


def random_attribute(chance, resident):
    """The bytes of an attribute, with a name before its body, behind it, or none."""
    least = 24 if resident else 64
    units = chance.choice((0, 0, 1, 2, 5))
    behind = chance.random() < 0.3
    body = chance.randrange(0, 40)
    name = least if not behind else rounded(least + body)
    offset = rounded(least + 2 * units) if not behind else least
    length = rounded(max(offset + body, name + 2 * units)) + 8 * chance.choice((0, 0, 1))
    data = bytearray(chance.randbytes(length))
    data[0:4] = (0x10 * chance.randrange(1, 16)).to_bytes(4, "little")
    data[4:8] = length.to_bytes(4, "little")
    data[8], data[9] = int(not resident), units
    data[10:12] = name.to_bytes(2, "little")
    if resident:
        data[0x10:0x14] = body.to_bytes(4, "little")
        data[0x14:0x16] = offset.to_bytes(2, "little")
    else:
        lowest = chance.choice((0, 0, 3, 2**48))
        highest = min(lowest + chance.randrange(0, 9), 2**48) - chance.choice((0, 1))
        data[0x10:0x18] = lowest.to_bytes(8, "little")
        data[0x18:0x20] = (max(highest, lowest - 1) % 2**64).to_bytes(8, "little")
        data[0x20:0x22] = offset.to_bytes(2, "little")
    return bytes(data)


def random_record(chance):
    """A record that is right, with the places of its attributes and whether each is resident."""
    kinds = [chance.random() < 0.5 for _ in range(chance.randrange(1, 9))]
    attributes = [random_attribute(chance, kind) for kind in kinds]
    places = [0x38 + sum(len(one) for one in attributes[:number]) for number in range(len(attributes))]
    tail = b"\xff\xff\xff\xff" + chance.randbytes(4 * chance.randrange(0, 4))
    record = chance.randbytes(0x38) + b"".join(attributes) + tail
    used = len(record)
    record += chance.randbytes(chance.choice((0, 1, 7, 8, 16, 24, 200)))
    record = b"FILE\x30\0\3\0" + record[8:]
    for size, place, value in ((2, 0x14, 0x38), (4, 0x18, used), (4, 0x1C, len(record))):
        record = with_number(size, place, value, record)
    return record, list(zip(places, kinds))


def random_edit(chance):
    """The line that tells a record and an edit, and what is to come of it."""
    record, attributes = random_record(chance)
    place, resident = chance.choice(attributes)
    body = chance.randbytes(chance.choice((0, 1, 7, 8, 9, chance.randrange(0, 80))))
    numbers = (0, 0, 0)
    if resident:
        word, (answer, new) = "value", with_value(record, place, body)
    elif chance.random() < 0.7:
        numbers = (chance.choice((0, 1, 2**48 + 1, chance.randrange(2**64))), 0, 0)
        word, (answer, new) = "pairs", with_pairs(record, place, body, numbers[0])
    else:
        numbers = tuple(chance.randrange(2**64) for _ in range(3))
        word, (answer, new) = "sizes", with_sizes(record, place, *numbers)
    line = " ".join((word, str(place), *map(str, numbers), body.hex() or "-", record.hex()))
    return line, f"{answer} {new.hex()}"


def told(lines):
    """What the program over the crates answers to these lines."""
    used = {line.split(":")[0]: line for line in (TOP / "crates.txt").read_text().splitlines() if ":" in line}
    with tempfile.TemporaryDirectory() as folder:
        top = pathlib.Path(folder)
        for crate in CRATES:
            without = shutil.ignore_patterns("must-fail", "out")
            shutil.copytree(TOP / "crates" / crate, top / "crates" / crate, ignore=without)
        own = top / "crates" / NAME
        for file, text in (("src/main.rt", PROGRAM), ("proofs/place_of/Invariants.antt", INVARIANTS)):
            (own / file).parent.mkdir(parents=True, exist_ok=True)
            (own / file).write_text(text)
        own_line = f"{NAME}: ntfs_base ntfs_record ntfs_edit hex"
        (top / "crates.txt").write_text("\n".join([*(used[crate] for crate in CRATES), own_line]) + "\n")
        done = subprocess.run(["rt", "run"], cwd=own, input="\n".join(lines) + "\n", capture_output=True, text=True)
        answers = [line for line in done.stdout.splitlines() if line.split(" ")[0] in ("none", "done", "room")]
        if len(answers) != len(lines):
            raise SystemExit(done.stdout[-4000:] + done.stderr[-4000:])
        return answers


def main():
    chance = random.Random(int(sys.argv[1]) if len(sys.argv) > 1 else 1)
    edits = [random_edit(chance) for _ in range(RECORDS)]
    answers = told([line for line, _ in edits])
    wrong = [edit for edit, answer in zip(edits, answers) if edit[1] != answer]
    refused = sum(answer.startswith("room") for answer in answers)
    print(f"{len(edits)} edits, {refused} of them without room, {len(wrong)} with another result")
    for line, answer in wrong[:3]:
        print(line, answer, sep="\n")
    sys.exit(1 if wrong else 0)


if __name__ == "__main__":
    main()
