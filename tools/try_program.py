#!/usr/bin/env python3
"""Tries the built program where no contract reaches: closed streams, pipes, limits, odd files, refused calls.

Each run's status, output and messages are compared with what README says, and after each the images are as they were.
It needs Python alone; with gcc it also stands between the program and the C library (interposed.c) and refuses,
interrupts, shortens and notes single calls. Usage: tools/try_program.py [--program FILE] [PART ..]. It proves and
builds the program first unless one is named, and ends with 1 where a run went otherwise. The repository is only read,
but for the built program.
"""

import argparse
import concurrent.futures
import contextlib
import fcntl
import hashlib
import os
import pathlib
import resource
import shutil
import signal
import socket
import stat
import struct
import subprocess
import sys
import tempfile
import time
from typing import NamedTuple

from small_volume import Runs, Volume, build, shown

sys.path.insert(0, str(pathlib.Path(__file__).resolve().parent.parent / "bench"))

from make_reference import image as reference  # noqa: E402
from measure import built_program  # noqa: E402

NOBODY = 65_534
SECONDS = 60
SHIM = pathlib.Path(__file__).resolve().parent / "interposed.c"
READS = os.O_RDONLY

# 300 clusters are more than a mebibyte, and 5,000 more than 4,096. What isn't initialised has other bytes than zeros.
PLAIN = Volume(4096, 400, 4, {
    16: b"a resident stream\n" * 10,
    17: Runs(((20, 3), (None, 2), (30, 4)), 9 * 4096 - 7, 6 * 4096 + 3),
    18: Runs(((50, 200), (260, 100)), 300 * 4096 - 1, 300 * 4096 - 1),
    19: Runs(((362, 5),), 5 * 4096, 0),
    20: b"",
    21: Runs(((370, 6),), 6 * 4096, 4096 + 1),
})
MANY = Volume(512, 5200, 4, {16: Runs(((100, 5000),), 5000 * 512, 5000 * 512)})
MADE = ["0", "1024", "4096"]


class Done(NamedTuple):
    """How a run ended."""

    status: int
    out: bytes
    err: bytes


class Trials:
    """The program, the folder that it runs in, and what went wrong so far."""

    def __init__(self, program, folder):
        self.folder = folder
        self.images = folder / "images"
        self.images.mkdir()
        self.program = folder / "program"
        shutil.copy(program, self.program)
        for path in (folder, self.images, self.program):
            path.chmod(0o755)
        build(self.images / "plain", PLAIN)
        build(self.images / "many", MANY)
        (self.images / "v0").write_bytes(reference(0, 1024, 4096))
        self.before = self.state()
        self.count, self.wrong = 0, []

    def state(self):
        """The bytes of each image, and when it was changed."""
        told = {}
        for path in sorted(self.images.iterdir()):
            about = path.lstat()
            is_file = stat.S_ISREG(about.st_mode) and about.st_size < 1 << 26
            content = hashlib.sha256(path.read_bytes()).hexdigest() if is_file else ""
            told[path.name] = (content, about.st_mode, about.st_size, about.st_mtime_ns)
        return told

    def run(self, words, closed=(), limits=(), user=None, env=None, stdin=subprocess.DEVNULL, **streams):
        """Runs the program on these words in the folder of images, with descriptors closed and limits set."""

        def prepare():
            for descriptor in closed:
                os.close(descriptor)
            for limit, most in limits:
                resource.setrlimit(limit, (most, most))
            if user is not None and os.getuid() == 0:
                os.setgroups([])
                os.setgid(user)
                os.setuid(user)

        words = [self.program, *(word if isinstance(word, bytes) else str(word) for word in words)]
        with contextlib.suppress(FileNotFoundError):
            return self.ended(words, prepare, {"stdin": stdin, **streams}, {**os.environ, **(env or {})})

    def ended(self, words, prepare, streams, env):
        told = {"stdout": subprocess.PIPE, "stderr": subprocess.PIPE, **streams}
        try:
            done = subprocess.run(words, preexec_fn=prepare, cwd=self.images, env=env, timeout=SECONDS, **told)
        except subprocess.TimeoutExpired:
            return Done(None, b"", b"it did not end")
        return Done(done.returncode, done.stdout or b"", done.stderr or b"")

    def check(self, what, is_right, told=""):
        self.count += 1
        if not is_right:
            self.wrong.append(f"{what}: {told}")
            print(f"wrong: {what}: {told}"[:600], flush=True)

    def expect(self, what, words, status, out=b"", err=b"", **how):
        """Has a run end with this status, output and messages, and leave each image as it was."""
        done = self.run(words, **how)
        wanted = Done(status, out, err)
        self.check(what, done == wanted, f"{words!r:.200} ended with {done!r:.300}, not {wanted!r:.300}")
        self.unchanged(what)
        return done

    def unchanged(self, what):
        after = self.state()
        changed = sorted(name for name in {*after, *self.before} if after.get(name) != self.before.get(name))
        self.check(what, not changed, f"changed {changed}")

    def keep(self):
        """What is there now has to stay."""
        self.before = self.state()


def info_of(volume):
    fields = {
        "sector size": 512,
        "cluster size": volume.cluster,
        "record size": 1024,
        "index block size": 4096,
        "sectors": volume.clusters * volume.cluster // 512,
        "clusters": volume.clusters,
        "mft cluster": volume.mft,
        "mirror cluster": volume.mft,
        "serial": "0" * 16,
    }
    return "".join(f"{name}: {value}\n" for name, value in fields.items()).encode()


INFO = (["ntfsinfo", "-m", "plain"], info_of(PLAIN))
SHORT = (["ntfscat", "-i", "16", "plain"], shown(PLAIN, 16))
LONG = (["ntfscat", "-i", "18", "plain"], shown(PLAIN, 18))
# What a made volume has, written down from what it is to be and not from what the program prints.
FILES = ["empty.bin", *(f"file{number:02}" for number in range(16)), "half.bin", "listed.bin", "long name.txt", "packed.bin",
         "resident.txt", "sparse.bin"]
NAMES = [".", "Dir", *FILES]


def lines(rows):
    return "".join(f"{row}\n" for row in rows).encode()


LISTED = (["ntfsls", "-R", "v0"], lines([".", "Dir", "Dir/inner.txt", *FILES]))
FOUND = (["ntfscat", "v0", "/half.bin"], bytes(range(0x13, 0x1D)) + bytes(4091))
HEAD = (["ntfsinfo", "-i", "16", "v0"], lines([
    "record: 16", "sequence: 1", "links: 1", "flags: 1", "base: 0", "bytes in use: 320",
    '0x10 "" resident 72', '0x30 "" resident 90', '0x80 "" resident 12']))
COUNTED = (["ntfscluster", "-i", "v0"], lines(["clusters: 1024", "owned: 119", "bad: 1", "free: 905"]))
RUNS = (["ntfscluster", "-I", "0", "v0"], lines([
    'record 0 0x80 "" vcn 0 lcn 3 length 8', 'record 28 0x80 "" vcn 8 lcn 68 length 8']))
SHOWN = (INFO, SHORT, LONG, LISTED, FOUND, HEAD, COUNTED, RUNS)


def fault(words, kind):
    return f"{words[0]}: {kind} fault\n".encode()


def words(trials):
    """Words, and the status and the message of each command line."""
    usage = "usage: line"
    for line, status, message in (
        ([], 1, "ntfsprogs: usage: tool"),
        ([""], 1, "ntfsprogs: usage: tool"),
        (["ntfsresize", "-i", "plain"], 1, "ntfsprogs: usage: tool"),
        (["ntfsclone"], 1, "ntfsclone: usage: combination"),
        (["ntfsclone", "-s", "-x", "plain"], 1, "ntfsclone: usage: line"),
        (["ntfsclone", "-s", "-r", "-o", "new", "plain"], 1, "ntfsclone: usage: combination"),
        (["ntfsclone", "-s", "-o", "plain", "plain"], 1, "ntfsclone: usage: same name"),
        (["ntfsclone", "-s", "missing"], 2, "ntfsclone: no such file: missing"),
        (["ntfsclone", "-s", "-o", "plain", "v0"], 2, "ntfsclone: file exists: plain"),
        (["ntfsclone", "-r", "-o", "new", "v0"], 9, "ntfsclone: bad clone image at byte 0"),
        (["ntfstrial", "0"], 1, "ntfstrial: usage: line"),
        (["ntfstrial", "x", "new"], 1, "ntfstrial: usage: number"),
        (["ntfstrial", "0", "plain"], 2, "ntfstrial: file exists: plain"),
        (["ntfstrial", "0", "missing/new"], 11, "ntfstrial: write fault"),
        (["ntfsls", "-f", "plain"], 1, f"ntfsls: {usage}"),
        (["ntfsls", "--help"], 1, f"ntfsls: {usage}"),
        (["ntfsinfo"], 1, f"ntfsinfo: {usage}"),
        (["ntfsinfo", "-m", "-m", "plain"], 1, f"ntfsinfo: {usage}"),
        (["ntfsinfo", "plain"], 1, "ntfsinfo: usage: combination"),
        (["ntfsinfo", "-mi16", "plain"], 1, "ntfsinfo: usage: combination"),
        (["ntfsinfo", "-i", "0X10", "plain"], 1, "ntfsinfo: usage: number"),
        (["ntfsinfo", "-m", "plain", ""], 1, f"ntfsinfo: {usage}"),
        (["ntfsinfo", "-m", "-plain"], 1, f"ntfsinfo: {usage}"),
        (["ntfsinfo", "-m", "missing"], 2, "ntfsinfo: no such file: missing"),
        (["ntfsinfo", "-m", ""], 2, "ntfsinfo: no such file: "),
        (["ntfscat", "-i", "16"], 1, f"ntfscat: {usage}"),
        (["ntfscat", "-i", "16", "plain", "plain"], 1, "ntfscat: usage: combination"),
        (["ntfscat", "plain"], 1, "ntfscat: usage: combination"),
        (["ntfscat", "-i", "-16", "plain"], 1, f"ntfscat: {usage}"),
        (["ntfscat", "--inode=-16", "plain"], 1, "ntfscat: usage: number"),
        (["ntfscat", "-i", "16", "-a", "0x100000000", "plain"], 1, "ntfscat: usage: number"),
        (["ntfscat", "-i", "16", "-n", "other", "plain"], 7, "ntfscat: not found: stream"),
        (["ntfscluster", "-c", "2-1", "plain"], 1, "ntfscluster: usage: number"),
        (["ntfscat", "-i", "16", "missing"], 2, "ntfscat: no such file: missing"),
        (["ntfscat", "-i", "9", "plain"], 7, "ntfscat: not found: record 9"),
        (["ntfsmake", "made", "0", "1024"], 1, f"ntfsmake: {usage}"),
        (["ntfsmake", "made", *MADE, "0"], 1, f"ntfsmake: {usage}"),
        (["ntfsmake", "made", "0", "1023", "4096"], 1, "ntfsmake: usage: number"),
        (["ntfsmake", "plain", *MADE], 2, "ntfsmake: file exists: plain"),
        (["ntfsmake", "missing/made", *MADE], 11, "ntfsmake: write fault"),
        (["ntfsinfo", "-m", "a" * 131_071], 10, "ntfsinfo: read fault"),
        (["a" * 131_071], 1, "ntfsprogs: usage: tool"),
        (["ntfsinfo", "-m", "./../images/plain" + "/" * 5], 10, "ntfsinfo: read fault"),
    ):
        trials.expect("words", line, status, err=message.encode() + b"\n")
    for line, out in SHOWN:
        trials.expect("words", line, 0, out)
    for line in (["plain", "-m"], ["--mft", "plain"], ["-m", "--", "plain"]):
        trials.expect("spellings", ["ntfsinfo", *line], 0, INFO[1])
    for line in (["-i16", "plain"], ["-i=0x10", "plain"], ["plain", "--inode", "16"], ["--inode=016", "-a", "128", "--", "plain"]):
        trials.expect("spellings", ["ntfscat", *line], 0, SHORT[1])
    for line in ([b"\xff"], ["ntfsinfo", "-m", b"pl\xffain"], [*INFO[0], b"\xed\xa0\x80"], [*LONG[0], "a", b"\xc0"]):
        trials.expect("no text", line, 16)
    many = ["ntfsinfo", *(["x"] * 100_000)]
    trials.expect("100,000 words", many, 1, err=b"ntfsinfo: usage: line\n", limits=[(resource.RLIMIT_AS, 64 << 20)])


def streams(trials):
    """Each stream of every volume, by the size of its clusters."""
    for size in (512 << power for power in range(8)):
        first = 6 + max(1, 32_768 // size)
        volume = Volume(size, first + 40, 4, {
            16: b"resident",
            17: Runs(((first, 3), (None, 2), (first + 5, 4)), 9 * size - 7, 6 * size + 3),
            18: Runs(((first + 10, 20),), 20 * size, 20 * size),
            19: Runs(((first + 31, 2),), 2 * size, 0),
            20: Runs((), 0, 0),
        })
        build(trials.images / f"size{size}", volume)
        trials.keep()
        trials.expect(f"clusters of {size}", ["ntfsinfo", "-m", f"size{size}"], 0, info_of(volume))
        for number in volume.streams:
            trials.expect(f"clusters of {size}", ["ntfscat", "-i", number, f"size{size}"], 0, shown(volume, number))
    for number in PLAIN.streams:
        trials.expect("stream", ["ntfscat", "-i", number, "plain"], 0, shown(PLAIN, number))
    trials.expect("5,000 clusters", ["ntfscat", "-i", "0x10", "many"], 0, shown(MANY, 16))


def names(trials):
    """Names and paths in a made volume, and who owns its clusters."""
    short = ["LONGNA~1.TXT" if name == "long name.txt" else name for name in NAMES]
    twelve = bytes([0x12 + place for place in range(3)])
    for line, rows in (
        ([], NAMES),
        (["-x"], sorted(short, key=str.upper)),
        (["-a"], [".", "A.txt", "a.txt", *NAMES[1:]]),
        (["-p", "/Dir"], ["inner.txt"]),
        (["-p", "dir//"], ["inner.txt"]),
        (["-F", "-p", ""], ["./", "Dir/", *FILES]),
        (["-i", "-pDir"], None),
    ):
        done = trials.run(["ntfsls", *line, "v0"])
        shown = done.out.decode().splitlines()
        if rows is None:
            is_right = len(shown) == 1 and shown[0].split(" ")[1:] == ["inner.txt"] and shown[0].split(" ")[0].isdigit()
        else:
            is_right = sorted(shown) == sorted(rows) and ("-x" in line or shown == rows)
        trials.check("names", done.status == 0 and is_right, f"{line} prints {shown}")
    for path in ("resident.txt", "/RESIDENT.TXT", "//Resident.txt/"):
        trials.expect("path", ["ntfscat", "v0", path], 0, b"hello, ntfs\n")
    sparse = trials.run(["ntfscat", "v0", "/sparse.bin"]).out
    trials.check("sparse", sparse[:8192] == bytes(8192) and sparse[8192:8195] == twelve and sparse[12288:] == bytes(4096), "")
    trials.expect("empty", ["ntfscat", "v0", "empty.bin"], 0)
    trials.expect("packed", ["ntfscat", "v0", "packed.bin"], 8, err=b"ntfscat: stream is not plain: flags 0x0001\n")
    for path, part in (("/Dir/none", 1), ("none/Dir", 0), ("resident.txt/x", 1)):
        trials.expect("no path", ["ntfscat", "v0", path], 7, err=f"ntfscat: not found: path part {part}\n".encode())
    trials.expect("no path", ["ntfsls", "-p", "resident.txt", "v0"], 7, err=b"ntfsls: not found: path part 1\n")
    trials.expect("no record", ["ntfsinfo", "-i", "12", "v0"], 7, err=b"ntfsinfo: not found: record 12\n")
    trials.expect("no record", ["ntfscluster", "-I", "12", "v0"], 7, err=b"ntfscluster: not found: record 12\n")
    by_number, by_path = (trials.run(["ntfscluster", *words, "v0"]).out for words in (["-I", "5"], ["-F", "/"]))
    trials.check("by path", by_path == by_number and by_path != b"", by_path)
    whole = trials.run(["ntfscluster", "-c", "0-18446744073709551615", "v0"]).out.decode().splitlines()
    trials.check("clusters", len({row.split()[1] for row in whole}) == 119, len(whole))
    trials.check("clusters", whole == sorted(whole, key=lambda row: int(row.split()[1])), "not ascending")


def made(trials):
    """Volumes of ntfsmake, which are those of the independent generator."""
    shapes = [(0, 1024, 4096), (7, 2048, 512), (3, 5000, 512), (2, 1025, 65_536)]
    for number, (seed, clusters, cluster) in enumerate(shapes + [(seed, 1024, 65_536) for seed in (5, 6, 7)]):
        name = f"made{number}"
        done = trials.run(["ntfsmake", name, seed, clusters, cluster])
        trials.check(name, done == Done(0, b"", b""), done)
        trials.check(name, (trials.images / name).read_bytes() == reference(seed, clusters, cluster), "other bytes")
        (trials.images / name).unlink()
        trials.unchanged(name)


def makes(trials, what, wanted, **how):
    """Has ntfsmake end with what is wanted, and leave the volume, or else one with zeros in places, or nothing."""
    whole = trials.whole = getattr(trials, "whole", None) or reference(0, 1024, 4096)
    return fills(trials, what, wanted, ["ntfsmake", "new", *MADE], whole, **how)


def fills(trials, what, wanted, line, whole, is_appended=False, **how):
    """Has a line end with what is wanted, and leave these bytes in the new file, or else a front of them, or nothing, or
    them with zeros in places where the file isn't appended to."""
    path = trials.images / "new"
    path.unlink(missing_ok=True)
    done = trials.run(line, **how)
    trials.check(what, done in wanted, f"{line} ended with {done!r:.300}")
    left = path.read_bytes() if path.exists() else None
    if done.status == 0:
        trials.check(what, left == whole, f"{line} left other bytes")
    elif left and is_appended:
        trials.check(what, whole.startswith(left), f"{line} left {len(left)} bytes that are no front")
    elif left:
        is_right = len(left) == len(whole) and all(a in (0, b) for a, b in zip(left, whole) if a != b)
        trials.check(what, is_right, f"{line} left {len(left)} bytes that are neither zero nor the right ones")
    path.unlink(missing_ok=True)
    trials.unchanged(what)
    return done


def cloned(volume):
    """The clone image of the made volume, whose $Bitmap begins at cluster 31, and what is restored from it."""
    owned = [volume[31 * 4096 + number // 8] >> number % 8 & 1 for number in range(1024)]
    clone, restored, gap = [b"\0ntfsclone-image\x0A\0" + struct.pack("<IQQQI6x", 4096, 4_194_816, 1024, sum(owned), 56)], [], 0
    for number, is_owned in enumerate([*owned, True]):
        cluster = (volume[:4_194_816] + bytes(4096))[number * 4096:][:4096] if is_owned else bytes(4096)
        restored.append(cluster)
        if is_owned and gap:
            clone.append(b"\0" + struct.pack("<Q", gap))
        if is_owned:
            clone.append(b"\1" + cluster)
        gap = 0 if is_owned else gap + 1
    return b"".join(clone), b"".join(restored)[:4_194_816]


SAVE = ["ntfsclone", "-s", "-o", "new", "v0"]
PUT = ["ntfsclone", "-s", "v0"]
COPY = ["ntfsclone", "-o", "new", "v0"]
RESTORE = ["ntfsclone", "-r", "-o", "new", "clone"]
TAKE = ["ntfsclone", "-r", "-o", "new"]


def jobs_of(clone, restored):
    """The lines of ntfsclone that make a file, what is in it, and whether it is appended to."""
    return (SAVE, clone, True), (COPY, restored, False), (RESTORE, restored, False)


def clones(trials):
    """ntfsclone and ntfstrial over streams, files and limits like those of the other tools."""
    images = trials.images
    clone, restored = cloned((images / "v0").read_bytes())
    trials.check("clone", len(clone) == 491_966, len(clone))
    (images / "clone").write_bytes(clone)
    trials.keep()
    jobs = jobs_of(clone, restored)
    done, told = Done(0, b"", b""), Done(11, b"", fault(SAVE, "write"))
    for bits in range(8):
        gone = [number for number in range(3) if bits >> number & 1]
        for line, whole, is_appended in jobs:
            fills(trials, f"closed {gone}", [done], line, whole, is_appended, closed=gone)
        wanted = Done(11, b"", b"" if 2 in gone else told.err) if 1 in gone else Done(0, clone, b"")
        trials.check(f"closed {gone}", trials.run(PUT, closed=gone) == wanted, wanted.status)
        wanted = Done(10, b"", b"" if 2 in gone else fault(TAKE, "read"))
        if 0 in gone:
            fills(trials, f"closed {gone}", [wanted], TAKE, restored, closed=gone)
    for most in (0, 1, 56, 4096, len(clone) - 1, len(clone), len(restored) - 1, len(restored)):
        for line, whole, is_appended in jobs:
            wanted = done if most >= len(whole) else told
            limit = [(resource.RLIMIT_FSIZE, most)]
            fills(trials, f"files of {most} bytes at most", [wanted], line, whole, is_appended, limits=limit)
    with open("/dev/full", "wb") as full:
        trials.expect("full output", PUT, 11, err=told.err, stdout=full)
        for line, whole, is_appended in jobs:
            fills(trials, "full output", [done], line, whole, is_appended, stdout=full)
    reader, writer = os.pipe()
    os.close(reader)
    trials.expect("no reader", PUT, 11, err=told.err, stdout=writer)
    os.close(writer)
    with open(images / "clone", "rb") as file:
        fills(trials, "input", [done], TAKE, restored, stdin=file)
    for cut, place in ((0, 0), (55, 50), (1000, 56), (4153, 4153)):
        for words in (TAKE, ["ntfsclone", "-rn"]):
            with concurrent.futures.ThreadPoolExecutor() as pool:
                reader, writer = os.pipe()
                run = pool.submit(fills, trials, f"input of {cut} bytes",
                                  [Done(9, b"", f"ntfsclone: bad clone image at byte {place}\n".encode())],
                                  words, restored, stdin=reader)
                for start in range(0, cut, 777):
                    os.write(writer, clone[start:min(start + 777, cut)])
                os.close(writer)
                run.result()
                os.close(reader)
    odd_files(trials, told)
    with concurrent.futures.ThreadPoolExecutor(8) as pool:
        ended = sorted(pool.map(lambda _: trials.run(SAVE), range(8)))
    present = Done(2, b"", b"ntfsclone: file exists: new\n")
    trials.check("side by side", ended == [done, *[present] * 7], ended)
    trials.check("side by side", (images / "new").read_bytes() == clone, "other bytes")
    (images / "new").unlink()
    tried(trials, clone, restored)


def odd_files(trials, told):
    """SOURCE and outputs that are no files, or can't be made."""
    images = trials.images
    (images / "folder2").mkdir()
    os.mkfifo(images / "pipe2")
    trials.keep()
    for name in ("folder2", "pipe2", "/dev/null", "/dev/zero", "/dev/full", "clone/below"):
        for line in (["-s", "-o", "new", name], ["-r", "-o", "new", name], ["-r", "-n", name], ["-s", name]):
            trials.expect(name, ["ntfsclone", *line], 10, err=fault(SAVE, "read"))
        for line in (["-s", "-O", name, "v0"], ["-O", name, "v0"], ["-r", "-O", name, "clone"]):
            trials.expect(name, ["ntfsclone", *line], 11, err=told.err)
        is_there = name != "clone/below"
        err = f"ntfsclone: file exists: {name}\n".encode() if is_there else told.err
        for line in (["-s", "-o", name, "v0"], ["-o", name, "v0"], ["-r", "-o", name, "clone"]):
            trials.expect(name, ["ntfsclone", *line], 2 if is_there else 11, err=err)
    if os.getuid() == 0:
        trials.expect("folder of others", SAVE, 11, err=told.err, user=NOBODY)
        trials.expect("file of others", ["ntfsclone", "-s", "-O", "clone", "v0"], 11, err=told.err, user=NOBODY)
        trials.expect("only readable", PUT, 0, cloned((images / "v0").read_bytes())[0], user=NOBODY)


def tried(trials, clone, restored):
    """The three files of ntfstrial, whose volume has 16,384 clusters, and what stands where one is there or too large."""
    images = trials.images
    names = ("new", "new.clone", "new.back")
    lines_put = ("made: 16384 clusters, 119 owned\n", "clone: 491966 bytes\n", "restored: 67109376 bytes\n")
    sizes = (16_385 * 4096, 491_966, 67_109_376)
    line = ["ntfstrial", "0", "new"]

    def ends(what, done, wanted, there):
        trials.check(what, done == wanted, f"{done!r:.300}, not {wanted!r:.300}")
        left = [(images / name).stat().st_size if (images / name).exists() else None for name in names]
        trials.check(what, left == there, f"left {left}")
        for name in names:
            (images / name).unlink(missing_ok=True)
        trials.unchanged(what)

    for count in range(3):
        (images / names[count]).touch()
        err = f"ntfstrial: file exists: {names[count]}\n".encode()
        there = [*sizes[:count], 0, *[None] * (2 - count)]
        ends(names[count], trials.run(line), Done(2, "".join(lines_put[:count]).encode(), err), there)
    ends("whole", trials.run(line), Done(0, "".join(lines_put).encode(), b""), list(sizes))
    told = Done(11, b"", b"ntfstrial: write fault\n")
    limit = [(resource.RLIMIT_FSIZE, sizes[0] - 1)]
    ends("files too large", trials.run(line, limits=limit), told, [0, None, None])
    with open("/dev/full", "wb") as full:
        ends("full output", trials.run(line, stdout=full), told, [sizes[0], None, None])
    ends("closed output", trials.run(line, closed=[1]), told, [sizes[0], None, None])




def closed(trials):
    """Standard streams that are closed, one by one and together."""
    for bits in range(8):
        gone = [number for number in range(3) if bits >> number & 1]
        what = f"closed {gone}"
        for line, out in SHOWN:
            err = b"" if 2 in gone or 1 not in gone else fault(line, "write")
            trials.expect(what, line, 11 if 1 in gone else 0, b"" if 1 in gone else out, err, closed=gone)
        err = b"" if 2 in gone else b"ntfscat: no such file: missing\n"
        trials.expect(what, ["ntfscat", "-i", "16", "missing"], 2, err=err, closed=gone)
        trials.expect(what, ["ntfscat", "-i", b"\xff", "plain"], 16, closed=gone)
        makes(trials, what, [Done(0, b"", b"")], closed=gone)


def outputs(trials):
    """Outputs that take nothing, go away or are slow."""
    with open("/dev/full", "wb") as full:
        for line, out in SHOWN:
            trials.expect("full output", line, 11, err=fault(line, "write"), stdout=full)
            trials.expect("full messages", line, 0, out, stderr=full)
        trials.expect("full messages", ["ntfsinfo"], 1, stderr=full)
        makes(trials, "full output", [Done(0, b"", b"")], stdout=full)
    for line, _ in SHOWN:
        for is_ignored in (True, False):
            reader, writer = os.pipe()
            os.close(reader)
            told = fault(line, "write")
            trials.expect("no reader", line, 11, err=told, stdout=writer, restore_signals=not is_ignored)
            os.close(writer)
    reader, writer = os.pipe()
    fcntl.fcntl(writer, fcntl.F_SETPIPE_SZ, 4096)
    with concurrent.futures.ThreadPoolExecutor() as pool:
        run = pool.submit(trials.run, LONG[0], stdout=writer)
        taken = os.read(reader, 10)
        os.close(reader)
        trials.check("reader that goes away", run.result() == Done(11, b"", fault(LONG[0], "write")), run.result())
        trials.check("reader that goes away", taken == LONG[1][:10], taken)
        os.close(writer)
        reader, writer = os.pipe()
        fcntl.fcntl(writer, fcntl.F_SETPIPE_SZ, 4096)
        run = pool.submit(trials.run, LONG[0], stdout=writer)
        time.sleep(0.2)
        os.close(writer)
        taken = b"".join(iter(lambda: os.read(reader, 777), b""))
        os.close(reader)
        is_whole = run.result().status == 0 and taken == LONG[1]
        trials.check("slow reader", is_whole, f"{run.result()}, {len(taken)} bytes")
    trials.unchanged("readers")


def files(trials):
    """Images that are no files, can't be read, or can only be read."""
    images = trials.images
    (images / "folder").mkdir()
    os.mkfifo(images / "pipe")
    (images / "empty").touch()
    (images / "link").symlink_to("plain")
    (images / "dangling").symlink_to("missing")
    shutil.copy(images / "plain", images / "unreadable")
    (images / "unreadable").chmod(0)
    (images / "plain").chmod(0o444)
    listener = socket.socket(socket.AF_UNIX)
    here = os.open(".", os.O_RDONLY)
    os.chdir(images)
    listener.bind("socket")
    os.fchdir(here)
    trials.keep()
    for name in ("folder", "pipe", "socket", "/dev/null", "/dev/zero", "/dev/full", "plain/below"):
        for line in (["ntfsinfo", "-m", name], ["ntfscat", "-i", "16", name]):
            trials.expect(name, line, 10, err=fault(line, "read"))
        is_there = name != "plain/below"
        told = f"ntfsmake: file exists: {name}\n" if is_there else "ntfsmake: write fault\n"
        trials.expect(name, ["ntfsmake", name, *MADE], 2 if is_there else 11, err=told.encode())
    trials.expect("empty", ["ntfsinfo", "-m", "empty"], 3, err=b"ntfsinfo: image has 0 bytes, needs 512\n")
    trials.expect("dangling", ["ntfsinfo", "-m", "dangling"], 2, err=b"ntfsinfo: no such file: dangling\n")
    trials.expect("dangling", ["ntfsmake", "dangling", *MADE], 2, err=b"ntfsmake: file exists: dangling\n")
    trials.expect("link", ["ntfsinfo", "-m", "link"], 0, INFO[1])
    for line, out in SHOWN:
        trials.expect("only readable", line, 0, out, user=NOBODY)
    trials.expect("unreadable", ["ntfsinfo", "-m", "unreadable"], 10, err=b"ntfsinfo: read fault\n", user=NOBODY)
    if os.getuid() == 0:
        trials.expect("folder of others", ["ntfsmake", "new", *MADE], 11, err=b"ntfsmake: write fault\n", user=NOBODY)
    (images / "plain").chmod(0o644)
    trials.keep()


def limits(trials):
    """Limits on files, on descriptors and on memory."""
    size = 1025 * 4096
    for most, wanted in ((0, 11), (1024, 11), (size - 1, 11), (size, 0), (size + 1, 0)):
        err = b"ntfsmake: write fault\n" if wanted else b""
        limit = [(resource.RLIMIT_FSIZE, most)]
        makes(trials, f"files of {most} bytes at most", [Done(wanted, b"", err)], limits=limit)
    for line, out in SHOWN:
        trials.expect("files of no bytes", line, 0, out, limits=[(resource.RLIMIT_FSIZE, 0)])
    with open(trials.folder / "shown", "wb") as file:
        done = trials.run(LONG[0], stdout=file, limits=[(resource.RLIMIT_FSIZE, 4096)])
        # Standard output is no file of the shelf: there the system ends the program.
        trials.check("output at the limit", done.status in (-signal.SIGXFSZ, 11), done)
        trials.unchanged("output at the limit")
    for most, gone, wanted in ((4, [], 0), (4, [0], 0), (3, [0], 10), (3, [1], 10), (3, [0, 1], 10)):
        limit = [(resource.RLIMIT_NOFILE, most)]
        out, err = (INFO[1], b"") if wanted == 0 else (b"", fault(INFO[0], "read"))
        trials.expect(f"{most} descriptors, {gone} closed", INFO[0], wanted, out, err, closed=gone, limits=limit)
    memory(trials)


def memory(trials):
    """Limits on memory: the work is done, or memory is wanting, which a message says from `run` on."""
    seen = set()
    for line, out in SHOWN:
        wanted = {Done(0, out, b""), Done(12, b"", b""), Done(12, b"", f"{line[0]}: no memory\n".encode())}
        for most in range(2 << 20, 6 << 20, 32 << 10):
            done = trials.run(line, limits=[(resource.RLIMIT_AS, most)])
            if done is None or done.status < 0 or done.status == 127:
                # The system didn't get so far as to start it.
                continue
            seen.add(done.status)
            trials.check(f"{most} bytes of memory", done in wanted, f"{line} ended with {done!r:.300}")
    trials.check("limits on memory", seen == {0, 12}, f"only the statuses {seen}")
    trials.unchanged("limits on memory")


def together(trials):
    """Runs side by side, and messages in one write each."""
    with concurrent.futures.ThreadPoolExecutor(16) as pool:
        for line, out in SHOWN:
            runs = list(pool.map(lambda _: trials.run(line), range(16)))
            trials.check("side by side", all(run == Done(0, out, b"") for run in runs), runs[0])
        makers = list(pool.map(lambda _: trials.run(["ntfsmake", "new", *MADE]), range(8)))
        present = Done(2, b"", b"ntfsmake: file exists: new\n")
        trials.check("side by side", sorted(makers) == [Done(0, b"", b""), *[present] * 7], makers)
        trials.check("side by side", (trials.images / "new").read_bytes() == reference(0, 1024, 4096), "other bytes")
        (trials.images / "new").unlink()
        names = [f"{number:02}" + "/./missing" * 400 for number in range(24)]
        with open(trials.folder / "messages", "ab") as file:
            list(pool.map(lambda name: trials.run(["ntfsinfo", "-m", name], stderr=file), names))
        told = sorted((trials.folder / "messages").read_text().splitlines())
        trials.check("messages side by side", told == [f"ntfsinfo: no such file: {name}" for name in names], told)
    # Each write to such a socket is one packet.
    for name in ("missing", "m" * 255, names[0]):
        ours, theirs = socket.socketpair(socket.AF_UNIX, socket.SOCK_SEQPACKET)
        trials.run(["ntfscat", "-i", "16", name], stderr=theirs)
        theirs.close()
        packets = list(iter(lambda: ours.recv(1 << 16), b""))
        trials.check("one write a line", packets == [f"ntfscat: no such file: {name}\n".encode()], packets)
        ours.close()
    trials.unchanged("side by side")


def sparse(trials):
    """An image of 96 GiB that is almost empty, with a stream far behind the first 4 GiB."""
    volume = Volume(4096, 24 << 20, 1 << 20, {16: Runs((((23 << 20) + 5, 3), (4, 1)), 4 * 4096 - 9, 4 * 4096 - 9)})
    build(trials.images / "sparse", volume)
    trials.keep()
    trials.expect("sparse", ["ntfsinfo", "-m", "sparse"], 0, info_of(volume))
    trials.expect("sparse", ["ntfscat", "-i", "16", "sparse"], 0, shown(volume, 16))
    (trials.images / "sparse").unlink()
    trials.keep()


def log_of(trials, line, **how):
    """The calls of a run: the name, what it is given, its count and its place."""
    log = trials.folder / "log"
    log.unlink(missing_ok=True)
    trials.run(line, env={**trials.shim, "LOG": str(log)}, **how)
    rows = [row.split() for row in log.read_text().splitlines()]
    return [(name, *map(int, numbers)) for name, *numbers in rows]


def calls(trials):
    """Single calls that are short, interrupted or refused, and which calls are made."""
    if shutil.which("gcc") is None:
        return print("calls: gcc isn't there, so no call is refused, shortened or noted")
    library = trials.folder / "interposed.so"
    subprocess.run(["gcc", "-O1", "-shared", "-fPIC", "-o", library, SHIM], check=True)
    trials.shim = {"LD_PRELOAD": str(library)}
    for kind in ({"MOST": "7"}, {"INTERRUPTED": "1"}, {"MOST": "1000", "INTERRUPTED": "1"}):
        env = {**trials.shim, **kind}
        for line, out in (INFO, SHORT, (["ntfscat", "-i", "17", "plain"], shown(PLAIN, 17))):
            trials.expect(f"{kind}", line, 0, out, env=env)
        trials.expect(f"{kind}", ["ntfsinfo", "-m", "missing"], 2, err=b"ntfsinfo: no such file: missing\n", env=env)
        makes(trials, f"{kind}", [Done(0, b"", b"")], env=env)
    for line, _ in SHOWN:
        made_calls = log_of(trials, line)
        opened = [row[1] for row in made_calls if row[0] == "open"]
        trials.check("opened for reading", set(opened) == {READS}, f"{line} opens {opened}")
        changes = [row for row in made_calls if row[0] in ("pwrite", "ftruncate")]
        trials.check("nothing is written", not changes, f"{line} makes {changes}")
    for number, read in ((19, []), (21, [370, 371]), (17, [20, 21, 22, 30, 31])):
        pieces = [row[2:] for row in log_of(trials, ["ntfscat", "-i", number, "plain"]) if row[0] == "pread"]
        cells = {cell for count, place in pieces for cell in range(place // 4096, -(-(place + count) // 4096))}
        cells = sorted(cell for cell in cells if cell >= 20)
        trials.check("only what is initialised is read", cells == read, f"stream {number}: {cells}")
    refused(trials)


def after(number):
    """Which call is refused next: each of the first, and some of the many behind them."""
    return number + 1 if number < 40 else number * 5 // 4


def refused(trials):
    """Single calls of the system refused: their fault comes, with a front of the output or of the writes."""
    for line, out in SHOWN:
        for call, status, kind in (("pread", 10, "read"), ("write", 11, "write"), ("open", 10, "read")):
            number = 1
            while (env := {**trials.shim, "REFUSED": f"{call}:{number}"}) and number < 2000:
                done = trials.run(line, env=env)
                if done == Done(0, out, b""):
                    break
                is_right = out.startswith(done.out) and done[::2] == (status, fault(line, kind))
                trials.check(f"{call} {number}", is_right, f"{line} ended with {done!r:.300}")
                number = after(number)
            trials.check(call, number > 1, f"{line} makes no such call")
            trials.unchanged(f"{call} refused")
    for call in ("open", "ftruncate", "pwrite"):
        number, status = 1, 11
        while status == 11 and number < 5000:
            env = {**trials.shim, "REFUSED": f"{call}:{number}"}
            wanted = [Done(11, b"", b"ntfsmake: write fault\n"), Done(0, b"", b"")]
            status = makes(trials, f"{call} {number}", wanted, env=env).status
            number = after(number)
        trials.check(call, number > 2, "ntfsmake makes no such call")
    clone, restored = cloned((trials.images / "v0").read_bytes())
    (trials.images / "clone").write_bytes(clone)
    trials.keep()
    for line, whole, is_appended in jobs_of(clone, restored):
        ends = [Done(0, b"", b""), Done(10, b"", fault(SAVE, "read")), Done(11, b"", fault(SAVE, "write"))]
        for kind in ({"MOST": "777"}, {"INTERRUPTED": "1"}, {"MOST": "1000", "INTERRUPTED": "1"}):
            fills(trials, f"{kind}", ends[:1], line, whole, is_appended, env={**trials.shim, **kind})
        for call in ("open", "pread", "ftruncate", "pwrite"):
            number, statuses = 1, []
            # SOURCE is opened once more where it can't be written, and where no limit is told there is none.
            while (not statuses or statuses[-1] != 0 or number < 6) and number < 5000:
                env = {**trials.shim, "REFUSED": f"{call}:{number}"}
                statuses.append(fills(trials, f"{call} {number}", ends, line, whole, is_appended, env=env).status)
                number = after(number)
            is_made = (call, is_appended) != ("ftruncate", True)
            trials.check(call, any(statuses) == is_made, f"{line} ends with {set(statuses)} where it is refused")
    wanting(trials)


def wanting(trials):
    """Allocations refused in turn. Before `run` memory is wanting without a message, and with one from there on."""
    (trials.images / "clone").write_bytes(cloned((trials.images / "v0").read_bytes())[0])
    trials.keep()
    for line, out in (*SHOWN, (["ntfsmake", "new", *MADE], b""), (SAVE, b""), (COPY, b""), (RESTORE, b"")):
        silent = (12, b"")
        told = (12, f"{line[0]}: no memory\n".encode())
        ends, number = [], 1
        while not ends or (ends[-1].status != 0 and number < 1 << 20):
            done = trials.run(line, env={**trials.shim, "REFUSED": f"malloc:{number}"})
            trials.check("allocations", out.startswith(done.out), f"{line} put {done.out!r:.300}")
            ends.append(done)
            (trials.images / "new").unlink(missing_ok=True)
            number = after(number)
        shown_ends = [end[::2] for end in ends]
        first = shown_ends.index(told) if told in shown_ends else 0
        is_right = first > 0 and shown_ends == [silent] * first + [told] * (len(ends) - 1 - first) + [(0, b"")]
        trials.check("allocations", is_right and ends[-1].out == out, f"{line} ended with {shown_ends}")
    trials.unchanged("allocations")


PARTS = (words, streams, names, made, closed, outputs, files, limits, together, sparse, clones, calls)


def main():
    parser = argparse.ArgumentParser()
    parser.add_argument("--program", type=pathlib.Path)
    parser.add_argument("parts", nargs="*", metavar="PART", help=", ".join(part.__name__ for part in PARTS))
    asked = parser.parse_args()
    chosen = [part for part in PARTS if not asked.parts or part.__name__ in asked.parts]
    program = asked.program or built_program()
    with tempfile.TemporaryDirectory() as folder:
        trials = Trials(program, pathlib.Path(folder))
        for part in chosen:
            before, wrong = trials.count, len(trials.wrong)
            part(trials)
            count = len(trials.wrong) - wrong
            print(f"{part.__name__}: {trials.count - before} comparisons, {count} wrong", flush=True)
    sys.exit(1 if trials.wrong or not chosen else 0)


if __name__ == "__main__":
    main()
