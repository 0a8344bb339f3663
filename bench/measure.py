"""What the measures of this folder share."""

import contextlib
import pathlib
import re
import resource
import shutil
import struct
import subprocess
import tempfile
import time

TOP = pathlib.Path(__file__).resolve().parent.parent
CRATE = TOP / "crates" / "ntfsprogs"
ROUNDS = 5
RECORD = 1024
QUIET = {"check": True, "stdout": subprocess.DEVNULL, "stderr": subprocess.DEVNULL}


@contextlib.contextmanager
def crate_over(crates, name, program, uses=None, proofs=None):
    """The folder of a program over some crates of this repository, in a temporary folder beside copies of them.

    The crates are named lowest first. The program uses the last of them, or those that are named as such, and byteorder. `proofs`
    has the invariants of its functions by their names.
    """
    needs = {line.split(":")[0]: line for line in (TOP / "crates.txt").read_text().splitlines() if ":" in line}
    with tempfile.TemporaryDirectory() as folder:
        top = pathlib.Path(folder)
        for crate in crates:
            shutil.copytree(TOP / "crates" / crate, top / "crates" / crate, ignore=shutil.ignore_patterns("must-fail", "out"))
        own = top / "crates" / name
        files = {f"proofs/{function}/Invariants.antt": text for function, text in (proofs or {}).items()}
        for file, text in {"src/main.rt": program, **files}.items():
            (own / file).parent.mkdir(parents=True, exist_ok=True)
            (own / file).write_text(text)
        lines = [needs[crate] for crate in crates] + [f"{name}: {' '.join(uses or crates[-1:])} byteorder"]
        (top / "crates.txt").write_text("\n".join(lines) + "\n")
        yield own


@contextlib.contextmanager
def program_over(crates, name, program, uses=None, proofs=None, words=()):
    """The path of such a program, and the rounds that it printed when it ran with these words.

    `rt run` proves it, builds it by LLVM with all optimisation, and runs it. A round is a line of numbers that ends with `true`;
    one that ends with `false` stops the measure.
    """
    with crate_over(crates, name, program, uses, proofs) as own:
        command = ["rt", "run"] + (["--", *(str(word) for word in words)] if words else [])
        done = subprocess.run(command, cwd=own, capture_output=True, text=True)
        rounds = re.findall(r"^(\d+(?: \d+)*) (true|false)$", done.stdout, re.MULTILINE)
        if not rounds or any(right != "true" for _, right in rounds):
            raise SystemExit(done.stdout + done.stderr)
        yield own / "out" / name, [tuple(int(number) for number in numbers.split()) for numbers, _ in rounds]


def tried_over(crates, name, program, words, uses=None):
    """The lines that such a program prints with these words under `rt try`, which proves nothing, and stops at an index out of
    bounds, at a number that wraps and at wrong memory."""
    with crate_over(crates, name, program, uses) as own:
        command = ["rt", "try", "--seconds", "3600", "--", *(str(word) for word in words)]
        done = subprocess.run(command, cwd=own, capture_output=True, text=True)
        if done.returncode:
            raise SystemExit(done.stdout + done.stderr)
        return done.stdout.splitlines()


def rounds_of(*arguments, **named):
    """The rounds of such a program alone."""
    with program_over(*arguments, **named) as (_, rounds):
        return rounds


def peak(program, words):
    """The peak memory in KiB of a program with so many words."""
    done = subprocess.run(["/usr/bin/time", "-f", "%M", program] + words * ["word"], capture_output=True, text=True, check=True)
    return int(done.stderr.split()[-1])


def report(program, heading, rounds, plain, work):
    """Prints the least times of two steps, the second as a ratio to the first, and how much more memory the program takes with one
    word, where it does both, than with three, where it does the first alone. A step is its word in the past and its noun."""
    first, second = (min(line[i] for line in rounds) for i in (0, 1))
    print(f"{heading}, least of {len(rounds)} rounds")
    print(f"{plain[0]:9} {first:8} us")
    print(f"{work:9} {second:8} us, {second / max(first, 1):.2f} of {plain[1]}")
    if shutil.which("/usr/bin/time"):
        print(f"memory    {peak(program, 1) - peak(program, 3):8} KiB more than {plain[1]}")


def built_program():
    """The built program of this repository."""
    subprocess.run(["rt", "run", "--", "ntfsinfo", "-m", "data/tiny.img"], cwd=CRATE, check=True, capture_output=True)
    return CRATE / "out" / "ntfsprogs"


def least(words, output="/dev/null", ready=lambda: None):
    """The least time in seconds of a command over some rounds, with its output in a file. `ready` is called before each."""
    times = []
    for _ in range(ROUNDS):
        ready()
        with open(output, "wb") as file:
            start = time.perf_counter()
            subprocess.run([str(word) for word in words], stdout=file, stderr=subprocess.DEVNULL, check=True)
            times.append(time.perf_counter() - start)
    return min(times)


def spent_in_turn(commands, rounds, ready=lambda name: None):
    """The least time and the least processor time in seconds of some commands by their names. The commands are run in turn, so that
    what else the machine does falls on all of them. `ready` is called before each."""
    spent = {name: (float("inf"), float("inf")) for name in commands}
    for _ in range(rounds):
        for name, words in commands.items():
            ready(name)
            before, start = resource.getrusage(resource.RUSAGE_CHILDREN), time.perf_counter()
            subprocess.run([str(word) for word in words], **QUIET)
            wall, after = time.perf_counter() - start, resource.getrusage(resource.RUSAGE_CHILDREN)
            processor = after.ru_utime + after.ru_stime - before.ru_utime - before.ru_stime
            spent[name] = min(spent[name][0], wall), min(spent[name][1], processor)
    return spent


# ---- volumes

def write_sparse(path, image):
    """Writes bytes into a new file, with holes where a piece of 4,096 bytes is zeros."""
    with open(path, "wb") as file:
        file.truncate(len(image))
        for place in range(0, len(image), 4096):
            piece = image[place:place + 4096]
            if piece.count(0) < len(piece):
                file.seek(place)
                file.write(piece)


def refixed(block):
    """A record or an index block with its strides' last words saved in the array, and the array's number in their place."""
    block = bytearray(block)
    place, count = struct.unpack_from("<HH", block, 4)
    for stride in range(1, count):
        end = 512 * stride
        block[place + 2 * stride:place + 2 * stride + 2] = block[end - 2:end]
        block[end - 2:end] = block[place:place + 2]
    return bytes(block)


def unfixed(block):
    """The same with the saved words put back."""
    block = bytearray(block)
    place, count = struct.unpack_from("<HH", block, 4)
    for stride in range(1, count):
        block[512 * stride - 2:512 * stride] = block[place + 2 * stride:place + 2 * stride + 2]
    return bytes(block)


def data_of(cluster, clusters, size, pairs):
    """Unnamed data that isn't resident, in so many clusters, initialised whole."""
    length = (0x40 + len(pairs) + 7) // 8 * 8
    head = struct.pack("<IIBBHHHQQHH4xQQQ", 0x80, length, 1, 0, 0x40, 0, 0, 0, clusters - 1, 0x40, 0, clusters * cluster, size, size)
    return (head + pairs).ljust(length, b"\0")


def record_of(number, attributes):
    """A record in use of this number with these attributes."""
    used = 0x38 + len(attributes) + 8
    head = struct.pack("<4sHHQHHHHIIQHHI", b"FILE", 0x30, 3, 0, 1, 1, 0x38, 1, used, RECORD, 0, 1, 0, number)
    return refixed((head + struct.pack("<H6x", 1) + attributes + b"\xff\xff\xff\xff\0\0\0\0").ljust(RECORD, b"\0"))


def boot_of(cluster, clusters, table, mirror):
    """The boot sector of a volume of so many clusters of a size, with $MFT and its mirror at these."""
    sector = bytearray(512)
    sector[3:11] = b"NTFS    "
    struct.pack_into("<HB", sector, 0x0B, 512, cluster // 512)
    struct.pack_into("<QQQ", sector, 0x28, clusters * (cluster // 512), table, mirror)
    sector[0x40], sector[0x44] = 0xF6, 0xF4
    return bytes(sector)


def has_stock_tools():
    return all(shutil.which(tool) for tool in ("mkntfs", "ntfscp", "ntfsls", "ntfscat"))


def make_stock(volume, cluster, size, content, names):
    """A volume of the stock tools of this size, with files of these names, each with the content of a file."""
    stock_volume(volume, cluster, size)
    for name in names:
        subprocess.run(["ntfscp", "-q", "-f", volume, content, name], **QUIET)


def stock_number(volume, name):
    """The number of the record of a file in the root of a volume, as the stock tools see it."""
    listed = subprocess.run(["ntfsls", "-f", "-i", volume], check=True, stdout=subprocess.PIPE, text=True).stdout
    return next(row.split()[0] for row in listed.splitlines() if row.split()[1:] == [name])


@contextlib.contextmanager
def mounted(volume, options=""):
    """A folder in which the stock driver shows a volume, with options of its own. It needs ntfs-3g, and the right to mount."""
    with tempfile.TemporaryDirectory() as folder:
        subprocess.run(["ntfs-3g", *(["-o", options] if options else []), volume, folder], **QUIET)
        try:
            yield pathlib.Path(folder)
        finally:
            subprocess.run(["umount", folder], check=True)


def stock_volume(volume, cluster, size):
    """An empty volume of the stock mkntfs."""
    with open(volume, "wb") as file:
        file.truncate(size)
    subprocess.run(["mkntfs", "-q", "-F", "-Q", "-s", "512", "-c", str(cluster), volume], **QUIET)


def compare(heading, ours, stock):
    """Prints the least times of two commands, the first as a ratio to the second, and the peak memory of both. A command that
    fails has no time."""
    times = [timed(words) for words in (ours, stock)]
    ratio = f"{times[0] / times[1]:.2f} of stock" if all(times) else "not compared"
    peaks = [f"{peak_of(words)} KiB" if shutil.which("/usr/bin/time") else "-" for words in (ours, stock)]
    shown = [f"{1000 * each:.1f} ms" if each else "refused" for each in times]
    print(f"{heading:44} {shown[0]:>10} {peaks[0]:>11}   stock {shown[1]:>10} {peaks[1]:>11}   {ratio}", flush=True)


def timed(words):
    """The least time of a command, or nothing where it fails."""
    try:
        return least(words)
    except subprocess.CalledProcessError:
        return None


def calls_of(words):
    """How many system calls a command makes, with those of starting it, where strace is installed."""
    if shutil.which("strace") is None:
        return "not counted"
    with tempfile.NamedTemporaryFile() as log:
        subprocess.run(["strace", "-f", "-c", "-o", log.name, *(str(word) for word in words)], **QUIET)
        rows = pathlib.Path(log.name).read_text().splitlines()
    return next(row.split()[3] if len(row.split()) > 4 else row.split()[2] for row in rows if row.endswith("total"))


def peak_of(words):
    """The peak memory in KiB of a command."""
    done = subprocess.run(["/usr/bin/time", "-f", "%M", *(str(word) for word in words)], stdout=subprocess.DEVNULL, stderr=subprocess.PIPE, text=True)
    return int(done.stderr.split()[-1])
