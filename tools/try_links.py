#!/usr/bin/env python3
"""Tries the built program under the names of tools: links of tools/links.sh, copies, and other names.

Called under a name whose last part is that of a tool, the program does what it does where that name is its first word.
Usage: tools/try_links.py [--program FILE]. It proves and builds the program first unless one is named, and ends with 1
where a run went otherwise. The repository is only read, but for the built program.
"""

import argparse
import os
import pathlib
import shutil
import subprocess
import sys
import tempfile

TOP = pathlib.Path(__file__).resolve().parent.parent
sys.path.insert(0, str(TOP / "bench"))

from measure import built_program  # noqa: E402

IMAGE = TOP / "crates" / "ntfsprogs" / "data" / "tiny.img"
TOOLS = ("ntfsinfo", "ntfsls", "ntfscat", "ntfscluster", "ntfsclone", "ntfsmake", "ntfstrial")
LINES = ([], ["-m", str(IMAGE)], ["-i", "0", str(IMAGE)], ["-m"], ["-x", "-y"], ["missing"], ["-i", "missing"],
         ["ntfsinfo", "-m", str(IMAGE)])


def run(program, words, own=None):
    """The status, the output and the messages of a run, where the program may be told another name of its own."""
    done = subprocess.run([own or program, *words], executable=program, capture_output=True, check=False, timeout=60)
    return done.returncode, done.stdout, done.stderr


def main():
    parser = argparse.ArgumentParser()
    parser.add_argument("--program", type=pathlib.Path)
    program = str((parser.parse_args().program or built_program()).resolve())
    count, wrong = 0, []

    def check(what, has, wanted):
        nonlocal count
        count += 1
        if has != wanted:
            wrong.append(what)
            print(f"wrong: {what}: {has!r:.300}, not {wanted!r:.300}", flush=True)

    with tempfile.TemporaryDirectory() as name:
        folder = pathlib.Path(name)
        links = [str(TOP / "tools" / "links.sh"), str(folder / "links"), program]
        for _ in range(2):
            subprocess.run(links, check=True)
        check("names of the links", sorted(os.listdir(folder / "links")), sorted(TOOLS))
        shutil.copy(program, folder / "ntfsinfo")
        shutil.copy(program, folder / "other")
        for words in LINES:
            for tool in TOOLS:
                wanted = run(program, [tool, *words])
                check(f"link {tool} {words}", run(str(folder / "links" / tool), words), wanted)
                for own in (tool, f"./{tool}", f"/a/b/{tool}"):
                    check(f"{own} {words}", run(program, words, own), wanted)
            check(f"copy {words}", run(str(folder / "ntfsinfo"), words), run(program, ["ntfsinfo", *words]))
            plain = run(program, words)
            for own in ("other", "", "/", "ntfsinfo.old", "ntfsinfo/other", "NTFSINFO", b"ntfsinfo\xff"):
                check(f"{own} {words}", run(str(folder / "other"), words, own), plain)
        os.unlink(folder / "links" / "ntfscat")
        (folder / "links" / "ntfscat").write_bytes(b"a file")
        done = subprocess.run(links, capture_output=True, check=False)
        check("a file in the way", done.returncode, 1)
        check("which stays", (folder / "links" / "ntfscat").read_bytes(), b"a file")
    print(f"{count} comparisons, {len(wrong)} wrong")
    sys.exit(1 if wrong else 0)


if __name__ == "__main__":
    main()
