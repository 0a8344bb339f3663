#!/usr/bin/env python3
"""Runs every example of README.md and docs/MANUAL.md, and compares what it prints with what stands there.

An example is an indented block that begins with a line `$ COMMAND`; the lines below are what the command prints, on standard
output and standard error alike. The blocks of one document run in order, by `sh`, in one temporary folder, with `ntfsprogs` and a
link for each tool in the path. `tools/examples.py [--write] [PROGRAM]`: the program is `crates/ntfsprogs/out/ntfsprogs` where none
is named; with `--write` the documents get what was printed.
"""

import os
import pathlib
import subprocess
import sys
import tempfile

TOP = pathlib.Path(__file__).resolve().parent.parent
DOCUMENTS = ["README.md", "docs/MANUAL.md"]
INDENT = "    "


def pieces_of(text):
    """The text as lines that stand as they are, and examples: a command and the lines of its output."""
    pieces = []
    for line in text.splitlines():
        if line.startswith(INDENT + "$ "):
            pieces.append((line, []))
        elif line.startswith(INDENT) and pieces and isinstance(pieces[-1], tuple):
            pieces[-1][1].append(line[len(INDENT):])
        else:
            pieces.append(line)
    return pieces


def printed_by(command, folder, path):
    """What a command prints in a folder, on both streams, line by line."""
    done = subprocess.run(["sh", "-c", command], cwd=folder, stdout=subprocess.PIPE, stderr=subprocess.STDOUT,
                          env={**os.environ, "PATH": f"{path}:{os.environ['PATH']}"}, timeout=60)
    return done.stdout.decode("utf-8", "replace").splitlines()


def tried(document, links):
    """The document's text with what its examples printed, how many there are, and which differ."""
    text = (TOP / document).read_text()
    lines, count, differ = [], 0, []
    with tempfile.TemporaryDirectory() as folder:
        for piece in pieces_of(text):
            if isinstance(piece, str):
                lines.append(piece)
                continue
            command, expected = piece
            got = printed_by(command[len(INDENT) + 2:], folder, links)
            count += 1
            if got != expected:
                differ.append((command, expected, got))
            lines += [command] + [(INDENT + line).rstrip() for line in got]
    return "\n".join(lines) + "\n", count, differ


def main():
    words = [word for word in sys.argv[1:] if word != "--write"]
    program = pathlib.Path(words[0] if words else TOP / "crates" / "ntfsprogs" / "out" / "ntfsprogs").resolve()
    wrong = 0
    with tempfile.TemporaryDirectory() as links:
        (pathlib.Path(links) / "ntfsprogs").symlink_to(program)
        subprocess.run([TOP / "tools" / "links.sh", links, program], check=True)
        for document in DOCUMENTS:
            text, count, differ = tried(document, links)
            for command, expected, got in differ:
                print(f"{document}: {command.strip()}\n  stands: {expected}\n  prints: {got}")
            wrong += len(differ)
            print(f"{document}: {count} examples, {len(differ)} differ")
            if "--write" in sys.argv:
                (TOP / document).write_text(text)
    sys.exit(1 if wrong and "--write" not in sys.argv else 0)


if __name__ == "__main__":
    main()
