#!/bin/sh
# Makes links to the program in a folder, each by the name of a tool: called by one, the program is that tool.
# Usage: tools/links.sh FOLDER [PROGRAM]. It makes the folder where there is none, and replaces links of these names,
# but no other files.
set -eu

if [ $# -lt 1 ] || [ $# -gt 2 ]; then
    echo "usage: $0 FOLDER [PROGRAM]" >&2
    exit 1
fi
top=$(cd "$(dirname "$0")/.." && pwd)
program=$(realpath -- "${2:-$top/crates/ntfsprogs/out/ntfsprogs}")
if [ ! -x "$program" ]; then
    echo "$0: no program: $program" >&2
    exit 1
fi
mkdir -p -- "$1"
for tool in ntfsinfo ntfsls ntfscat ntfscluster ntfsclone ntfsmake ntfstrial; do
    link=$1/$tool
    if [ -e "$link" ] && [ ! -L "$link" ]; then
        echo "$0: file exists: $link" >&2
        exit 1
    fi
    ln -sfn -- "$program" "$link"
done
