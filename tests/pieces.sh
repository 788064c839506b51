#!/bin/sh
# Worlds of which several threads read a piece each: they are written again as they were read, and the first fault of a damaged one is told at its line.
set -u
root=$(cd "$(dirname -- "$0")/.." && pwd) || exit 2
command -v python3 >/dev/null 2>&1 || { echo "tests/pieces.sh: no python3 here, so no world is made" >&2; exit 0; }
# Built where it is old; then it is run without its wrapper, which looks at every source.
"$root/moo-play" --help >/dev/null || { echo "tests/pieces.sh: the program does not run" >&2; exit 1; }
python3 "$root/tests/pieces.py" "$root/crates/moo_play/out/moo_play" || { echo "tests/pieces.sh: worlds are read otherwise" >&2; exit 1; }
