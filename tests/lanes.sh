#!/bin/sh
# Long scripts over many rooms: what they print and the world that they leave are the same by every number of workers, and on one processor.
set -u
root=$(cd "$(dirname -- "$0")/.." && pwd) || exit 2
command -v python3 >/dev/null 2>&1 || { echo "tests/lanes.sh: no python3 here, so no script is made" >&2; exit 0; }
# Built where it is old; then it is run without its wrapper, which looks at every source.
"$root/moo-play" --help >/dev/null || { echo "tests/lanes.sh: the program does not run" >&2; exit 1; }
python3 "$root/tests/lanes.py" "$root/crates/moo_play/out/moo_play" || { echo "tests/lanes.sh: runs differ" >&2; exit 1; }
