#!/bin/sh
# Source trees of the whole grammar, each spelled in the canonical way and in another: `verb_code` gives the canonical lines of both.
set -u
root=$(cd "$(dirname -- "$0")/.." && pwd) || exit 2
command -v python3 >/dev/null 2>&1 || { echo "tests/trees.sh: no python3 here, so no tree is made" >&2; exit 0; }
# Built where it is old; then it is run without its wrapper, which looks at every source.
"$root/moo-play" --help >/dev/null || { echo "tests/trees.sh: the program does not run" >&2; exit 1; }
python3 "$root/tests/trees.py" "$root/crates/moo_play/out/moo_play" || { echo "tests/trees.sh: trees come back otherwise" >&2; exit 1; }
