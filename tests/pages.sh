#!/bin/sh
# The examples of docs/BUILTINS.md, docs/COMMANDS.md and docs/TASKS.md: `moo-play` prints what each page says, by one worker and by three.
set -u
root=$(cd "$(dirname -- "$0")/.." && pwd) || exit 2
command -v python3 >/dev/null 2>&1 || { echo "tests/pages.sh: no python3 here, so no example is run" >&2; exit 0; }
# Built where it is old.
"$root/moo-play" --help >/dev/null || { echo "tests/pages.sh: the program does not run" >&2; exit 1; }
cd "$root" && python3 tests/pages.py ./moo-play docs/BUILTINS.md docs/COMMANDS.md docs/TASKS.md
