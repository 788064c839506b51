#!/bin/sh
# `moo-server` on worlds in files: it goes on from what `moo-play` wrote, writes what it is asked for while it goes on and at its end, and says what it
# cannot read or write.
set -u
root=$(cd "$(dirname -- "$0")/.." && pwd) || exit 2
command -v python3 >/dev/null 2>&1 || { echo "tests/files.sh: no python3 here, so no client connects" >&2; exit 0; }
# Built where they are old; then they are run without their wrappers, which look at every source.
for name in moo-play moo-server; do
    "$root/$name" --help >/dev/null || { echo "tests/files.sh: $name does not run" >&2; exit 1; }
done
work=$(mktemp -d) || exit 2
trap 'rm -rf "$work"' EXIT
trap 'exit 2' HUP INT TERM
python3 -B "$root/tests/files.py" "$root/crates/moo_daemon/out/moo_daemon" "$root/crates/moo_play/out/moo_play" "$work"
