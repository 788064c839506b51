#!/bin/sh
# The clients that people use, on a terminal of their own each: they log in at `moo-server`, look, count and leave, and their screens show what is told.
# A client that is not here is told and passed over; nothing is installed.
set -u
root=$(cd "$(dirname -- "$0")/.." && pwd) || exit 2
command -v python3 >/dev/null 2>&1 || { echo "tests/terminals.sh: no python3 here, so no client connects" >&2; exit 0; }
# Built where they are old; then they are run without their wrappers, which look at every source.
for name in moo-play moo-server; do
    "$root/$name" --help >/dev/null || { echo "tests/terminals.sh: $name does not run" >&2; exit 1; }
done
work=$(mktemp -d) || exit 2
trap 'rm -rf "$work"' EXIT
trap 'exit 2' HUP INT TERM
python3 -B "$root/tests/terminals.py" "$root/crates/moo_daemon/out/moo_daemon" "$root/crates/moo_play/out/moo_play" "$work"
