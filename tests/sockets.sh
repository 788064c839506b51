#!/bin/sh
# Telnet over sockets, by `moo-server` as it was built: what each byte of a client does, where links end, and that links do not mix.
set -u
root=$(cd "$(dirname -- "$0")/.." && pwd) || exit 2
command -v python3 >/dev/null 2>&1 || { echo "tests/sockets.sh: no python3 here, so no client connects" >&2; exit 0; }
# Built where it is old; then it is run without its wrapper, which looks at every source.
"$root/moo-server" --help >/dev/null || { echo "tests/sockets.sh: the program does not run" >&2; exit 1; }
python3 -B "$root/tests/sockets.py" "$root/crates/moo_daemon/out/moo_daemon"
