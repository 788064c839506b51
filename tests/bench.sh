#!/bin/sh
# Each group of the benchmarks once with small counts, on the programs as they were built: that they run, not what they measure.
set -u
root=$(cd "$(dirname -- "$0")/.." && pwd) || exit 2
command -v python3 >/dev/null 2>&1 || { echo "tests/bench.sh: no python3 here, so the benchmarks are not tried" >&2; exit 0; }
work=$(mktemp -d) || exit 2
trap 'rm -rf "$work"' EXIT
failures=0

fail() {
    echo "tests/bench.sh: $1" >&2
    failures=$((failures + 1))
}

# group NAME LINES: the group gives so many lines at least, each of its own.
group() {
    BENCH_SHORT=1 "$root/bench/run" "$1" >"$work/out" 2>"$work/errors"
    status=$?
    [ "$status" -eq 0 ] || fail "$1: status $status, told $(head -c 400 "$work/errors")"
    [ "$(grep -c "^$1: " "$work/out")" -ge "$2" ] || fail "$1: $(wc -l <"$work/out") lines"
}

group language 12
group world 9
group steps 19
group parse 71
group checkpoint 18
group worst 80
group telnet 6
group server 5
BENCH_SHORT=1 "$root/bench/run" nothing >"$work/out" 2>"$work/errors"
[ $? -eq 2 ] && grep -q '^bench: no group nothing; ' "$work/errors" || fail "a group that is none: told $(cat "$work/errors")"

[ "$failures" -eq 0 ]
