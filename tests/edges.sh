#!/bin/sh
# `moo-play` at its edges: words that are no text, its own name, output that fails, and the memory of a long script.
set -u
root=$(cd "$(dirname -- "$0")/.." && pwd) || exit 2
play=$root/moo-play
work=$(mktemp -d) || exit 2
trap 'rm -rf "$work"' EXIT
failures=0

fail() {
    echo "tests/edges.sh: $1" >&2
    failures=$((failures + 1))
}

run() {
    "$play" "$@" >"$work/out" 2>"$work/errors" </dev/null
    status=$?
}

# A word that is not UTF-8, as the world, the script and the number of workers.
no_text=$(printf 'a\377b')
run "$no_text" script
[ "$status" -eq 2 ] && [ ! -s "$work/out" ] && grep -q '^moo-play: cannot read ' "$work/errors" || fail "a world that is no text: status $status, told $(cat "$work/errors")"
run fixture "$no_text"
[ "$status" -eq 2 ] && [ ! -s "$work/out" ] && grep -q '^moo-play: cannot read ' "$work/errors" || fail "a script that is no text: status $status, told $(cat "$work/errors")"
run fixture stdin --workers "$no_text"
[ "$status" -eq 2 ] && [ ! -s "$work/out" ] && [ -s "$work/errors" ] || fail "workers that are no text: status $status, told $(cat "$work/errors")"

# The program's name is that of its wrapper.
run --help
cat "$work/out" >"$work/told"
run
cat "$work/errors" >>"$work/told"
grep -q 'moo-play' "$work/told" && ! grep -q 'moo_play' "$work/told" || fail "its name: $(cat "$work/told")"

# Help that cannot be written.
if [ -e /dev/full ]; then
    "$play" --help >/dev/full 2>/dev/null
    status=$?
    [ "$status" -eq 2 ] || fail "help to a full device: status $status"
fi

# A million lines, in less than 300 MB.
{
    printf 'key %064d\n' 0
    yes 'line 1 count' | head -n 1000000
} >"$work/long"
used=$(python3 - "$play" fixture "$work/long" --workers 2 <<'END'
import resource, subprocess, sys
with open("/dev/null", "w") as out:
    ran = subprocess.run(sys.argv[1:], stdout=out)
print(resource.getrusage(resource.RUSAGE_CHILDREN).ru_maxrss // 1024 if ran.returncode == 0 else f"status {ran.returncode}")
END
)
[ "$used" -lt 300 ] 2>/dev/null || fail "a million lines: $used MB"

[ "$failures" -eq 0 ]
