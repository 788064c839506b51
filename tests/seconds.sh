#!/bin/sh
# The table of what each crate cost: `tests/seconds.py` over a stand-in for the gate, whose provers count for their crate and their kind of work.
set -u
root=$(cd "$(dirname -- "$0")/.." && pwd) || exit 2
work=$(mktemp -d) || exit 2
trap 'rm -rf "$work"' EXIT
failures=0

fail() {
    echo "tests/seconds.sh: $1" >&2
    failures=$((failures + 1))
}

# A prover is a shell of that name, which reads what it does from the file of its first word: it works for two seconds, or starts what does.
cp "$(readlink -f "$(command -v sh)")" "$work/rattle" || exit 2
cd "$work" || exit 2
cat >work <<'END'
end=$(($(date +%s) + 2))
while [ "$(date +%s)" -lt "$end" ]; do
    at=0
    while [ "$at" -lt 10000 ]; do at=$((at + 1)); done
done
END
cp work check
echo 'sh work' >build
{ echo './rattle build --crate-name low -o low.rlib &'; echo './rattle build --crate-name low --test -o low.o &'; } >gate
{ echo './rattle check --crate-name high --incremental kept &'; echo './rattle check --crate-name high -o high.o &'; } >>gate
echo 'wait; sh work; echo "2 passed, 1 failed"; exit 5' >>gate

python3 "$root/tests/seconds.py" table sh gate >out
status=$?
[ "$status" -eq 5 ] || fail "status $status"
echo '2 passed, 1 failed' | cmp -s - out || fail "printed $(cat out)"
# Whether some time was spent in each column, or none.
awk 'NR > 1 { print $1, ($2 > 0), ($3 > 0), ($4 > 0), ($5 > 0) }' table | sort >spent
printf 'all 1 1 1 1\nhigh 1 0 1 1\nlow 1 1 0 1\n' | cmp -s - spent || fail "the table is $(cat table)"

[ "$failures" -eq 0 ]
