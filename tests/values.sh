#!/bin/sh
# Operators and functions of values: the rows of tests/values.txt, one after another, over a world that was written to a file and read again.
set -u
root=$(cd "$(dirname -- "$0")/.." && pwd) || exit 2
work=$(mktemp -d) || exit 2
trap 'rm -rf "$work"' EXIT

fail() {
    echo "tests/values.sh: $1" >&2
    exit 1
}

# Built where it is old; then it is run without its wrapper, which looks at every source.
"$root/moo-play" --help >/dev/null || fail "the program does not run"
play=$root/crates/moo_play/out/moo_play

# The script of the world, and that of the rows, with the rows in `calls` and what their steps are to give in `wanted`. A row's value is given in a list,
# since an error that was raised is given as it is.
awk -v folder="$work/" '
    function row(text, result) {
        print text >(folder "calls")
        print result >(folder "wanted")
        if (text ~ /;$/) { gsub(/[\\"]/, "\\\\&", text); text = "eval(\"" text "\")[2]" }
        print "line 1 ;`{" text "} ! ANY'"'"'" >(folder "rows")
    }
    # The row at `place` of a table of pairs: a right operand put where the question mark stands.
    function pair(place, text) {
        text = cell[1]
        at = index(text, "?")
        text = substr(text, 1, at - 1) operand[place] substr(text, at + 1)
        row(text, cell[place] ~ /^E_[A-Z]+$/ ? cell[place] : "{" cell[place] "}")
    }
    BEGIN { printf "key %064d\n", 0 >(folder "world"); printf "key %064d\n", 0 >(folder "rows") }
    /^#( |$)/ || /^$/ { if (part == "world" && /^$/) part = ""; next }
    /^world$/ { part = $0; next }
    part == "world" { print >(folder "world"); next }
    /^\? \| / { count = split($0, operand, / \| /); next }
    / \| / { if (split($0, cell, / \| /) != count) exit 1; for (place = 2; place <= count; place++) pair(place); next }
    at = index($0, " gives ") { row(substr($0, 1, at - 1), "{" substr($0, at + 7) "}"); next }
    at = index($0, " raises ") { row(substr($0, 1, at - 1), substr($0, at + 8)); next }
    { exit 1 }' "$root/tests/values.txt" || fail "the table cannot be read"

"$play" fixture "$work/world" --out "$work/file" >"$work/out" 2>"$work/errors" || fail "the world: status $?, told $(head -c 200 "$work/errors")"
grep -q '^step [0-9]* value ' "$work/out" && ! grep '^step ' "$work/out" | grep -v ' value ' || fail "the world is not made: $(grep "^step " "$work/out" | grep -v " value " | head -n 3)"
"$play" "$work/file" "$work/rows" >"$work/out" 2>"$work/errors" || fail "status $?, told $(head -c 200 "$work/errors")"
sed 's/^step [0-9]* value //; s/ ticks [0-9]*$//' "$work/out" >"$work/got"
count=$(($(wc -l <"$work/wanted")))
[ "$count" -ge 900 ] || fail "only $count rows"
cmp -s "$work/wanted" "$work/got" || fail "$(paste -d '\n' "$work/calls" "$work/wanted" "$work/got" | awk '
    NR % 3 == 1 { call = $0 }
    NR % 3 == 2 { wanted = $0 }
    NR % 3 == 0 && $0 != wanted { print call "\n    gave " substr($0, 1, 200) ", not " wanted }')"
