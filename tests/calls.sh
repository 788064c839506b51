#!/bin/sh
# Calls of built-in functions: the table of tests/calls.txt, by a wizard and by programmers without rights, and its scripts.
set -u
root=$(cd "$(dirname -- "$0")/.." && pwd) || exit 2
work=$(mktemp -d) || exit 2
trap 'rm -rf "$work"' EXIT
failures=0

fail() {
    echo "tests/calls.sh: $1" >&2
    failures=$((failures + 1))
}

# Built where it is old; then it is run without its wrapper, which looks at every source.
"$root/moo-play" --help >/dev/null || { fail "the program does not run"; exit 1; }
play=$root/crates/moo_play/out/moo_play

# The scripts of the table, one a file: of rows with a file `.rows` of their calls and `.wanted` of the results of their steps, the last ones; of others
# with `.wanted` of all that is printed. A row's value is given in a list, since an error that was raised is given as it is.
awk -v folder="$work/" '
    BEGIN { key = sprintf("key %064d\n", 0); before = 0; together = folder "together"; caller["Ann"] = "#4"; caller["Ben"] = "#5" }
    function row(call, result, text, name, number) {
        text = "`{" call "} ! ANY'"'"'"
        if (who in caller) text = "{set_task_perms(" caller[who] "), " text "}[2]"
        if (index(call, "{") == 1) { name = folder sprintf("row%04d", NR); number = 1 } else { name = together; number = ++rows }
        if (number == 1) printf "%s%s", key, world >name
        print "line 1 ;" text >name
        print who ": " call >(name ".rows")
        print "step " before + number " value " result >(name ".wanted")
        if (name != together) { close(name); close(name ".rows"); close(name ".wanted") }
    }
    /^# / && part != "script" && part != "prints" { next }
    /^$/ { if (part != "rows") part = ""; next }
    /^(world|prints)$/ { part = $0; next }
    /^script$/ { part = $0; close(name); close(name ".wanted"); name = folder sprintf("script%04d", NR); printf "%s", key >name; next }
    /^as / { part = "rows"; who = $2; next }
    part == "world" { world = world $0 "\n"; if (!/^moment /) before++; next }
    part == "script" { print >name; next }
    part == "prints" { print >(name ".wanted"); next }
    part == "rows" && (at = index($0, " gives ")) { row(substr($0, 1, at - 1), "{" substr($0, at + 7) "}"); next }
    part == "rows" && (at = index($0, " raises ")) { row(substr($0, 1, at - 1), substr($0, at + 8)); next }
    { print "line " NR " of the table says nothing: " $0; exit 1 }' "$root/tests/calls.txt" || { fail "the table cannot be read"; exit 1; }

rows=0
scripts=0
for wanted in "$work"/*.wanted; do
    script=${wanted%.wanted}
    "$play" fixture "$script" >"$work/out" 2>"$work/errors" || fail "status $?, told $(cat "$work/errors")"
    if [ -e "$script.rows" ]; then
        count=$(($(wc -l <"$wanted")))
        rows=$((rows + count))
        grep '^step ' "$work/out" | tail -n "$count" | sed 's/ ticks [0-9]*$//' >"$work/got"
        cmp -s "$wanted" "$work/got" || fail "$(paste -d '\n' "$script.rows" "$wanted" "$work/got" | awk 'NR % 3 == 1 { call = $0 } NR % 3 == 2 { wanted = $0 } NR % 3 == 0 && $0 != wanted { print call "\n    gave " $0 ", not " wanted }')"
    else
        scripts=$((scripts + 1))
        cmp -s "$wanted" "$work/out" || fail "of $(cat "$script") comes
$(diff "$wanted" "$work/out")"
    fi
done
[ "$rows" -ge 640 ] && [ "$scripts" -ge 33 ] || fail "only $rows rows and $scripts scripts"

[ "$failures" -eq 0 ]
