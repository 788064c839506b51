#!/bin/sh
# Programs with what they print: the cases of tests/programs.txt, each in a run of its own, by one worker and by two.
set -u
root=$(cd "$(dirname -- "$0")/.." && pwd) || exit 2
work=$(mktemp -d) || exit 2
trap 'rm -rf "$work"' EXIT
failures=0

fail() {
    echo "tests/programs.sh: $1" >&2
    failures=$((failures + 1))
}

# Built where it is old; then it is run without its wrapper, which looks at every source.
"$root/moo-play" --help >/dev/null || { fail "the program does not run"; exit 1; }
play=$root/crates/moo_play/out/moo_play

# The scripts of the cases, one a file, with `.case` (its name), `.steps` (how many steps add its verbs, by Ben's link) and `.wanted`. Tasks of later
# lines are counted from the first step of the case on.
awk -v folder="$work/" '
    function quoted(text) { gsub(/[\\"]/, "\\\\&", text); return "\"" text "\"" }
    function add_verb() {
        if (verb == "") return
        print "line 2 ;add_verb(#3, {" owner ", " quoted(bits) ", " quoted(verb) "}, {\"none\", \"none\", \"none\"})" >name
        print "line 2 ;set_verb_code(#3, " quoted(verb) ", {" code "})" >name
        verb = ""
        steps += 2
    }
    function call() {
        add_verb()
        if (part != "verb") return
        print "line 1 try" >name
        print steps >(name ".steps")
    }
    function finish() {
        if (!count) return
        close(name); close(name ".case"); close(name ".steps"); close(name ".wanted")
    }
    /^#/ || /^$/ { next }
    /^case / {
        finish()
        name = folder sprintf("%04d", ++count)
        printf "key %064d\n", 0 >name
        print substr($0, 6) >(name ".case")
        steps = 0
        next
    }
    /^verb / { add_verb(); part = "verb"; verb = $2; owner = $3; bits = $4; code = ""; next }
    /^then$/ || /^prints$/ { call(); part = $0; next }
    !/^\t/ { print "line " NR " says nothing: " $0; exit 1 }
    { text = substr($0, 2) }
    part == "verb" { code = code (code == "" ? "" : ", ") quoted(text) }
    part == "then" { if (text ~ /^ready /) text = "ready " substr(text, 7) + 64 * steps; print text >name }
    part == "prints" { print text >(name ".wanted") }' "$root/tests/programs.txt" || { fail "the cases cannot be read"; exit 1; }

count=0
for wanted in "$work"/*.wanted; do
    script=${wanted%.wanted}
    read -r steps <"$script.steps"
    count=$((count + 1))
    for workers in 1 2; do
        "$play" fixture "$script" --workers "$workers" >"$work/out" 2>"$work/errors" || fail "$(cat "$script.case"): status $?, told $(cat "$work/errors")"
        awk -v steps="$steps" '
            $1 == "step" && $2 <= steps && $4 != ($2 % 2 ? "0" : "{}") { print "not added: " $0 }
            $1 == "step" { begun = $2 > steps; $2 -= steps }
            $1 == "+" { $2 -= 64 * steps }
            begun' "$work/out" >"$work/got"
        cmp -s "$wanted" "$work/got" || fail "$(cat "$script.case"), workers $workers:
$(diff "$wanted" "$work/got")"
    done
done
[ "$count" -ge 130 ] || fail "only $count cases"

[ "$failures" -eq 0 ]
