#!/bin/sh
# Texts of programs with their canonical lines or their fault: the rows of tests/syntax.txt, one after another.
set -u
root=$(cd "$(dirname -- "$0")/.." && pwd) || exit 2
work=$(mktemp -d) || exit 2
trap 'rm -rf "$work"' EXIT

fail() {
    echo "tests/syntax.sh: $1" >&2
    exit 1
}

# Built where it is old; then it is run without its wrapper, which looks at every source.
"$root/moo-play" --help >/dev/null || fail "the program does not run"
play=$root/crates/moo_play/out/moo_play

# The script, and for each of its steps the line of the table in `lines` and what it is to give in `wanted`.
awk -v folder="$work/" '
    function quoted(text) { gsub(/[\\"]/, "\\\\&", text); return "\"" text "\"" }
    function step(text, result) { print "line 1 ;" text >(folder "script"); print result >(folder "wanted"); print "line " begun >(folder "lines") }
    function add(list) { return list == "" ? quoted(substr($0, 2)) : list ", " quoted(substr($0, 2)) }
    # A text that was read is spelled so, and the lines with which it is spelled are too.
    function finish() {
        if (part == "spells") {
            step("set_verb_code(#3, \"sum\", " source ")", "{}")
            step("verb_code(#3, \"sum\")", "{" spelled "}")
            step("set_verb_code(#3, \"sum\", {" spelled "})", "{}")
            step("verb_code(#3, \"sum\")", "{" spelled "}")
            before = "{" spelled "}"
        }
        part = spelled = ""
    }
    BEGIN {
        printf "key %064d\n", 0 >(folder "script")
        begun = 1
        step("add_verb(#3, {#2, \"xd\", \"times\"}, {\"this\", \"none\", \"this\"})", "0")
        step("set_verb_code(#3, \"times\", {\"{n, text} = args;\", \"s = text;\", \"while (2 * length(s) <= n * length(text))\", \"s = s + s;\", \"endwhile\", \"return s + s[1..n * length(text) - length(s)];\"})", "{}")
        step("add_verb(#3, {#2, \"xd\", \"lines\"}, {\"this\", \"none\", \"this\"})", "0")
        step("set_verb_code(#3, \"lines\", {\"l = {};\", \"for i in [1..args[1]]\", \"l = {@l, args[2]};\", \"endfor\", \"return l;\"})", "{}")
        before = "{\"return 1 + 2 * 3;\"}"
    }
    /^#/ || /^$/ { next }
    /^text$/ { finish(); begun = NR; part = $0; source = ""; next }
    /^built / { finish(); begun = NR; part = "built"; built = substr($0, 7); next }
    /^spells$/ { source = part == "built" ? built : "{" source "}"; part = $0; next }
    /^faults / {
        step("set_verb_code(#3, \"sum\", " (part == "built" ? built : "{" source "}") ")", "{\"" substr($0, 8) "\"}")
        step("verb_code(#3, \"sum\")", before)
        part = ""
        next
    }
    /^\t/ && part == "text" { source = add(source); next }
    /^\t/ && part == "spells" { spelled = add(spelled); next }
    { print "line " NR " of the table says nothing: " $0; exit 1 }
    END { finish() }' "$root/tests/syntax.txt" || fail "the table cannot be read"

"$play" fixture "$work/script" >"$work/out" 2>"$work/errors" || fail "status $?, told $(head -c 200 "$work/errors")"
sed 's/^step [0-9]* value //; s/ ticks [0-9]*$//' "$work/out" >"$work/got"
count=$(sort -u "$work/lines" | grep -cvx "line 1")
[ "$count" -ge 160 ] || fail "only $count texts"
cmp -s "$work/wanted" "$work/got" || fail "$(paste -d '\n' "$work/lines" "$work/wanted" "$work/got" | awk '
    NR % 3 == 1 { line = $0 }
    NR % 3 == 2 { wanted = $0 }
    NR % 3 == 0 && $0 != wanted { print "tests/syntax.txt, " line "\n    gave " substr($0, 1, 200) "\n    not  " substr(wanted, 1, 200) }')"
