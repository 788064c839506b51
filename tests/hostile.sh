#!/bin/sh
# Texts that are long, deep or wrong at their end are answered in seconds by `moo-play`: scripts of 10 MB, and programs as long as a player can type them.
# A reader of scripts that takes time by the square of its text would take hours. (How fast such programs are read is measured by `./bench/run parse`.)
set -u
root=$(cd "$(dirname -- "$0")/.." && pwd) || exit 2
work=$(mktemp -d) || exit 2
trap 'rm -rf "$work"' EXIT
failures=0

# How many seconds a text may take.
limit=30

fail() {
    echo "tests/hostile.sh: $1" >&2
    failures=$((failures + 1))
}

# script NAME STATUS ERRORS LINES: a run of $work/script, what it tells and how many lines it prints.
script() {
    timeout "$limit" "$root/moo-play" fixture "$work/script" --workers 2 >"$work/out" 2>"$work/errors"
    status=$?
    [ "$status" -eq "$2" ] || fail "$1: status $status, not $2"
    printf '%b' "$3" | cmp -s - "$work/errors" || fail "$1: told $(head -c 200 "$work/errors")"
    [ "$(wc -l <"$work/out")" -eq "$4" ] || fail "$1: $(wc -l <"$work/out") lines"
}

# lines COUNT LINE: the key line, and then a line again and again.
lines() {
    printf 'key %064d\n' 0
    yes "$2" | head -n "$1"
}

lines 10000000 '' >"$work/script"
script "empty lines" 2 'moo-play: script: line 2: Word\n' 0
lines 1000000 'moment 1' >"$work/script"
script "moments" 0 '' 0
{ lines 1000000 'moment 1'; printf 'moment 01\n'; } >"$work/script"
script "moments and a wrong one" 2 'moo-play: script: line 1000002: Number\n' 0
{ printf 'key %064d\nmoment ' 0; head -c 10000000 /dev/zero | tr '\0' 9; printf '\n'; } >"$work/script"
script "a long moment" 0 '' 0
{ printf 'key %064d\nline ' 0; head -c 10000000 /dev/zero | tr '\0' 9; printf ' count\n'; } >"$work/script"
script "a long connection" 2 'moo-play: numbers\n' 0
{ printf 'key %064d\nline 1 ' 0; head -c 10000000 /dev/zero | tr '\0' a; printf '\n'; } >"$work/script"
script "a long text" 2 'moo-play: script: line 2: Text\n' 0
{ printf 'key %064d\n' 0; head -c 10000000 /dev/zero | tr '\0' ' '; printf '\n'; } >"$work/script"
script "spaces" 2 'moo-play: script: line 2: Word\n' 0
lines 2400 "line 1 $(printf '%04096d' 0)" >"$work/script"
script "the longest lines" 0 '' 4800
{ lines 600000 'line 1 count'; printf 'line 1 count'; } >"$work/script"
script "steps and no line end" 2 'moo-play: script: line 600002: Word\n' 0

# program NAME BEFORE MIDDLE AFTER: a player types a program of 60,000 characters, BEFORE again and again, MIDDLE, and AFTER as often; it is programmed, or its
# fault is told, and the next command is answered.
program() {
    {
        printf 'key %064d\nopen 3\nline 3 connect #2\nline 3 .program #3:sum\n' 0
        before=$2 middle=$3 after=$4 awk 'BEGIN {
            before = ENVIRON["before"]; after = ENVIRON["after"]; count = int(60000 / (length(before) + length(after)))
            for (i = 0; i < count; i++) printf "%s", before
            printf "%s", ENVIRON["middle"]
            for (i = 0; i < count; i++) printf "%s", after
            print ""
        }' | fold -w 4000 | sed 's/^/line 3 /'
        printf 'line 3 .\nline 1 count\n'
    } >"$work/script"
    timeout "$limit" "$root/moo-play" fixture "$work/script" >"$work/out" 2>"$work/errors"
    status=$?
    [ "$status" -eq 0 ] && [ ! -s "$work/errors" ] || fail "program of $1: status $status, told $(head -c 200 "$work/errors")"
    tail -n 1 "$work/out" | grep -q '^step [0-9]* value 1 ticks 5$' || fail "program of $1: $(tail -n 1 "$work/out" | head -c 200)"
    tail -n 2 "$work/out" | head -n 1 | grep -Eq '^> 3 (Verb programmed\.|Line [0-9]+: [A-Z][a-z ]+)$' || fail "program of $1: $(tail -n 2 "$work/out" | head -n 1 | head -c 200)"
}

program "open parentheses" '(' '' ''
program "parentheses" '(' 1 ')'
program "closed parentheses" '' '' ')'
program "a sum" '1+' '1;' ''
program "a sum without an end" '1+' '' ''
program "assignments" 'o.p=' '1;' ''
program "properties" '' 'o' '.p'
program "properties in parentheses" 'o.(' 1 ')'
program "statements" '1;' '' ''
program "statements and a wrong one" 'a;' '?' ''
program "empty statements" ';' '' ''
program "a name" 'a' ';' ''
program "digits" '1' ';' ''
program "minus signs" '-' '1;' ''
program "a text of backslashes" '' '"' '\\'
program "texts" '""+' '1;' ''
program "spaces" ' ' '1;' ' '
program "open brackets" 'a[' '' ''
program "brackets" 'a[' 1 ']'
program "lists" '{' '' '}'
program "open scatterings" '{a, ' '' ''
program "a list" '{' 1 ', 1'
program "calls" 'f(' '' ')'
program "calls of verbs" 'a:b(' '' ')'
program "conditions" '1 ? 2 | ' '3;' ''
program "catches" '`' 1 " ! ANY'"
program "branches" 'if (1) ' '' ' endif'
program "a chain of branches" 'if (1) ' '' ' elseif (1)'
program "loops without an end" 'while (1) ' '' ''
program "forks" 'fork (0) ' '' ' endfork'
program "leavings of no loop" 'break;' '' ''

[ "$failures" -eq 0 ]
