#!/bin/sh
# `moo-play` with each of its requests for memory refused in turn, by one worker and by two: each answer is that of ample memory, or the lines of the
# first steps, whole, with `stopped after C` on standard error and status 3. Needs a C compiler; without one it says so and passes.
set -u
root=$(cd "$(dirname -- "$0")/.." && pwd) || exit 2
for compiler in cc gcc clang none; do command -v "$compiler" >/dev/null 2>&1 && break; done
[ "$compiler" != none ] || { echo "tests/refused.sh: no C compiler here, so no memory is refused" >&2; exit 0; }
work=$(mktemp -d) || exit 2
trap 'rm -rf "$work"' EXIT
failures=0

fail() {
    echo "tests/refused.sh: $1" >&2
    failures=$((failures + 1))
}

"$compiler" -shared -fPIC -O2 -o "$work/refuse.so" "$root/tests/refuse.c" -ldl || exit 2
# Built where it is old; then it is run without its wrapper, whose own requests are not to be refused.
"$root/moo-play" --help >/dev/null || { fail "the program does not run"; exit 1; }
play=$root/crates/moo_play/out/moo_play

# Steps of all kinds, links that are not open, words that name no verb, long lines and a moment; faults of each kind; a file that is not there.
key="key $(printf '%064d' 0)"
{
    printf '%s\nline 1 count\nline 2 count\nline 9 count\nline 1 looks\nmoment 5\nline 2 ' "$key"
    printf '%0300d\n' 0
    printf 'line 1 COUNT\nopen 3\nline 3 connect #2\nline 1 hold\nline 2 ;resume(513, {1, "a"})\nready 513\nline 1 plot\nready 706\n'
    printf 'line 2 put "red ball" in box\nline 2 ;{1, 2}[0]\nline 1 ;add_verb(#3, {#2, "xd", "hum"}, {"this", "none", "this"})\n'
    printf 'line 1 ;set_verb_code(#3, "hum", {"return {verb, caller};"})\nline 2 ;{create(#3):hum(), tostr(random(6), #3.n)}\nclose 2\n'
} >"$work/steps"
printf '%s\nline 1 count\nlin 1 count\n' "$key" >"$work/word"
printf '%s\nline 01 count\n' "$key" >"$work/number"
printf '%s\nline 1 \001\n' "$key" >"$work/text"
printf '%s\nline 1 count\nline 0 count\n' "$key" >"$work/range"
printf 'line 1 count\n' >"$work/keyless"

# refuse N WORD..: a run with its request N refused (0: none). Leaves the status in $status, and the file `met` where there were so many requests.
refuse() {
    number=$1 && shift
    rm -f "$work/met"
    LD_PRELOAD=$work/refuse.so REFUSE=$number MET=$work/met "$play" "$@" >"$work/out" 2>"$work/errors" </dev/null
    status=$?
}

# first_steps C: the lines of the first so many steps of $work/all.
first_steps() {
    awk -v count="$1" '/^step / { inside = $2 <= count } inside' "$work/all"
}

# is_right: the last run answered as with ample memory, or stopped after some steps and printed just those.
is_right() {
    if [ "$status" -eq "$whole" ] && cmp -s "$work/all" "$work/out" && cmp -s "$work/told" "$work/errors"; then return 0; fi
    [ "$status" -eq 3 ] || return 1
    read -r line <"$work/errors" || return 1
    count=${line#stopped after }
    case $count in '' | *[!0-9]*) return 1 ;; esac
    printf 'stopped after %s\n' "$count" | cmp -s - "$work/errors" || return 1
    [ "$count" -le "$(grep -c '^step ' "$work/all")" ] || return 1
    first_steps "$count" | cmp -s - "$work/out"
}

# requests WORD..: how many requests a run makes.
requests() {
    low=0 && high=1
    refuse "$high" "$@"
    while [ -e "$work/met" ]; do
        low=$high && high=$((high * 2))
        refuse "$high" "$@"
    done
    while [ $((high - low)) -gt 1 ]; do
        middle=$(((low + high) / 2))
        refuse "$middle" "$@"
        if [ -e "$work/met" ]; then low=$middle; else high=$middle; fi
    done
    echo "$low"
}

# each FIRST NAME WORD..: each request of a run refused in turn from the first on, until one meets no refusal, which ends it well.
each() {
    at=$1 && what=$2 && shift 2
    refuse 0 "$@"
    whole=$status
    cp "$work/out" "$work/all" && cp "$work/errors" "$work/told" || exit 2
    while [ "$at" -le 100000 ]; do
        refuse "$at" "$@"
        is_right || fail "$what, request $at refused: status $status, printed $(head -c 200 "$work/out"), told $(head -c 200 "$work/errors")"
        [ "$failures" -lt 20 ] || { echo "tests/refused.sh: and so on" >&2; exit 1; }
        [ -e "$work/met" ] || return 0
        at=$((at + 1))
    done
    fail "$what: refusals without end"
}

# Every run makes the built-in world first: its requests are refused once, by the first run, and the others begin shortly before what they do with it.
made=$(($(requests fixture "$work/keyless") - 30))
[ "$made" -gt 1 ] || { fail "the built-in world takes no memory"; made=1; }
each 1 "steps by 1" fixture "$work/steps" --workers 1
each "$made" "steps by 2" fixture "$work/steps" --workers 2
for workers in 1 2; do
    each "$made" "an unknown word by $workers" fixture "$root/examples/unknown-word.script" --workers $workers
    for fault in word number text range keyless none; do
        each "$made" "the fault $fault by $workers" fixture "$work/$fault" --workers $workers
    done
done
each 1 "workers" fixture "$work/steps" --workers 65
each 1 "help" --help

[ "$failures" -eq 0 ]
