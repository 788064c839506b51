#!/bin/sh
# Scripts with what they print: the cases of tests/scripts.txt, each by 1, 2, 3 and 64 workers, and long scripts.
set -u
root=$(cd "$(dirname -- "$0")/.." && pwd) || exit 2
work=$(mktemp -d) || exit 2
trap 'rm -rf "$work"' EXIT

fail() {
    echo "tests/scripts.sh: $1" >&2
    : >"$work/failed"
}

# Built where it is old; then it is run without its wrapper, which looks at every source.
"$root/moo-play" --help >/dev/null || { fail "the program does not run"; exit 1; }
play=$root/crates/moo_play/out/moo_play

# A folder for each case, with its `name`, and for each of its runs N `N.script`, `N.prints`, `N.errors` and `N.status`.
awk -v folder="$work/" '
    function next_run() {
        run = place "/" ++runs
        printf "key %064d\n", 0 >(run ".script")
        printf "" >(run ".prints")
        printf "" >(run ".errors")
        print 0 >(run ".status")
        part = "script"
    }
    function finish() { close(run ".script"); close(run ".prints"); close(run ".errors"); close(run ".status") }
    /^#/ || /^$/ { next }
    /^case / { finish(); place = folder sprintf("case%03d", ++count); system("mkdir " place); print substr($0, 6) >(place "/name"); close(place "/name"); runs = 0; next_run(); next }
    /^again$/ { finish(); next_run(); next }
    /^prints$/ || /^errors$/ { part = $0; next }
    /^status / { close(run ".status"); print $2 >(run ".status"); next }
    /^\t/ { print substr($0, 2) >(run "." part); next }
    { print "line " NR " says nothing: " $0; exit 1 }' "$root/tests/scripts.txt" || { fail "the cases cannot be read"; exit 1; }

# differs NAME WANTED GOT: tells where two files differ.
differs() {
    cmp -s "$2" "$3" || fail "$1:
$(diff "$2" "$3" | head -n 40)"
}

# runs CASE WORKERS: the runs of a case, each over the world that the one before left.
runs() {
    world=fixture
    steps=0
    for script in "$1"/*.script; do
        run=${script%.script}
        name="$(cat "$1/name"), run ${run##*/}, workers $2"
        left=$run.world$2
        "$play" "$world" "$script" --workers "$2" --out "$left" >"$1/out" 2>"$1/told"
        status=$?
        [ "$status" -eq "$(cat "$run.status")" ] || fail "$name: status $status"
        differs "$name" "$run.prints" "$1/out"
        differs "$name, errors" "$run.errors" "$1/told"
        [ "$status" -eq 0 ] || return
        steps=$((steps + $(grep -c '^step ' "$run.prints")))
        [ "$(sed -n 2p "$left")" = "next $((steps + 1))" ] || fail "$name: $(sed -n 2p "$left") after $steps steps"
        cmp -s "$run.world1" "$left" || fail "$name: another world is left"
        world=$left
    done
}

# Every so manieth case from this one on.
lane() {
    at=0
    for case in "$work"/case*; do
        [ "$((at % lanes))" -ne "$1" ] || for workers in 1 2 3 64; do runs "$case" "$workers"; done
        at=$((at + 1))
    done
}

lanes=$(nproc 2>/dev/null || echo 2)
for number in $(seq 0 $((lanes - 1))); do lane "$number" & done
wait
count=$(ls -d "$work"/case* | wc -l)
[ "$count" -ge 60 ] || fail "only $count cases"

# ---- long scripts

# long NAME WORKERS..: $work/long prints $work/wanted by each number of workers.
long() {
    name=$1 && shift
    for workers in "$@"; do
        "$play" fixture "$work/long" --workers "$workers" >"$work/out" 2>"$work/errors" || fail "$name, workers $workers: status $?, told $(head -c 200 "$work/errors")"
        differs "$name, workers $workers" "$work/wanted" "$work/out"
    done
}

# A thousand counts, by two players in turn.
awk 'BEGIN { printf "key %064d\n", 0; for (step = 1; step <= 1000; step++) print "line " 2 - step % 2 " count" }' >"$work/long"
awk 'BEGIN { for (step = 1; step <= 1000; step++) print "step " step " value " step " ticks 5" }' >"$work/wanted"
long "a thousand counts" 1 2 3 63 64

# A thousand steps: verbs that call themselves, fork, wait, roll and count, and their tasks. Every number of workers prints what one does.
awk 'BEGIN {
    printf "key %064d\n", 0
    print "line 1 ;add_verb(#3, {#2, \"xd\", \"rec\"}, {\"none\", \"none\", \"none\"})"
    print "line 1 ;set_verb_code(#3, \"rec\", {\"return this:rec();\"})"
    for (round = 0; round < 111; round++) {
        print "line 1 rec\nline 2 count\nline 1 dice\nline 2 plot\nline 1 storm\nline 2 hold\nline 1 ;suspend(0)\nline 2 count"
        print "ready " (round * 9 + 5) * 64 + 2
    }
}' >"$work/long"
"$play" fixture "$work/long" >"$work/wanted" 2>"$work/errors" || fail "a thousand steps: status $?, told $(head -c 200 "$work/errors")"
[ "$(grep -c '^step ' "$work/wanted")" -eq 1001 ] || fail "a thousand steps: $(grep -c '^step ' "$work/wanted")"
long "a thousand steps" 2 64

[ ! -e "$work/failed" ]
