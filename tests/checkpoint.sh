#!/bin/sh
# Worlds in files, by `moo-play` as it was built: out and in again, tasks that wait, damaged files, files that cannot be read or written, and what a
# stop in the middle leaves.
set -u
root=$(cd "$(dirname -- "$0")/.." && pwd) || exit 2
work=$(mktemp -d) || exit 2
trap 'rm -rf "$work"' EXIT
failures=0

fail() {
    echo "tests/checkpoint.sh: $1" >&2
    failures=$((failures + 1))
}

# Built where it is old; then it is run without its wrapper, which looks at every source.
"$root/moo-play" --help >/dev/null || { fail "the program does not run"; exit 1; }
play=$root/crates/moo_play/out/moo_play

# wants NAME STATUS OUT ERRORS, after a run that left $work/out, $work/errors and the status in $status
wants() {
    [ "$status" -eq "$2" ] || fail "$1: status $status, not $2"
    printf '%b' "$3" | cmp -s - "$work/out" || fail "$1: another output: $(head -c 200 "$work/out")"
    printf '%b' "$4" | cmp -s - "$work/errors" || fail "$1: another error: $(head -c 200 "$work/errors")"
}

run() {
    "$play" "$@" >"$work/out" 2>"$work/errors" </dev/null
    status=$?
}

# script NAME LINE..: a script of these lines.
script() {
    name=$1 && shift
    { printf 'key %064d\n' 0; for line in "$@"; do printf '%s\n' "$line"; done; } >"$work/$name"
}

script none
script hold 'line 1 hold'
script wake 'line 1 wake'
script ready 'ready 1'
script count 'line 1 count'

# ---- out and in again

run fixture "$work/none" --out "$work/fixture"
wants "the fixture" 0 '' ''
[ "$(head -n 2 "$work/fixture")" = "$(printf 'MOO-CHECKPOINT 1\nnext 1')" ] || fail "the fixture begins $(head -n 2 "$work/fixture")"
[ "$(tail -n 1 "$work/fixture")" = end ] || fail "the fixture ends $(tail -n 1 "$work/fixture")"
run "$work/fixture" "$work/none" --out "$work/again"
wants "the fixture again" 0 '' ''
cmp -s "$work/fixture" "$work/again" || fail "the fixture is another text when it was read"
[ "$(ls "$work" | grep -c '\.new')" -eq 0 ] || fail "a file was left beside: $(ls "$work")"

# A task that waits in the middle of a list expression goes on through files, by one worker and by two.
for workers in 1 2; do
    run fixture "$work/hold" --out "$work/held" --workers $workers
    wants "hold" 0 'step 1 suspended ticks 1\n+ 1 never\n' ''
    run "$work/held" "$work/none" --out "$work/again"
    cmp -s "$work/held" "$work/again" || fail "a world with a task that waits is another text when it was read"
    # FILE is WORLD.
    run "$work/again" "$work/wake" --out "$work/again" --workers $workers
    wants "wake" 0 'step 2 value 0 ticks 2\n' ''
    run "$work/again" "$work/ready" --out "$work/woken" --workers $workers
    wants "ready" 0 'step 3 value {1, 5, 3} ticks 2\n' ''
done

# What a file has is what the world would be.
script both 'line 1 count' 'line 2 count'
run fixture "$work/both" --out "$work/counted"
run fixture "$work/count" --out "$work/once"
script second 'line 2 count'
run "$work/once" "$work/second" --out "$work/twice"
wants "the second count" 0 'step 2 value 2 ticks 5\n' ''
cmp -s "$work/counted" "$work/twice" || fail "two counts through a file are not two counts"

# The world with nothing in it.
printf 'MOO-CHECKPOINT 1\nnext 1\ngreatest -1\nending 0\nlinks 0\nobjects 0\ntasks 0\nend\n' >"$work/empty"
[ "$(wc -c <"$work/empty")" -eq 75 ] || fail "the empty world has $(wc -c <"$work/empty") bytes"
run "$work/empty" "$work/none" --out "$work/again"
wants "the empty world" 0 '' ''
cmp -s "$work/empty" "$work/again" || fail "the empty world is another text when it was read"

# A world with a player, somebody who has not logged in, and a task that waits inside a loop.
run "$root/tests/small.world" "$work/none" --out "$work/again"
wants "a small world" 0 '' ''
cmp -s "$root/tests/small.world" "$work/again" || fail "a small world is another text when it was read"

# Two objects of 20,000 properties, whose names do not come in the order of their letters.
awk -v count=20000 '
    $1 == "defines" && !done { printf "defines {"; for (at = 1; at <= count; at++) printf "%s\"p%d\"", (at > 1 ? ", " : ""), at; print "}"; done = 1; next }
    $1 == "slots" { print "slots " count; next }
    $1 == "slot" { for (at = 1; at <= count; at++) print; next }
    { print }' "$root/tests/small.world" >"$work/wide"
begun=$(date +%s)
run "$work/wide" "$work/none" --out "$work/again"
wants "a wide world" 0 '' ''
cmp -s "$work/wide" "$work/again" || fail "a wide world is another text when it was read"
[ $(($(date +%s) - begun)) -le 20 ] || fail "a wide world took $(($(date +%s) - begun)) seconds"

# ---- damaged

# damaged NAME TEXT FAULT
damaged() {
    printf '%b' "$2" >"$work/damaged"
    run "$work/damaged" "$work/none" --out "$work/never"
    wants "$1" 2 '' "moo-play: world: $3\n"
    [ ! -e "$work/never" ] || fail "$1: a file was written"
}
damaged "a needless zero" 'MOO-CHECKPOINT 1\nnext 01\n' 'line 2: Number'
damaged "no last line" "$(head -n 7 "$work/empty")\\n" 'line 8: Ended'
damaged "a line behind the last" "$(cat "$work/empty")\\nx\\n" 'line 9: Line'
damaged "another first line" 'MOO-CHECKPOINT 2\n' 'line 1: Header'
damaged "no text" '' 'line 1: Ended'
damaged "two spaces" 'MOO-CHECKPOINT 1\nnext  1\n' 'line 2: Line'
damaged "a least number" 'MOO-CHECKPOINT 1\nnext 1\ngreatest -2\n' 'line 3: Number'
begun='MOO-CHECKPOINT 1\nnext 1\ngreatest -1\nending 0\n'
damaged "many objects" "${begun}links 0\\nobjects 99999999999\\n" 'line 7: Ended'
damaged "a link without a number" "${begun}links 1\\nlink 0 #1 {\\n" 'line 6: Number'
damaged "a link that programs nothing" "${begun}links 1\\nlink 1 #1 {\\n" 'line 6: Value'
damaged "a link of nobody" "${begun}links 1\\nlink 1 #1 0\\nobjects 0\\ntasks 0\\nend\\n" 'line 9: World'

# valued NAME [FAULT]: what stands on standard input, where the small world has a property's value, is told as this fault, or as no value.
valued() {
    { head -n "$((line - 1))" "$small"; printf 'slot #0 rc '; cat; tail -n "+$((line + 1))" "$small"; } >"$work/damaged"
    run "$work/damaged" "$work/none"
    wants "$1 as a value" 2 '' "moo-play: world: line $line: ${2:-Value}\n"
}
small=$root/tests/small.world
line=$(grep -n '^slot #0 rc ' "$small" | cut -d : -f 1)
for value in 007 -0 '{1,2}' '{1, 2 }' 2147483648 E_NO '"a' '{1, }'; do
    printf '%s\n' "$value" | valued "$value"
done
# A space outside a text and a list is one field more.
for value in ' 1' '# 1'; do
    printf '%s\n' "$value" | valued "$value" Line
done
# braces OPEN CLOSED: so many opening braces, and so many closing ones.
braces() {
    head -c "$1" /dev/zero | tr '\0' '{'
    head -c "$2" /dev/zero | tr '\0' '}'
    echo
}
braces 100001 100001 | valued "100,001 braces"
braces 10000000 0 | valued "10,000,000 open braces"
braces 5000000 5000000 | valued "5,000,000 braces"
head -n -1 "$work/fixture" >"$work/damaged"
lines=$(wc -l <"$work/fixture")
run "$work/damaged" "$work/none"
wants "the fixture without its last line" 2 '' "moo-play: world: line $lines: Ended\n"

# Every byte of two small worlds and of one with a task that waits altered in turn, and each of their beginnings: refused with a line, or its own text.
if command -v python3 >/dev/null 2>&1; then
    python3 - "$play" "$work" "$small" <<'END' || fail "damaged worlds"
import os, re, subprocess, sys, threading
play, work, small = sys.argv[1:]

def texts():
    """Names of worlds that are altered, with their texts, and whether they are proper beginnings."""
    for file, changes in ((small, (1, 16)), (f"{work}/empty", (1,)), (f"{work}/held", (1, 16, 64))):
        with open(file, "rb") as it:
            whole = it.read()
        for at in range(len(whole)):
            yield f"{file}, the first {at} bytes", whole[:at], True
            for change in changes:
                yield f"{file}, byte {at} changed by {change}", whole[:at] + bytes([whole[at] ^ change]) + whole[at + 1:], False

def fault(text, is_beginning, place):
    """What is wrong with the answer to a text, or none."""
    with open(place, "wb") as it:
        it.write(text)
    done = subprocess.run([play, place, f"{work}/none", "--out", f"{place}.out"], capture_output=True)
    if done.returncode == 2 and re.fullmatch(rb"moo-play: world: line [1-9][0-9]*: [A-Z][a-z]+\n", done.stderr):
        return None
    if done.returncode == 0 and not is_beginning:
        with open(f"{place}.out", "rb") as it:
            # A server that was to end is not any more.
            if it.read() == text.replace(b"\nending 1\n", b"\nending 0\n", 1):
                return None
    return f"status {done.returncode}, told {done.stderr[:200]!r}"

def work_off(place):
    while True:
        with lock:
            name, text, is_beginning = next(waiting, (None, None, None))
        if name is None:
            return
        wrong = fault(text, is_beginning, place)
        if wrong:
            bad.append(f"tests/checkpoint.sh: {name}: {wrong}")

waiting, lock, bad = iter(list(texts())), threading.Lock(), []
threads = [threading.Thread(target=work_off, args=(f"{work}/altered{number}",)) for number in range(os.cpu_count() or 1)]
for thread in threads:
    thread.start()
for thread in threads:
    thread.join()
for text in bad[:20]:
    print(text, file=sys.stderr)
sys.exit(1 if bad else 0)
END
fi

# ---- what cannot be read or written

run "$work" "$work/none"
wants "a folder as a world" 2 '' "moo-play: cannot read $work\n"
run "$work/absent" "$work/absent"
wants "no such world" 2 '' "moo-play: cannot read $work/absent\n"
run "$work/none" "$work/absent"
wants "a faulty world before a script" 2 '' 'moo-play: world: line 1: Header\n'
run fixture "$work/count" --out "$work"
wants "a folder as a file" 2 'step 1 value 1 ticks 5\n' "moo-play: cannot write $work\n"
run fixture "$work/count" --out "$work/absent/file"
wants "a file in no folder" 2 'step 1 value 1 ticks 5\n' "moo-play: cannot write $work/absent/file\n"
if [ -e /dev/full ]; then
    run fixture "$work/count" --out /dev/full
    wants "a full device" 2 'step 1 value 1 ticks 5\n' 'moo-play: cannot write /dev/full\n'
    run fixture "$work/count" --out /dev/null
    wants "no device" 0 'step 1 value 1 ticks 5\n' ''
    [ -c /dev/null ] || fail "/dev/null is a device no more"
fi
cp "$work/fixture" "$work/kept" && chmod 444 "$work/kept"
run fixture "$work/count" --out "$work/kept"
wants "a file that nobody may write" 2 'step 1 value 1 ticks 5\n' "moo-play: cannot write $work/kept\n"
cmp -s "$work/fixture" "$work/kept" || fail "a file that nobody may write was written"
printf 'old\n' >"$work/real" && ln -s "$work/real" "$work/link"
run fixture "$work/none" --out "$work/link"
[ -h "$work/link" ] && cmp -s "$work/fixture" "$work/real" || fail "a link was not followed"
rm -f "$work/kept"

# A faulty script writes nothing, and a file of somebody beside is not touched.
script faulty 'lin 1'
printf 'old\n' >"$work/old" && printf 'mine\n' >"$work/old.new0"
run fixture "$work/faulty" --out "$work/old"
[ "$(cat "$work/old")" = old ] || fail "a faulty script wrote a file"
run fixture "$work/none" --out "$work/old"
cmp -s "$work/fixture" "$work/old" && [ "$(cat "$work/old.new0")" = mine ] || fail "a file beside was touched"

# A stop in the middle of writing leaves the old file: the file system takes 8 blocks and no more.
printf 'old\n' >"$work/old"
{ printf 'key %064d\n' 0; printf 'line 1 ;add_property(#3, "wide", "%03900d", {#2, "r"})\n' 0; } >"$work/large"
(ulimit -f 8; trap '' XFSZ; exec "$play" fixture "$work/large" --out "$work/old") >"$work/out" 2>"$work/errors" </dev/null
status=$?
[ "$(cat "$work/old")" = old ] || fail "a stop in the middle changed the file"
[ "$status" -ne 0 ] || fail "a file that was too large was written"

[ "$failures" -eq 0 ]
