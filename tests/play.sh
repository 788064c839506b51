#!/bin/sh
# `moo-play` from end to end, on the program as it was built: examples, files, faults, large and hostile scripts.
set -u
root=$(cd "$(dirname -- "$0")/.." && pwd) || exit 2
work=$(mktemp -d) || exit 2
trap 'rm -rf "$work"' EXIT
failures=0

fail() {
    echo "tests/play.sh: $1" >&2
    failures=$((failures + 1))
}

# wants NAME STATUS OUT ERRORS, after a run that left $work/out, $work/errors and the status in $status
wants() {
    [ "$status" -eq "$2" ] || fail "$1: status $status, not $2"
    printf '%b' "$3" | cmp -s - "$work/out" || fail "$1: another output: $(head -c 200 "$work/out")"
    printf '%b' "$4" | cmp -s - "$work/errors" || fail "$1: another error: $(head -c 200 "$work/errors")"
}

run() {
    "$play" "$@" >"$work/out" 2>"$work/errors"
    status=$?
}

digits=$(printf '%064d' 0)
key="key $digits"

# Built where it is old; then it is run without its wrapper, which looks at every source.
"$root/moo-play" --help >/dev/null || { fail "the program does not run"; exit 1; }
play=$root/crates/moo_play/out/moo_play

run fixture "$root/examples/two-counts.script" --workers 2
wants "two counts" 0 'step 1 value 1 ticks 5\nstep 2 value 2 ticks 5\n' ''

run fixture stdin <"$root/examples/unknown-word.script"
wants "an unknown word" 0 "step 1 value 1 ticks 5\nstep 2 none ticks 0\n> 1 I couldn't understand that.\nstep 3 none ticks 0\n" ''

printf '%s\n' "$key" >"$work/key"
run fixture "$work/key" --workers 64
wants "the key line alone" 0 '' ''

run "$work/key" "$work/key"
wants "a script as a world" 2 '' "moo-play: world: line 1: Header\n"

run fixture "$work/none"
wants "no such script" 2 '' "moo-play: cannot read $work/none\n"

run fixture "$work/key" --workers 65
wants "65 workers" 2 '' 'moo-play: workers\n'

run "$work/none" "$work/none" --workers 0
wants "workers before files" 2 '' 'moo-play: workers\n'

run fixture
[ "$status" -eq 2 ] || fail "no script: status $status"
grep -q '^Usage: moo-play ' "$work/errors" || fail "no script: no usage of moo-play"

# The help names the program.
run --help
[ "$status" -eq 0 ] || fail "help: status $status"
grep -q '^Usage: moo-play ' "$work/out" || fail "help: no usage of moo-play"
[ -s "$work/errors" ] && fail "help: $(head -c 200 "$work/errors")"


# A word that is not UTF-8 names no file.
run fixture "$(printf 'caf\351')" --workers 2
wants "a word that is not UTF-8" 2 '' 'moo-play: cannot read caf\0351\n'
run "$(printf '\377')" "$work/none" --workers 0
wants "a world that is not UTF-8" 2 '' 'moo-play: cannot read \0377\n'
long=$(printf '\377%05000d' 0)
run fixture "$long"
wants "a long word that is not UTF-8" 2 '' "moo-play: cannot read \\0377${long#?}\\n"

# The example of the page on scripts, which is also a file.
example() {
    awk -v wanted="$1" '/^```text$/ { n++; inside = n == wanted; next } /^```$/ { inside = 0 } inside' "$root/docs/SCRIPTS.md"
}
example 1 >"$work/example"
cmp -s "$work/example" "$root/examples/fixture.script" || fail "the example of docs/SCRIPTS.md is not examples/fixture.script"
for workers in 1 2; do
    run fixture "$work/example" --workers "$workers"
    [ "$status" -eq 0 ] || fail "the example: status $status"
    example 2 | cmp -s - "$work/out" || fail "the example prints something else than docs/SCRIPTS.md says"
done

# A faulty line, with a second fault after it: the earliest line decides, in it the first kind of fault.
faulty() {
    { printf '%s\n' "$key"; printf '%b' "$1"; } >"$work/faulty"
    run fixture "$work/faulty" --workers 2
    wants "script '$1'" 2 '' "moo-play: script: $2\n"
}
faulty 'lin 1 count\nline 01 count\n' 'line 2: Word'
faulty 'line 1 count\nLINE 1 count\nmoment 01\n' 'line 3: Word'
faulty 'line 1\nmoment 00\n' 'line 2: Word'
faulty 'line  1 count\nmoment 00\n' 'line 2: Word'
faulty ' line 1 count\nmoment 00\n' 'line 2: Word'
faulty '\nmoment 00\n' 'line 2: Word'
faulty 'moment 5 \nmoment 00\n' 'line 2: Word'
faulty 'moment 5 6\nmoment 00\n' 'line 2: Word'
faulty 'moment\nmoment 00\n' 'line 2: Word'
faulty 'open\nmoment 00\n' 'line 2: Word'
faulty 'open 1 \nmoment 00\n' 'line 2: Word'
faulty 'close 1 2\nmoment 00\n' 'line 2: Word'
faulty 'ready  1\nmoment 00\n' 'line 2: Word'
faulty 'opens 1\nmoment 00\n' 'line 2: Word'
faulty "$key\\nmoment 00\\n" 'line 2: Word'
faulty 'lin 01 \001\nmoment 01\n' 'line 2: Word'
faulty 'line\nmoment 00\n' 'line 2: Word'
faulty 'line 01\nmoment 00\n' 'line 2: Word'
faulty 'moment 05 6\nmoment 00\n' 'line 2: Word'
faulty 'open \nmoment 00\n' 'line 2: Word'
faulty 'close  1\nmoment 00\n' 'line 2: Word'
faulty 'close 01 2\nmoment 00\n' 'line 2: Word'
faulty 'ready\t1\nmoment 00\n' 'line 2: Word'
faulty 'line 01 \001' 'line 2: Word'
faulty 'line 1 count\nline 2 count' 'line 3: Word'
faulty 'line 1 count' 'line 2: Word'
faulty 'line 01 count' 'line 2: Word'
faulty 'line 01 count\nlin 1 count\n' 'line 2: Number'
faulty 'line 1x count\nlin 1 count\n' 'line 2: Number'
faulty 'line -1 count\nlin 1 count\n' 'line 2: Number'
faulty 'moment 007\nlin 1 count\n' 'line 2: Number'
faulty 'open 01\nlin 1 count\n' 'line 2: Number'
faulty 'close x\nlin 1 count\n' 'line 2: Number'
faulty 'ready -1\nlin 1 count\n' 'line 2: Number'
faulty 'ready 2147483648\nlin 1 count\n' 'line 2: Number'
faulty 'line x \001\nlin 1 count\n' 'line 2: Number'
faulty 'moment +7\nlin\n' 'line 2: Number'
faulty 'ready 99999999999999999999\nlin\n' 'line 2: Number'
faulty 'line 1 \001\nlin 1 count\n' 'line 2: Text'
faulty 'line 1 \0377\nlin\n' 'line 2: Text'
faulty 'line 1 count\r\nlin\n' 'line 2: Text'
faulty 'line 1 caf\0303\0251\nlin 1 count\n' 'line 2: Text'
faulty 'line 1 count\nmoment 1\nline 2 \0177\nmoment 00\n' 'line 4: Text'
faulty "line 1 $(printf '%04097d' 0)\\nlin\\n" 'line 2: Text'

# No good key line.
keyless() {
    printf '%b' "$1" >"$work/faulty"
    run fixture "$work/faulty"
    wants "script '$1'" 2 '' "moo-play: script: $2\n"
}
keyless '' 'line 1: Key'
keyless 'line 1 count\nlin\n' 'line 1: Key'
keyless "key $(printf '%062d' 0)FF\\nlin\\n" 'line 1: Key'
keyless "key $(printf '%063d' 0)\\nlin\\n" 'line 1: Key'
keyless "key  $(printf '%064d' 0)\\nlin\\n" 'line 1: Key'
keyless "$key" 'line 1: Word'
keyless '\n' 'line 1: Key'
keyless 'key\nlin\n' 'line 1: Key'
keyless 'key \nlin\n' 'line 1: Key'
keyless "KEY $digits\\nlin\\n" 'line 1: Key'
keyless "key ${digits}0\\nlin\\n" 'line 1: Key'
keyless "key $(printf '%063d' 0)g\\nlin\\n" 'line 1: Key'
keyless "key $digits \\nlin\\n" 'line 1: Key'

# Lists that are refused before anything runs.
refused() {
    { printf '%s\n' "$key"; printf '%b' "$1"; } >"$work/faulty"
    run fixture "$work/faulty" --workers 2
    wants "list '$1'" 2 '' 'moo-play: numbers\n'
}
refused 'line 0 count\n'
refused 'line 1000000 count\n'
refused 'open 0\n'
refused 'close 1000000\n'
refused 'line 1 count\nclose 1000000\n'
refused 'line 1 count\nline 4294967296 count\n'
refused 'line 1 count\nline 99999999999999999999 count\n'
refused 'moment 2147483648\nready 1\n'
refused 'line 1 count\nmoment 99999999999999999999\nline 2 count\n'
refused 'moment 2147483648\nline 1 count\n'
refused 'line 1 count\nmoment 99999999999\nline 1 count\nmoment 0\n'

# A moment out of range that no step happens at is not refused, and moments may fall.
{ printf '%s\n' "$key"; printf 'moment 9\nline 1 count\nmoment 99999999999\nmoment 3\nline 2 count\nmoment 2147483648\n'; } >"$work/moments"
run fixture "$work/moments" --workers 2
wants "moments" 0 'step 1 value 1 ticks 5\nstep 2 value 2 ticks 5\n' ''

# Numbers are refused before the first line is printed, however late the step stands.
{ printf '%s\n' "$key"; yes 'line 1 count' | head -n 10000; printf 'line 0 count\n'; } >"$work/late"
run fixture "$work/late"
wants "a late step out of range" 2 '' 'moo-play: numbers\n'
{ printf '%s\n' "$key"; yes 'line 1 count' | head -n 10000; printf 'lin\n'; } >"$work/late"
run fixture "$work/late"
wants "a late fault" 2 '' 'moo-play: script: line 10002: Word\n'

# The number of workers is refused before the script is looked at.
for workers in 0 65 x 064 01 '1 ' ' 1' '' -1 +1 1x 18446744073709551617; do
    for script in key faulty; do
        run fixture "$work/$script" "--workers=$workers"
        wants "workers '$workers'" 2 '' 'moo-play: workers\n'
    done
done

# The words: a number of workers behind a sign, options before the names, names that look like options; and words that are refused.
run "$work/none" "$work/none" --workers=x
wants "workers behind a sign" 2 '' 'moo-play: workers\n'
run --out "$work/words" fixture --workers 64 stdin <"$work/key"
wants "options before names" 0 '' ''
[ "$(sed -n 2p "$work/words")" = "next 1" ] || fail "options before names: no world in the file"
run -- --workers 2
wants "names behind two signs" 2 '' 'moo-play: cannot read --workers\n'
wrong() {
    run "$@"
    [ "$status" -eq 2 ] && [ ! -s "$work/out" ] && [ -s "$work/errors" ] || fail "words '$*': status $status, printed $(head -c 200 "$work/out")"
}
wrong
wrong fixture
wrong fixture stdin more
wrong fixture stdin --workers
wrong fixture stdin --out
wrong fixture stdin --port 1

# The greatest fields, front spaces, the case of letters, empty lines.
{
    printf '%s\n' "$key"
    printf 'moment 2147483647\nline 999999 count\nline 1    COUNT\nline 1 \nline 2   \nline 1 %04096d\n' 0
} >"$work/odd"
run fixture "$work/odd"
wants "odd lines" 0 "step 1 none ticks 0\nstep 2 value 1 ticks 5\nstep 3 none ticks 0\nstep 4 none ticks 0\nstep 5 none ticks 0\n> 1 I couldn't understand that.\n" ''

# Output that cannot be written.
if [ -e /dev/full ]; then
    "$play" fixture "$root/examples/two-counts.script" >/dev/full 2>"$work/errors"
    status=$?
    : >"$work/out"
    wants "a full device" 2 '' ''
    "$play" --help >/dev/full 2>"$work/errors"
    status=$?
    wants "help to a full device" 2 '' ''
fi

# Output that ends in the middle, at each byte: status 2 and no error is told; and errors of which so many bytes can be written.
if command -v python3 >/dev/null 2>&1; then
    python3 - "$play" "$root/examples/two-counts.script" "$work" <<'END' || fail "output that ends in the middle"
import resource, signal, subprocess, sys
play, script, work = sys.argv[1:]
whole = b"step 1 value 1 ticks 5\nstep 2 value 2 ticks 5\n"
with open(f"{work}/refused", "wb") as file:
    file.write(b"key " + 64 * b"0" + b"\nline 0 count\n")
def limit(room):
    signal.signal(signal.SIGXFSZ, signal.SIG_IGN)
    resource.setrlimit(resource.RLIMIT_FSIZE, (room, room))
def run(script, room):
    """The status, and the bytes of output and of errors, where a file takes so many bytes."""
    with open(f"{work}/part", "w+b") as out, open(f"{work}/told", "w+b") as told:
        done = subprocess.run([play, "fixture", script, "--workers", "2"], stdout=out, stderr=told, preexec_fn=lambda: limit(room))
        out.seek(0)
        told.seek(0)
        return done.returncode, out.read(), told.read()
bad = [f"{room} bytes of output" for room in range(len(whole) + 1) if run(script, room) != (0 if room == len(whole) else 2, whole[:room], b"")]
bad += [f"{room} bytes of errors" for room in (0, 1, 20) if run(f"{work}/refused", room)[:2] != (2, b"")]
for name in bad:
    print(f"tests/play.sh: {name}", file=sys.stderr)
sys.exit(1 if bad else 0)
END
fi

# 100,000 lines.
{
    printf '%s\n' "$key"
    yes 'line 1 count' | head -n 100000
} >"$work/long"
run fixture "$work/long" --workers 4
[ "$status" -eq 0 ] || fail "100,000 lines: status $status"
[ "$(wc -l <"$work/out")" -eq 100000 ] || fail "100,000 lines: $(wc -l <"$work/out") lines of output"
[ "$(tail -n 1 "$work/out")" = "step 100000 value 100000 ticks 5" ] || fail "100,000 lines: $(tail -n 1 "$work/out")"

# The lines of steps are there before the run has ended: a reader that takes the first line alone ends the run early.
first=$("$play" fixture "$work/long" --workers 2 2>/dev/null | head -n 1)
[ "$first" = "step 1 value 1 ticks 5" ] || fail "the first line of many: $first"

# 1,000,000 lines in less than 300 MB, where the system tells what was resident.
if command -v python3 >/dev/null 2>&1; then
    {
        printf '%s\n' "$key"
        yes 'line 1 count' | head -n 1000000
    } >"$work/million"
    for workers in 1 2; do
        python3 - "$play" "$work/million" "$workers" >"$work/resident" <<'END'
import resource, subprocess, sys
play, script, workers = sys.argv[1:]
with subprocess.Popen([play, "fixture", script, "--workers", workers], stdout=subprocess.PIPE) as run:
    last = None
    for last in run.stdout:
        pass
print(run.returncode, last.decode().strip(), resource.getrusage(resource.RUSAGE_CHILDREN).ru_maxrss < 300_000)
END
        [ "$(cat "$work/resident")" = "0 step 1000000 value 1000000 ticks 5 True" ] || fail "1,000,000 lines, $workers workers: $(cat "$work/resident")"
    done
fi

# 100 MB without a line end.
head -c 100000000 /dev/zero | tr '\0' 'a' >"$work/wide"
run fixture "$work/wide"
wants "no line end" 2 '' 'moo-play: script: line 1: Key\n'

# Any bytes.
head -c 65536 /dev/urandom >"$work/noise"
run fixture "$work/noise"
wants "noise" 2 '' 'moo-play: script: line 1: Key\n'

[ "$failures" -eq 0 ]
