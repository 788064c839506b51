#!/bin/sh
# The script `moo-play` by itself: when it builds and what it tells then, with a stand-in for `rt` and small crates.
set -u
top=$(cd "$(dirname -- "$0")/.." && pwd) || exit 2
work=$(mktemp -d) || exit 2
trap 'rm -rf "$work"' EXIT
root="$work/a place"
failures=0

fail() {
    echo "tests/wrapper.sh: $1" >&2
    failures=$((failures + 1))
}

mkdir -p "$root/bench" "$work/bin" "$work/alone"
cp "$top/moo-play" "$root/moo-play"
for it in low middle beside moo_play moo_daemon; do
    mkdir -p "$root/crates/$it/src"
    echo "fn $it() {}" >"$root/crates/$it/src/lib.rt"
done
for it in moo_play moo_daemon; do mv "$root/crates/$it/src/lib.rt" "$root/crates/$it/src/main.rt"; done
cat >"$root/crates.txt" <<'END'
# two programs
low: kit_library
beside: low # stands on low alone
middle: low
moo_play: middle
moo_daemon: beside middle
END
ln -s moo-play "$root/moo-server"
ln -s ../moo-play "$root/bench/moo-daemon"
ln -s "$root/moo-play" "$work/alone/play"
ln -s "$root/moo-play" "$work/moo-other"

# The stand-in proves what has no stamp or an older one, builds a program that prints its name and words, and fails where a source says so.
cat >"$work/bin/rt" <<'END'
#!/bin/sh
set -u
echo "$*" >>"$CALLS"
here=$(basename "$PWD")
case $1 in
    all)
        [ -z "${EDITED:-}" ] || touch "$EDITED"
        for it in low beside middle; do
            stamp=../$it/out/rlib/stamp
            if [ ! -e "$stamp" ] || [ -n "$(find ../*/src ../*/specs -newer "$stamp" 2>/dev/null)" ]; then
                rm -rf "../$it/out/rlib"
                mkdir -p "../$it/out/rlib"
                if grep -q wrong "../$it/src/lib.rt"; then
                    printf '== %s\nfn %s: not proved\nrt: a longer tale\n' "$it" "$it"
                    exit 1
                fi
                : >"$stamp"
            fi
            echo "== $it"
        done
        echo "== $here"
        ;;
    run)
        printf '#!/bin/sh\necho "%s: $*"\ncat\nexit 7\n' "$here" >"out/$here"
        chmod +x "out/$here"
        echo "the help of $here"
        ;;
esac
END
chmod +x "$work/bin/rt"
CALLS=$work/calls
export CALLS
PATH=$work/bin:$PATH

# call SCRIPT WORD..: runs a wrapper in a folder of its own, with a line of input.
call() {
    : >"$CALLS"
    (cd "$work/alone" && echo input | "$@") >"$work/out" 2>"$work/errors"
    status=$?
}

# runs NAME PROGRAM: the program got its words and its input, its status came through, and nothing else is on the standard output.
runs() {
    [ "$status" -eq 7 ] || fail "$1: status $status"
    printf '%s: a  b\ninput\n' "$2" | cmp -s - "$work/out" || fail "$1: printed $(cat "$work/out")"
}

# builds NAME LINE..: these crates were proved, each with a line of its own, between a line at the start and one at the end.
builds() {
    what=$1 && shift
    grep '^proving' "$work/errors" >"$work/lines"
    for it in "$@"; do echo "proving $it"; done | cmp -s - "$work/lines" || fail "$what: told $(cat "$work/errors")"
    head -n 1 "$work/errors" | grep -Eq '^moo-[a-z]+: proves [0-9]+ of [0-9]+ crates, [0-9]+ at a time: up to [0-9]+ min and [0-9]+ MB of disk; see .*/out/build\.log$' || fail "$what: begins with $(head -n 1 "$work/errors")"
    tail -n 1 "$work/errors" | grep -Eq '^moo-[a-z]+: built in ([0-9]+ min )?[0-9]+ s$' || fail "$what: ends with $(tail -n 1 "$work/errors")"
}

quiet() {
    [ ! -s "$CALLS" ] && [ ! -s "$work/errors" ] || fail "$1: built again, $(cat "$CALLS" "$work/errors")"
}

call "$root/moo-play" a ' b'
runs "nothing built" moo_play
builds "nothing built" '1 of 3: low' '2 of 3: middle' '3 of 3: moo_play'

call "$root/moo-play" a ' b'
runs "nothing changed" moo_play
quiet "nothing changed"

touch "$root/crates/beside/src/lib.rt"
call "$root/moo-play" a ' b'
runs "a crate beside it changed" moo_play
quiet "a crate beside it changed"

touch "$root/crates/middle/src/lib.rt"
call "$root/moo-play" a ' b'
runs "a crate changed" moo_play
builds "a crate changed" '1 of 2: middle' '2 of 2: moo_play'

mkdir "$root/crates/low/specs"
call "$root/moo-play" a ' b'
runs "a folder is new" moo_play
builds "a folder is new" '1 of 3: low' '2 of 3: middle' '3 of 3: moo_play'

# Edited while it is built: what ran is of the old text, so the next call builds.
touch "$root/crates/moo_play/src/main.rt"
EDITED="$root/crates/middle/src/lib.rt"
export EDITED
call "$root/moo-play" a ' b'
unset EDITED
runs "edited during the build" moo_play
call "$root/moo-play" a ' b'
runs "after an edit during the build" moo_play
grep -q '^all' "$CALLS" || fail "after an edit during the build: not built"
call "$root/moo-play" a ' b'
quiet "and once more"

# By other names and through links.
call "$root/moo-server" a ' b'
runs "another program" moo_daemon
call "$root/bench/moo-daemon" a ' b'
runs "its crate's name" moo_daemon
quiet "its crate's name"
call "$work/alone/play" a ' b'
runs "a link of another name" moo_play
quiet "a link of another name"
printf '#!/bin/sh\nCALLED_AS=$0 exec "%s/moo-play" "$@"\n' "$root" >"$work/alone/moo-server"
chmod +x "$work/alone/moo-server"
call "$work/alone/moo-server" a ' b'
runs "a script that hands on" moo_daemon
quiet "a script that hands on"
cp "$root/moo-play" "$root/moo-none"
call "$root/moo-none"
[ "$status" -eq 2 ] || fail "no such program: status $status"
echo 'moo-none: there is no program of this name' | cmp -s - "$work/errors" || fail "no such program: told $(cat "$work/errors")"

# A build that fails, and is mended.
echo wrong >"$root/crates/middle/src/lib.rt"
for time in first second; do
    call "$root/moo-play" a ' b'
    [ "$status" -eq 2 ] && [ ! -s "$work/out" ] || fail "a wrong crate, the $time time: status $status, printed $(cat "$work/out")"
    grep -q '^fn middle: not proved$' "$work/errors" || fail "a wrong crate: told $(cat "$work/errors")"
    tail -n 1 "$work/errors" | grep -q "; the whole log is $root/crates/moo_play/out/build.log\$" || fail "a wrong crate: ends with $(tail -n 1 "$work/errors")"
done
echo right >"$root/crates/middle/src/lib.rt"
call "$root/moo-play" a ' b'
runs "mended" moo_play

rm "$root/crates/moo_play/out/moo_play" "$work/bin/rt"
PATH=/usr/bin:/bin
if ! command -v rt >/dev/null 2>&1; then
    call "$root/moo-play"
    [ "$status" -eq 2 ] || fail "no rt: status $status"
    echo "moo-play: not built yet, and the toolchain's command rt is not on PATH" | cmp -s - "$work/errors" || fail "no rt: told $(cat "$work/errors")"
fi

[ "$failures" -eq 0 ]
