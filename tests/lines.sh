#!/bin/sh
# What lines say that a player types: the rows of tests/lines.txt, and lines of the greatest length.
set -u
root=$(cd "$(dirname -- "$0")/.." && pwd) || exit 2
work=$(mktemp -d) || exit 2
trap 'rm -rf "$work"' EXIT

fail() {
    echo "tests/lines.sh: $1" >&2
    exit 1
}

# Built where it is old; then it is run without its wrapper, which looks at every source.
"$root/moo-play" --help >/dev/null || fail "the program does not run"
play=$root/crates/moo_play/out/moo_play

# The world: Ann stands in #8, whose verbs take every word, one for each set of prepositions and one for none. They give what the verb knows, or, once
# `#8.sizes` is true, the lengths of the first word, of the list of words, and of what was typed behind the first word and of the direct object's words.
awk 'BEGIN {
    printf "key %064d\n", 0
    print "line 1 ;{create(#-1), add_property(#8, \"sizes\", 0, {#2, \"r\"}), move(#4, #8)}"
    count = split("none|with|at|in front of|in|on|from|over|through|under|behind|beside|for|is|as|off", word, "|")
    split("none|with/using|at/to|in front of|in/inside/into|on top of/on/onto/upon|out of/from inside/from|over|through|under/underneath/beneath|behind|beside|for/about|is|as|off/off of", set, "|")
    for (place = 1; place <= count; place++) {
        print "line 2 ;add_verb(#8, {#2, \"xd\", \"*\"}, {\"any\", \"" word[place] "\", \"any\"})"
        print "line 2 ;set_verb_code(#8, " place ", {\"return this.sizes ? {length(verb), length(args), length(argstr), length(dobjstr)} | {verb, args, argstr, \\\"" set[place] "\\\", dobjstr, prepstr, iobjstr};\"})"
    }
}' >"$work/world"
"$play" fixture "$work/world" --out "$work/file" >"$work/out" 2>"$work/errors" || fail "the world: status $?, told $(head -c 200 "$work/errors")"
! grep -v ' value ' "$work/out" >&2 || fail "the world is not made"

# lines NAME: $work/typed over that world gives $work/wanted.
lines() {
    { printf 'key %064d\n' 0; sed 's/^/line 1 /' "$work/typed"; } >"$work/script"
    "$play" "$work/file" "$work/script" >"$work/out" 2>"$work/errors" || fail "$1: status $?, told $(head -c 200 "$work/errors")"
    sed 's/^step [0-9]* value //; s/^step [0-9]* none ticks 0$/nothing/; s/ ticks [0-9]*$//' "$work/out" >"$work/got"
    cmp -s "$work/wanted" "$work/got" || fail "$1:
$(diff "$work/wanted" "$work/got" | cut -c 1-200)"
}

awk -v folder="$work/" '
    /^#/ || /^$/ { next }
    /^line / { print substr($0, 6) >(folder "typed"); next }
    /^\t/ { print substr($0, 2) >(folder "wanted"); next }
    { exit 1 }' "$root/tests/lines.txt" || fail "the table cannot be read"
count=$(($(wc -l <"$work/typed")))
[ "$count" -ge 94 ] || fail "only $count lines"
lines "the table"

# The longest lines that a player can type, 4,096 characters, of one kind of piece each, with the lengths that they give.
printf 'key %064d\nline 2 ;#8.sizes = 1\n' 0 >"$work/script"
"$play" "$work/file" "$work/script" --out "$work/file" >/dev/null 2>"$work/errors" || fail "the sizes: status $?, told $(head -c 200 "$work/errors")"
: >"$work/typed" && : >"$work/wanted"
# longest PIECE COUNT RESULT
longest() {
    piece=$1 count=$2 awk 'BEGIN { for (at = 0; at < ENVIRON["count"]; at++) line = line ENVIRON["piece"]; print line }' >>"$work/typed"
    echo "$3" >>"$work/wanted"
}
# `say `, and 4,095 quotes of one empty word, the last one open.
longest '"' 4096 '{3, 1, 4095, 0}'
longest '\' 4096 '{2048, 0, 0, 0}'
longest 'a' 4096 '{4096, 0, 0, 0}'
# 2,048 words of one letter, with a space behind each.
longest 'a ' 2048 '{1, 2047, 4094, 4093}'
# The first of the prepositions cuts, so there is no direct object.
longest 'in ' 1365 '{2, 1364, 4092, 0}'
# One word of 2,048 spaces.
longest '\ ' 2048 '{2048, 0, 0, 0}'
longest ' ' 4096 nothing
lines "the longest lines"
