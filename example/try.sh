#!/bin/sh
# A first link before anything is proved: the toolchain's `rt try` compiles the program unproved and runs two lines with it.
# Without words these are those of first.sh, and the image has to have the source's ten bytes. With SOURCE and SCRIPT they
# assemble and link a source and a script of yours; the image is IMAGE, or else the source's name with .bin at its end.
# usage: [SOURCE=my.s SCRIPT=my.cfg [IMAGE=my.bin]] try.sh
set -eu
here=$(cd "$(dirname "$0")" && pwd)
out=$here/out/try
top=$PWD
rm -rf "$out" && mkdir -p "$out/cases"

fail() { echo "try.sh: $*" >&2; exit 1; }
# whole NAME: a file's name from the root on
whole() { case $1 in /*) echo "$1" ;; *) echo "$top/$1" ;; esac; }

if [ -n "${SOURCE:-}${SCRIPT:-}${IMAGE:-}" ]; then
    [ -n "${SOURCE:-}" ] && [ -n "${SCRIPT:-}" ] || fail 'give SOURCE and SCRIPT, and IMAGE if you like'
    for it in "$SOURCE" "$SCRIPT"; do [ -f "$it" ] || fail "$it isn't there"; done
    is_own=yes source=$SOURCE script=$SCRIPT image=${IMAGE:-${SOURCE%.*}.bin}
    object=$out/own.o said_object=${SOURCE##*/}
    said_object=${said_object%.*}.o
    rm -f "$image"
else
    is_own= source=$here/first.s script=$here/first.cfg image=$out/first.out object=$out/first.o said_object=first.o
fi

# case_of NAME WORD..: a run of the program with these words, which are one a line
case_of() {
    : > "$out/cases/$1"
    file=$out/cases/$1.args; shift
    printf '%s\n' "$@" > "$file"
}
case_of 1-ca65 ca65 -o "$object" "$(whole "$source")"
case_of 2-ld65 ld65 -C "$(whole "$script")" -o "$(whole "$image")" "$object"

echo 'NOTHING IS PROVED HERE: this is a first look, while `make example` proves and builds the program.'
echo 'The toolchain compiles the program for this run alone: two minutes or so.'
(cd "$here/../crates/bin65" && rt try --cases "$out/cases" > "$out/printed" 2> "$out/said") || true
grep -q '^case=2-ld65 ' "$out/said" || { cat "$out/printed" "$out/said" >&2; fail "the program didn't run"; }

# shown NAME COMMAND: what a run printed and said, and its status, with which this ends where it isn't 0
shown() {
    echo "\$ bin65 $2"
    awk -v name="== $1" '/^== / { here = $0 == name; next } here' "$out/printed"
    awk -v name="case=$1" '/^case=/ { if ($1 == name) for (i = 1; i <= n; i++) print line[i]; n = 0; next } { line[++n] = $0 }' "$out/said" |
        awk -v top="$top/" '{ while (at = index($0, top)) $0 = substr($0, 1, at - 1) substr($0, at + length(top)); print }'
    grep -q "^case=$1 run=ended " "$out/said" || { grep "^case=$1 " "$out/said"; fail 'it came to no end'; }
    status=$(sed -n "s/^case=$1 .*status=\([0-9]*\).*/\1/p" "$out/said")
    echo "status $status"
    [ "$status" = 0 ] || exit "$status"
}
if [ -n "$is_own" ]; then
    shown 1-ca65 "ca65 -o $said_object $source"
    shown 2-ld65 "ld65 -C $script -o $image $said_object"
    echo "$image has $(($(wc -c < "$image"))) bytes. Nothing was proved."
else
    shown 1-ca65 'ca65 -o first.o first.s'
    shown 2-ld65 'ld65 -C first.cfg -o first.out first.o'
    cd "$out"
    echo '$ od -A n -t x1 first.out'
    od -A n -t x1 first.out
    printf '\251\000\252\140\064\022\377\000\005\000' > want
    cmp want first.out
    echo "The image has the source's ten bytes. Nothing was proved."
fi
