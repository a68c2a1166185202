#!/usr/bin/env bash
# The real program on real files: what it writes, what it says, its status, and what it leaves behind.
# usage: program.sh BIN65    Prints a line a test, and last 'N passed, M failed'.
set -u
program=$1
root=$(cd "$(dirname "$0")/.." && pwd)
folder=$(mktemp -d) && cd "$folder" || exit 1
trap 'chmod -R u+w "$folder"; rm -rf "$folder"' EXIT
passed=0 failed=0

# check NAME STATUS STDERR [FILE BYTES]: the last run had this status and said this on standard error alone; the
# file has these bytes, or isn't there where BYTES is '-'.
check() {
    local why=
    [ "$status" = "$2" ] || why="status $status"
    [ "$(cat err)" = "$3" ] || why="$why said '$(cat err)'"
    [ -s out ] && why="$why printed '$(cat out)'"
    if [ $# -gt 3 ]; then
        if [ "$5" = - ]; then
            [ -e "$4" ] && why="$why left $4"
        else
            [ "$(od -A n -t x1 "$4" 2>/dev/null | tr -d ' \n')" = "$5" ] || why="$why wrote $(od -A n -t x1 "$4" 2>&1)"
        fi
    fi
    if [ -z "$why" ]; then
        passed=$((passed + 1)); echo "$1: ok"
    else
        failed=$((failed + 1)); echo "$1: FAILED: $why"
    fi
}

bin65() {
    "$program" "$@" > out 2> err < /dev/null
    status=$?
}

printf 'R65o\001\002\011\000\003\000\000\000\000CODE\003\003\000\251\000\140\010\000\000' > a.o
cat > s.cfg <<'SCRIPT'
MEMORY { ROM: start = $8000, size = $10; } SEGMENTS { CODE: load = ROM, type = ro; DATA: load = ROM, type = ro, optional = yes; }
SCRIPT

bin65 ld65 -C s.cfg -o image a.o
check 'an object is linked' 0 '' image a90060
printf 'longer than the image' > image
bin65 ld65 -C s.cfg -o image a.o
check 'an older file is replaced whole' 0 '' image a90060
bin65 ld65 -C s.cfg a.o
check 'the output is a.out where none is named' 0 '' a.out a90060
rm -f a.out image

bin65 ld65 a.o
check 'a line without a script' 1 'bin65: Error: bad arguments' a.out -
bin65
check 'no words' 1 'bin65: Error: bad arguments' a.out -
bin65 ld65 -C s.cfg $'\377'
check 'a word that is no text' 1 'bin65: Error: bad arguments' a.out -
bin65 ld65 -C none.cfg a.o
check 'a missing script' 1 'none.cfg: Error: file not found' a.out -
bin65 ld65 -C s.cfg none.o
check 'a missing object' 1 'none.o: Error: file not found' a.out -
mkdir folder
bin65 ld65 -C s.cfg folder
check 'a folder for an object' 1 'folder: Error: file error' a.out -
bin65 ld65 -C folder a.o
check 'a folder for a script' 1 'folder: Error: file error' a.out -
bin65 ld65 -C s.cfg -o none/image a.o
check 'an output in a folder that is not there' 1 'none/image: Error: file error' none -
bin65 ld65 -C s.cfg -o folder a.o
check 'a folder for an output' 1 'folder: Error: file error' a.out -
head -c 25 a.o > short.o
bin65 ld65 -C s.cfg -o image short.o
check 'an object cut short' 1 'short.o: Error: object cut short' image -
printf 'MEMORY {\n ROM: start = 1, size = 1, bogus = 1; }' > bad.cfg
bin65 ld65 -C bad.cfg -o image a.o
check 'a fault in a script, with its line' 1 'bad.cfg:2: Error: unknown attribute' image -
head -c 3000000 /dev/zero | tr '\0' ' ' > long.cfg
bin65 ld65 -C long.cfg -o image a.o
check 'a script that is too long' 1 'long.cfg:1: Error: script too long' image -

printf 'nop\n' > n.s
bin65 ca65 n.s
check 'a source is assembled, and the object named after it' 0 '' n.o 5236356f020209000100000000434f4445030100ea080000
printf '.byte 1,$FF\n.word $1234, 0FFh, %%101\n' > b.s
bin65 ca65 -o b.object b.s
check 'lists of numbers' 0 '' b.o -
bin65 ld65 -C s.cfg -o image b.object
check 'what was assembled is linked' 0 '' image 01ff3412ff000500
printf '' > e.s
bin65 ca65 e.s
check 'an empty source' 0 '' e.o 5236356f02080000
printf 'nop\n.byte 256\n' > b.s
bin65 ca65 b.s
check 'a number that does not fit, with its line' 1 'b.s:2: Error: out of range' b.o -
bin65 ca65 none.s
check 'a missing source' 1 'none.s: Error: file not found' none.o -
head -c 16777217 /dev/zero > long.s
bin65 ca65 long.s
check 'a source that is too long' 1 'long.s: Error: file too long' long.o -
rm -f image
# Real configurations with small objects.

# section NAME SIZE ALIGNMENT, literal BYTE..: a record of at most 255 bytes
section() {
    printf "\\002\\$(printf %03o $((5 + ${#1})))\\000\\$(printf %03o "$2")\\000\\000\\000\\$(printf %03o "$3")$1"
}
literal() {
    printf "\\003\\$(printf %03o $#)\\000"; bytes "$@"
}
bytes() {
    local byte
    for byte; do printf "\\$(printf %03o "$byte")"; done
}
# times N BYTE: so many bytes of one value
times() {
    head -c "$1" /dev/zero | tr '\000' "\\$(printf %03o "$2")"
}
# same NAME WANT FILE: the last run succeeded without a word, and the file has the bytes of another
same() {
    if [ "$status" = 0 ] && [ ! -s err ] && [ ! -s out ] && cmp -s "$2" "$3"; then
        passed=$((passed + 1)); echo "$1: ok"
    else
        failed=$((failed + 1)); echo "$1: FAILED: status $status, said '$(cat err)'$(cmp "$2" "$3" 2>&1)"
    fi
}

{
    printf 'R65o\001'
    section CODE 5 0; section RODATA 2 0; section HEADER 16 0; section VECTORS 6 0; section ZEROPAGE 0 0; section BSS 0 0
    literal 0x78 0xD8 0x4C 0x00 0x80; literal 0x12 0x34
    literal 0x4E 0x45 0x53 0x1A 2 1 0 0 0 0 0 0 0 0 0 0; literal 0x00 0x80 0x00 0x80 0x00 0x80
    printf '\010\000\000'
} > nes.o
{
    bytes 0x4E 0x45 0x53 0x1A 2 1; times 10 0
    bytes 0x78 0xD8 0x4C 0x00 0x80; times 251 0xFF; bytes 0x12 0x34; times 32504 0xFF
    bytes 0x00 0x80 0x00 0x80 0x00 0x80; times 8192 0
} > want
bin65 ld65 -C "$root/example/nes.cfg" -o game.nes nes.o
same 'an NES cartridge' want game.nes

{
    printf 'R65o\001'
    section LOADADDR 2 0; section EXEHDR 4 0; section CODE 3 0; section DATA 1 0
    literal 0x01 0x08; literal 0x0B 0x08 0x0A 0x00; literal 0xEE 0x20 0xD0; literal 7
    printf '\010\000\000'
} > c64.o
bytes 0x01 0x08 0x0B 0x08 0x0A 0x00 0xEE 0x20 0xD0 7 > want
bin65 ld65 -C "$root/example/c64.cfg" -o game.prg c64.o
same 'a C64 program' want game.prg

{
    printf 'R65o\001'
    section CODE 2 0; section DATA 3 0; section VECTORS 6 0
    literal 0xA2 0xFF; literal 1 2 3; literal 0x00 0xF1 0x00 0xF1 0x00 0xF1
    printf '\010\000\000'
} > atari.o
{
    bytes 1 2 3; times 253 0xEA; bytes 0xA2 0xFF; times 3832 0xEA; bytes 0x00 0xF1 0x00 0xF1 0x00 0xF1
} > want
bin65 ld65 -C "$root/example/atari2600.cfg" -o game.a26 atari.o
same 'an Atari 2600 cartridge' want game.a26

cat > two.cfg <<'SCRIPT'
MEMORY { LOW: start = 0, size = 4, fill = yes, fillval = 1; HIGH: start = $8000, size = $10, file = "high"; TOP: start = $9000, size = 2; }
SEGMENTS { CODE: load = HIGH; DATA: load = TOP, type = bss; }
SCRIPT
bin65 ld65 -C two.cfg -o low a.o
check 'a warning, and a file for each name' 0 'ld65: Warning: segment DATA does not exist' high a90060
check 'the areas of the output' 0 'ld65: Warning: segment DATA does not exist' low 01010101
rm -f high low
sed 's/\$10, file/2, file/' two.cfg > tight.cfg
bin65 ld65 -C tight.cfg -o low a.o
check 'no file where an area is too small' 1 'ld65: Error: overflow of HIGH by 1 bytes' low -
[ -e high ] && { failed=$((failed + 1)); echo 'no other file either: FAILED'; }

echo "$passed passed, $failed failed"
[ "$failed" = 0 ]
