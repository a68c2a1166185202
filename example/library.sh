#!/bin/sh
# Assembles the 40 modules of a small runtime library, puts them into a library file, and links a program with the few
# that it draws from it. The modules that are drawn and the image are compared with what cc65 makes of the same sources
# and script; without cc65 the image is compared with the checksum of the one that cc65 made.
# usage: library.sh BIN65
set -eu
program=$1
here=$(cd "$(dirname "$0")" && pwd)
sources=$here/library
checksum='1104847739 258'
drawn='decimal digits divmod16 memset mod16 random seed strcat strcpy strlen zeropage'

bin65() { "$program" "$@"; }
shown() { echo "\$ $*"; "$@"; }
fail() { echo "library.sh: $*" >&2; exit 1; }
have() { for tool; do command -v "$tool" > /dev/null || return 1; done; }

rm -rf "$here/out/library" && mkdir -p "$here/out/library/cc65" && cd "$here/out/library"

# modules: the library's modules, in the order of their names
modules() {
    for source in "$sources"/*.s; do
        [ "$source" = "$sources/main.s" ] || basename "$source" .s
    done | LC_ALL=C sort
}

objects=
for module in $(modules); do
    bin65 ca65 -o "$module.o" "$sources/$module.s"
    objects="$objects $module.o"
done
bin65 ca65 -o main.o "$sources/main.s"
echo "$(modules | wc -l) modules are assembled."
shown bin65 ar65 r runtime.lib $objects

# A module that is put in again keeps its place, and the library its bytes.
cp runtime.lib before.lib
shown bin65 ar65 r runtime.lib mul16.o
cmp runtime.lib before.lib
bin65 ar65 t runtime.lib > names
for object in $objects; do echo "$object"; done | cmp - names
echo "The library has the names of its modules, in their order."

# Members that are taken out are the objects that were put in.
mkdir extracted
(cd extracted && bin65 ar65 x ../runtime.lib)
for object in $objects; do cmp "$object" "extracted/$object"; done
echo "Each member is the object that was put in."

shown bin65 ld65 -C ../../library.cfg -o numbers.bin -m numbers.map main.o runtime.lib
awk '/^SEGMENTS$/ { exit } /^runtime.lib\(/ { sub(/^runtime.lib\(/, ""); sub(/\.o\)$/, ""); print }' numbers.map > drawn
for module in $drawn; do echo "$module"; done | diff - drawn || fail "other modules are drawn from the library"
echo "Of the library these are drawn: $drawn."

if have ca65 ld65 ar65; then
    for module in main $(modules); do ca65 -o "cc65/$module.o" "$sources/$module.s"; done
    (cd cc65 && ar65 r runtime.lib $objects && ld65 -C ../../../library.cfg -o numbers.bin main.o runtime.lib)
    cmp numbers.bin cc65/numbers.bin || fail "the image isn't cc65's"
    echo "numbers.bin is the image that cc65 makes here."
else
    echo "cc65 isn't here: numbers.bin is compared with the checksum of cc65's alone."
fi
[ "$(cksum < numbers.bin)" = "$checksum" ] ||
    fail "numbers.bin has the checksum $(cksum < numbers.bin), and the image that cc65 made $checksum"
echo "numbers.bin has the checksum of the image that cc65 makes."
