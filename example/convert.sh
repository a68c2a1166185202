#!/bin/sh
# Compiles report.c by cc65, converts its object and cc65's library for the C64, and links both with main.s by bin65. Then cc65
# makes the program of the same sources, and the images are compared.
# usage: convert.sh BIN65
set -eu
program=$1
here=$(cd "$(dirname "$0")" && pwd)
work65=${WORK65:-"$here/../workbench/work65.sh"}
BIN65=$program
export BIN65

bin65() { "$program" "$@"; }
work65() { sh "$work65" "$@"; }
shown() { echo "\$ $*"; "$@"; }

for tool in cc65 ca65 ld65 cl65; do
    command -v "$tool" > /dev/null || { echo "cc65 isn't here: nothing is converted."; exit 0; }
done
library=$(dirname "$(cl65 --print-target-path)")/lib/c64.lib
rm -rf "$here/out/convert" && mkdir -p "$here/out/convert/cc65" && cd "$here/out/convert"

shown cc65 -t c64 -O -o cc65/report.s ../../convert/report.c
shown ca65 -o cc65/report.o cc65/report.s
shown work65 convert -o report.o cc65/report.o
echo '$ work65 convert -o c64.lib c64.lib    # that of cc65'
work65 convert -o c64.lib "$library" 2> notes || { cat notes >&2; exit 1; }
shown bin65 ca65 -o main.o ../../convert/main.s
shown bin65 ld65 -C ../../convert/c64.cfg -m squares.map -o squares.prg main.o report.o c64.lib

ca65 -o cc65/main.o ../../convert/main.s
ld65 -C ../../convert/c64.cfg -o cc65/squares.prg cc65/main.o cc65/report.o "$library" 2> cc65/warnings
cmp squares.prg cc65/squares.prg
echo "squares.prg is the image that cc65 makes."
