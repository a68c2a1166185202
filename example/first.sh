#!/bin/sh
# Assembles and links a first source into an area at $8000, and compares the image with the bytes that it has to have.
# usage: first.sh BIN65
set -eu
program=$1
here=$(cd "$(dirname "$0")" && pwd)
mkdir -p "$here/out" && cd "$here/out"
rm -f first.o first.out want

echo '$ bin65 ca65 -o first.o first.s'
"$program" ca65 -o first.o ../first.s
echo '$ bin65 ld65 -C first.cfg -o first.out first.o'
"$program" ld65 -C ../first.cfg -o first.out first.o
echo '$ od -A n -t x1 first.out'
od -A n -t x1 first.out
printf '\251\000\252\140\064\022\377\000\005\000' > want
cmp want first.out
echo "The image has the source's ten bytes."
