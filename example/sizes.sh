#!/bin/sh
# Links one program into cartridges of 4, 8 and 16 KiB by one script, of which one symbol's value is another each time, and
# compares each image with the bytes that it has to have.
# usage: sizes.sh BIN65
set -eu
program=$1
here=$(cd "$(dirname "$0")" && pwd)
rm -rf "$here/out/sizes" && mkdir -p "$here/out/sizes" && cd "$here/out/sizes"

echo '$ bin65 ca65 -o sizes.o sizes.s'
"$program" ca65 -o sizes.o ../../sizes.s

# build SIZE PAGE GAP: the cartridge of this size, in hex; its first page, in octal; and how many bytes lie between code and
# vectors
build() {
    sed "s/value = .1000/value = \$$1/" ../../sizes.cfg > "$1.cfg"
    echo "\$ bin65 ld65 -C $1.cfg -o $1.bin sizes.o"
    "$program" ld65 -C "$1.cfg" -o "$1.bin" sizes.o
    {
        printf '\242\175\251\000\235\202\000\312\320\372\215\203\000'
        printf "\\114\\015\\$2"
        head -c "$3" /dev/zero | tr '\000' '\377'
        printf "\\015\\$2\\000\\$2\\015\\$2"
    } > want
    cmp want "$1.bin"
}

build 1000 360 4074
build 2000 340 8170
build 4000 300 16362
echo "The cartridges of 4, 8 and 16 KiB have the same code at their own addresses."
