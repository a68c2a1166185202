#!/bin/sh
# Assembles and links three programs of several modules, an NES cartridge and two C64 programs, one of them with
# macros, conditions, repeats and included files and built in three ways, and compares the images and
# the sizes of each module's sections with what cc65 makes of the same sources and scripts; without cc65 the image is
# compared with the checksum of the one that cc65 made.
# usage: programs.sh BIN65
set -eu
program=$1
here=$(cd "$(dirname "$0")" && pwd)

bin65() { "$program" "$@"; }
shown() { echo "\$ $*"; "$@"; }
fail() { echo "programs.sh: $*" >&2; exit 1; }
have() { for tool; do command -v "$tool" > /dev/null || return 1; done; }

# options for both assemblers
options=

# build FOLDER IMAGE CHECKSUM MODULE..: CHECKSUM is what cksum says of cc65's image
build() {
    folder=$1 image=$2 checksum=$3; shift 3
    rm -rf "$here/out/$folder" && mkdir -p "$here/out/$folder/cc65" && cd "$here/out/$folder"
    objects=
    for module; do
        shown bin65 ca65 $options -o "$module.o" "../../$folder/$module.s"
        objects="$objects $module.o"
    done
    shown bin65 ld65 -C "../../$folder.cfg" -o "$image" -m "$folder.map" $objects
    if have ca65 ld65 od65; then
        compare_with_cc65 "$@"
    else
        echo "cc65 isn't here: $image is compared with the checksum of cc65's alone."
    fi
    [ "$(cksum < "$image")" = "$checksum" ] ||
        fail "$image has the checksum $(cksum < "$image"), and the image that cc65 made $checksum"
    echo "$image has the checksum of the image that cc65 makes."
}

# sizes_of MODULE: the segments and sizes of a module's sections that aren't empty, by the map
sizes_of() {
    awk -v module="$1" '/^SEGMENTS$/ { exit } /^[^ ]/ { here = $0 == module; next } here { print $1, $3 }' "$folder.map" |
        while read -r segment size; do
            [ $((0x$size)) = 0 ] || echo "$segment $((0x$size))"
        done | sort
}

# compare_with_cc65 MODULE..: the size of each module's sections, and the image
compare_with_cc65() {
    real=
    for module; do
        ca65 $options -o "cc65/$module.o" "../../$folder/$module.s"
        real="$real cc65/$module.o"
        od65 --dump-segsize "cc65/$module.o" | awk '$2 ~ /^[1-9]/ { sub(":", "", $1); print $1, $2 }' | sort \
            > "cc65/$module.sizes"
        sizes_of "$module.o" > "$module.sizes"
        [ -s "$module.sizes" ] || fail "$module.o has no sections"
        diff "$module.sizes" "cc65/$module.sizes" || fail "$module.o has sections of other sizes than cc65's"
    done
    ld65 -C "../../$folder.cfg" -o "cc65/$image" $real
    [ "$(cksum < "cc65/$image")" = "$checksum" ] ||
        fail "cc65 makes $image with the checksum $(cksum < "cc65/$image") here, and this script has $checksum"
    cmp "$image" "cc65/$image" || fail "$image isn't cc65's"
    echo "$image and the sizes of its modules' sections are those that cc65 makes here."
}

build nes game.nes '3915879728 40976' main controller player tiles
build c64 game.prg '108397790 762' main print numbers
build balls balls.prg '2020342428 705' main screen
options='-D NTSC'
build balls balls.prg '2050229044 705' main screen
options='-D SILENT=1'
build balls balls.prg '1851934032 705' main screen
