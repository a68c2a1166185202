#!/bin/sh
# Makes a label file of a map: for VICE, or for Mesen and an NES cartridge of 32 KiB without bank switching; with
# mesen-battery the cartridge's RAM at $6000 is one that a battery keeps.
# usage: labels.sh vice|mesen|mesen-battery MAP
case $1 in vice | mesen | mesen-battery) ;; *) echo 'usage: labels.sh vice|mesen|mesen-battery MAP' >&2; exit 1 ;; esac
awk -v form="$1" '
    names && form == "vice" { value = substr($2, 9); sub(/^00/, "", value); print "al", value, "." $1 }
    names && form != "vice" && $1 !~ /^__/ && substr($2, 1, 12) == "000000000000" {
        address = substr($2, 13)
        digit = index("0123456789ABCDEF", substr(address, 1, 1)) - 1
        rest = substr(address, 2)
        if (digit >= 8) print "NesPrgRom:" (digit - 8) rest ":" $1
        else if (digit >= 6) print (form == "mesen" ? "NesWorkRam:" : "NesSaveRam:") (digit - 6) rest ":" $1
        else if (address < "0800") print "NesInternalRam:" address ":" $1
        else print "NesMemory:" address ":" $1
    }
    /^SYMBOLS$/ { names = 1 }
' "$2"
