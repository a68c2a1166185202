"""Opcodes of instructions that no manual of the 6502 has."""
from typing import Dict

_COLUMNS = ("#", "zp", "zp,x", "zp,y", "abs", "abs,x", "abs,y", "(zp,x)", "(zp),y")
_ROWS = """lax AB A7 .. B7 AF .. BF A3 B3
sax .. 87 .. 97 8F .. .. 83 ..
dcp .. C7 D7 .. CF DF DB C3 D3
isc .. E7 F7 .. EF FF FB E3 F3
slo .. 07 17 .. 0F 1F 1B 03 13
rla .. 27 37 .. 2F 3F 3B 23 33
sre .. 47 57 .. 4F 5F 5B 43 53
rra .. 67 77 .. 6F 7F 7B 63 73
anc 0B
alr 4B
arr 6B
axs CB
ane 8B
las .. .. .. .. .. .. BB
sha .. .. .. .. .. .. 9F .. 93
shx .. .. .. .. .. .. 9E
shy .. .. .. .. .. 9C
tas .. .. .. .. .. .. 9B
nop 80 04 14 .. 0C 1C"""
OPCODES: Dict[str, Dict[str, int]] = {
    row.split()[0]: {column: int(it, 16) for column, it in zip(_COLUMNS, row.split()[1:]) if it != ".."} for row in _ROWS.split("\n")
}
OPCODES["jam"] = {"": 0x02}
