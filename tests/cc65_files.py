"""Finds which of cc65's own include files, macro files and scripts bin65 accepts with the same meaning."""
import glob
import os
import re
import subprocess
import tempfile

INCLUDES, SCRIPTS = "/usr/share/cc65/asminc", "/usr/share/cc65/cfg"
# Calls of the macros that a file of macros has.
CALLS = {
    "generic.mac": "l: add #1\n add $1234,x\n sub #2\n sub $10\n bge l\n blt l\n bgt l\n ble l\n bnz l\n bze l\n",
    "cpu.mac": " .byte CPU_6502\n .word CPU_4510\n",
    "module.mac": ' .segment "HEADER"\n nop\n module_header m\n nop\n',
    "longbranch.mac": "l: jeq l\n jne m\nm: nop\n",
    "apple2.mac": ' scrcode "A"\n',
    "atari.mac": ' scrcode "A"\n',
    "cbm.mac": ' scrcode "A"\n',
}
SCRIPT = """MEMORY { Z: file = "", start = 2, size = $FE; M: start = $C000, size = $3000; }
SEGMENTS { ZEROPAGE: load = Z, type = zp, optional = yes; CODE: load = M; DATA: load = M, optional = yes;
    HEADER: load = M, optional = yes; RODATA: load = M, optional = yes; BSS: load = M, type = bss, optional = yes; }
"""


def is_there():
    return os.path.isdir(INCLUDES) and os.path.isdir(SCRIPTS)


def source_of(file):
    """Returns a source that includes a file, calls its macros, and emits the values of the constants that it defines."""
    with open(f"{INCLUDES}/{file}", encoding="latin-1") as it:
        names = re.findall(r"^[ \t]*([A-Za-z_]\w*)[ \t]*:?=", it.read(), re.M)
    places = "".join(f".ifdef {it}\n .dword {it} & $FFFFFFFF\n.endif\n" for it in dict.fromkeys(names))
    return f' .include "{file}"\n' + CALLS.get(file, "") + places + " nop\n"


def image(assembler, linker, source):
    """Returns the image of a source, or None if it is rejected."""
    with tempfile.TemporaryDirectory() as folder:
        for name, text in (("a.s", source), ("a.cfg", SCRIPT)):
            with open(f"{folder}/{name}", "w", encoding="utf-8") as it:
                it.write(text)
        for words in ([*assembler, "-I", INCLUDES, "-o", "a.o", "a.s"], [*linker, "-C", "a.cfg", "-o", "a.bin", "a.o"]):
            if subprocess.run(words, cwd=folder, capture_output=True, check=False).returncode:
                return None
        with open(f"{folder}/a.bin", "rb") as it:
            return it.read()


def taken(program):
    """Returns the files of INCLUDES for which both programs emit the same bytes."""
    for file in sorted(os.listdir(INCLUDES)):
        ours = image([program, "ca65"], [program, "ld65"], source_of(file))
        if ours is not None and ours == image(["ca65"], ["ld65"], source_of(file)):
            yield file


def scripts(program):
    """Returns the scripts of SCRIPTS that are read without a fault."""
    for file in sorted(glob.glob(f"{SCRIPTS}/*.cfg")):
        ran = subprocess.run([program, "ld65", "-C", file, "-o", "/dev/null", "/dev/null"], capture_output=True, text=True, check=False)
        if not ran.stderr.startswith(f"{file}:"):
            yield os.path.basename(file)


if __name__ == "__main__":
    import sys
    print(*taken(sys.argv[1]))
    print(*scripts(sys.argv[1]))
