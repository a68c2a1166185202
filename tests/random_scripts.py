"""Random scripts, with one or two sources for them."""

STANDARD = ("CODE", "RODATA", "DATA", "BSS")
OWN = ("EXTRA", "TABLES", "MUSIC")


def number(chance, value):
    """A number as cc65 takes it."""
    return chance.choice((str(value), f"${value:X}", f"${value:04x}"))


def switch(chance, is_on):
    """A switch as cc65 takes it."""
    return chance.choice(("yes", "true", "1") if is_on else ("no", "false", "0"))


def areas(chance):
    """The areas: name, line of MEMORY, whether it is written."""
    has_banks = chance.random() < 0.3
    found, start = [("ZP", f"ZP: start = $02, size = {number(chance, 0x80)}, file = \"\";", False)], 0x8000
    for name in ("M1", "M2", "M3")[: chance.randint(1, 3)]:
        size = chance.choice((0x100, 0x200, 0x80))
        file = chance.choice(("", ", file = %O", ", file = \"\"" if found[1:] else ""))
        fill = f", fill = {switch(chance, chance.random() < 0.5)}" if chance.random() < 0.5 else ""
        value = f", fillval = {number(chance, chance.randint(0, 255))}" if chance.random() < 0.3 else ""
        define = f", define = {switch(chance, True)}" if chance.random() < 0.3 else ""
        bank = f", bank = {chance.randint(0, 9)}" if has_banks else ""
        begin = f"%S + ${start - 0x8000:X}" if chance.random() < 0.1 else number(chance, start)
        found.append((name, f"{name}: start = {begin}, size = {number(chance, size)}{file}{fill}{value}{define}{bank};", '""' not in file))
        start += chance.choice((size, size, 0x400))
    return found


def rows(chance, names):
    """The rows: segment, line of SEGMENTS."""
    found = [("ZEROPAGE", "ZEROPAGE: load = ZP, type = zp;")]
    segments = [*STANDARD, *OWN[: chance.randint(0, 3)]]
    if chance.random() < 0.5:
        chance.shuffle(segments)
    for it in segments:
        area = chance.choice(names)
        kind = "bss" if it == "BSS" else chance.choice(("ro", "rw", "rw"))
        more = ""
        if chance.random() < 0.3:
            more += f", align = {number(chance, chance.choice((2, 4, 16)))}"
        elif chance.random() < 0.1:
            more += f", offset = {number(chance, chance.choice((0x10, 0x20, 0x40)))}"
        if chance.random() < 0.15 and kind == "rw":
            more += f", run = {chance.choice(names)}"
        if chance.random() < 0.3 or it in OWN:
            more += f", optional = {switch(chance, True)}"
        if chance.random() < 0.2:
            more += f", define = {switch(chance, True)}"
        found.append((it, f"{it}: load = {area}, type = {kind}{more};"))
    return found


def script(chance):
    """A script, and the segments that it has."""
    memory, segments = areas(chance), []
    segments = rows(chance, [it[0] for it in memory[1:]])
    text = "MEMORY {\n" + "".join(f"    {it[1]}\n" for it in memory) + "}\n"
    text += "SEGMENTS {\n" + "".join(f"    {it[1]}\n" for it in segments) + "}\n"
    if chance.random() < 0.3 or "%S" in text:
        text = f"FEATURES {{ STARTADDRESS: default = {number(chance, 0x8000)}; }}\n" + text
    if chance.random() < 0.2:
        text += "FILES { %O: format = bin; }\n"
    text += "SYMBOLS { top: type = export, value = $12; maybe: type = weak, value = 3; }\n"
    return text, [it[0] for it in segments], [it[0] for it in memory[1:] if "define = " in it[1]]


def source(chance, segments, defined, letter, has_banks=False):
    """A source with something in some of the segments."""
    lines = [f".export label_{letter}", ".import top, maybe"]
    for number_of_part in range(chance.randint(2, 7)):
        segment = chance.choice(segments)
        lines.append(f'.segment "{segment}"')
        if segment in ("BSS", "ZEROPAGE"):
            lines.append(f"r{letter}{number_of_part}: .res {chance.randint(1, 6)}")
        else:
            lines.append(chance.choice((f"d{letter}{number_of_part}: .byte {chance.randint(0, 255)}, <top", " nop", " .word *",
                                        f" .byte {chance.randint(0, 255)}", " .align 2", " .res 3, $EE", f" jmp label_{letter}")))
    lines += [".code", f"label_{letter}: lda #<maybe"]
    for area in defined:
        lines += [f".import __{area}_START__, __{area}_LAST__", f" .word __{area}_START__"]
        lines += [f" .word __{area}_LAST__"] if chance.random() < 0.3 else []
    if chance.random() < 0.3:
        lines += [" .byte <.bank(*)"] if has_banks else []
    return "".join(f"{it}\n" for it in lines)


def tree(chance):
    """A script with its sources."""
    text, segments, defined = script(chance)
    files = {"a.s": source(chance, segments, defined, "a", "bank = " in text), "l.cfg": text}
    if chance.random() < 0.5:
        files["b.s"] = source(chance, segments, [], "b")
    return files
