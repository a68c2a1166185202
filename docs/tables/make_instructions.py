#!/usr/bin/env python3
"""Writes the mnemonics and the table of opcodes from opcodes.txt: code and definitions.
Run it anywhere, then `rt fmt` in the crate."""
import os

HERE = os.path.dirname(os.path.abspath(__file__))
CRATE = os.path.join(HERE, "../../crates/syntax65")
MODES = [
    ("implied", "Implied", "No operand."),
    ("accumulator", "Accumulator", "`a`, or no operand, for an instruction that also accepts memory."),
    ("immediate", "Immediate", "`#e`: a byte."),
    ("zeropage", "ZeroPage", "`e` in the zero page."),
    ("zeropage_x", "ZeroPageX", "`e,x` in the zero page."),
    ("zeropage_y", "ZeroPageY", "`e,y` in the zero page."),
    ("absolute", "Absolute", "`e`: a word."),
    ("absolute_x", "AbsoluteX", "`e,x`: a word."),
    ("absolute_y", "AbsoluteY", "`e,y`: a word."),
    ("indirect", "Indirect", "`(e)`: a word."),
    ("indirect_x", "IndirectX", "`(e,x)` in the zero page."),
    ("indirect_y", "IndirectY", "`(e),y` in the zero page."),
    ("relative", "Relative", "The target of a branch: a byte."),
]
VARIANT = {word: variant for word, variant, _ in MODES}
# forms of operand that instructions have, no other form beside them: a list of them, one alone, or one before those of another row
COUNT = ("zeropage", "zeropage_x", "absolute", "absolute_x")
STORE = (*COUNT, "absolute_y", "indirect_x", "indirect_y")
ROWS = {
    "count": ("counting: `e` and `e,x` in the zero page, and as words", COUNT),
    "shift": ("shifts: `a`, and the forms of counting", ("accumulator", *COUNT)),
    "store": ("stores of `a`: the forms of counting, then `e,y`, `(e,x)` and `(e),y`", STORE),
    "arithmetic": ("arithmetic and loads of `a`: a byte, and the forms of its stores", ("immediate", *STORE)),
    "implied": ("without an operand", ("implied",)),
    "branch": ("branches", ("relative",)),
}
BEHIND = {"shift": "count", "arithmetic": "store"}
# what the functions of the rows return
RETURNED = {
    "count": "for counting: `e` and `e,x`, in the zero page and as words",
    "shift": "of a shift: `a`, and the forms of counting",
    "store": "of a store of `a`: counting, then `e,y`, `(e,x)`, `(e),y`",
    "arithmetic": "of arithmetic or a load of `a`: a byte, and the forms of\n/// stores",
    "implied": "of an instruction without an operand",
    "branch": "of a branch",
}


def read_table():
    """(mnemonic, mode word) -> opcode, as two hex digits"""
    table, columns = {}, []
    for line in open(os.path.join(HERE, "opcodes.txt")):
        words = line.split("#")[0].split()
        if not words:
            continue
        if line.startswith(" "):
            columns = words
            continue
        assert len(words) == len(columns) + 1, line
        for mode, code in zip(columns, words[1:]):
            if code != "-":
                table[words[0], mode] = code
    assert len(table) == 151 and len(set(table.values())) == 151
    return table


def write(path, text):
    path = os.path.join(CRATE, path)
    os.makedirs(os.path.dirname(path), exist_ok=True)
    open(path, "w").write(text)


def names_rt(names):
    variants = "".join(f"    {n.capitalize()},\n" for n in names)
    listed = "".join(f"        Mnemonic::{n.capitalize()},\n" for n in names)
    named = "".join(f'            Mnemonic::{n.capitalize()} => b"{n}",\n' for n in names)
    return f'''//! The mnemonics.

ghost use Rattle.std.specs.Prelude.{{◌≡◌}};

/// A mnemonic of the 6502.
#[derive(Clone, Copy, PartialEq, Eq)]
pub enum Mnemonic {{
{variants}}}

impl Mnemonic {{
    ghost use Rattle.syntax65.specs.Mnemonics.{{name_of}};

    /// All of them, by name.
    pub const ALL: [Mnemonic; {len(names)}] = [
{listed}    ];

    /// Returns the name in lower case.
    pub fn name(self) -> &'static [u8]
        ensures {{ result.now ≡ name_of self }}
    {{
        match self {{
{named}        }}
    }}
}}
'''


def lookup_rt(names):
    arms = "".join(f"        [b'{n[0]}', b'{n[1]}', b'{n[2]}'] => Mnemonic::{n.capitalize()},\n" for n in names)
    return f'''//! Looks up mnemonics by name.

ghost use Rattle.std.specs.Prelude.{{◌≡◌}};
ghost use Rattle.syntax65.specs.Forms.{{IsFound}};
ghost use Rattle.syntax65.specs.Mnemonics.{{SpellsMnemonic, mnemonic_of, name_of}};

use super::names::Mnemonic;

/// Returns the mnemonic with this name, in upper or lower case.
pub fn mnemonic(bytes: &[u8]) -> Option<Mnemonic>
    ensures value {{ result ≡ mnemonic_of bytes.now }}
    ensures spelled {{ IsFound (SpellsMnemonic bytes.now) result }}
{{
    match bytes {{
        [first, second, third] => mnemonic_of_letters([
            first.to_ascii_lowercase(),
            second.to_ascii_lowercase(),
            third.to_ascii_lowercase(),
        ]),
        _ => None,
    }}
}}

/// Returns the mnemonic with this name of three lower-case letters.
fn mnemonic_of_letters(letters: [u8; 3]) -> Option<Mnemonic>
    ensures {{ IsFound (λ m. letters ≡ name_of m) result }}
{{
    Some(match letters {{
{arms}        _ => return None,
    }})
}}
'''


def names_antt(names):
    variants = ", ".join(n.capitalize() for n in names)
    rows = "".join(f'name_of {n.capitalize()} = codes "{n}"\n' for n in names)
    return f'''-- The names of the mnemonics.
use Rattle.std.specs.Prelude.{{◌≡◌, ℕ, List, codes, map, Option, find}}
use Rattle.std.specs.Str.{{str_eq_ignore_ascii_case}}
use Rattle.std.specs.Char.{{to_ascii_lowercase}}
use Rattle.syntax65.specs.declared.instructions.names.Mnemonic.{{Mnemonic}}
use Rattle.syntax65.specs.declared.instructions.names.Mnemonic.TheVariants.{{{variants}}}
use Rattle.syntax65.specs.declared.instructions.names.TheConstants.Mnemonic.{{ALL}}

-- in lower case
abbrev pub name_of : Mnemonic → List ℕ
{rows}
-- the bytes are the name, in either case
abbrev pub SpellsMnemonic : List ℕ → Mnemonic → Type 0
SpellsMnemonic bytes m = map to_ascii_lowercase bytes ≡ name_of m

-- the mnemonic that the bytes spell
unfoldable pub mnemonic_of : List ℕ → Option Mnemonic
mnemonic_of bytes = find (λ m. str_eq_ignore_ascii_case bytes (name_of m)) ALL
'''


def rows_of(table, names):
    """The instructions by the forms that they have: those of one of the ROWS, and all others."""
    columns = {it: tuple(w for w, _, _ in MODES if (it, w) in table) for it in names}
    rows = [(it, row) for it in names for row, (_, words) in ROWS.items() if columns[it] == words]
    listed = {it for it, _ in rows}
    return rows, [(it, w) for it in names if it not in listed for w, _, _ in MODES if (it, w) in table]


def codes_antt(table, names):
    variants = ", ".join(n.capitalize() for n in names)
    modes = ", ".join(v for _, v, _ in MODES)
    rows, others = rows_of(table, names)
    kinds = ""
    for row, (doc, words) in ROWS.items():
        first, behind = VARIANT[words[0]], BEHIND.get(row)
        if behind:
            kind, clauses = "ℕ → List ℕ", [f"code codes {first} = Some code", f"code codes mode = {behind} codes mode"]
        elif len(words) == 1:
            kind, clauses = "ℕ", [f"code {first} = Some code", "code _ = None"]
        else:
            own = [(i, w) for i, w in enumerate(words) if row == "count" or w not in COUNT]
            kind, clauses = "List ℕ", [f"codes {VARIANT[w]} = Some (get_or codes {i} 0)" for i, w in own]
            clauses.append("codes _ = None" if row == "count" else "codes mode = count codes mode")
        kinds += f"-- {doc}\nabbrev pub {row} : {kind} → Mode → Option ℕ\n" + "".join(f"{row} {it}\n" for it in clauses) + "\n"
    alone = "".join(f"other_opcode {n.capitalize()} {VARIANT[w]} = Some 0x{table[n, w]}\n" for n, w in others)
    listed = ""
    for n, row in rows:
        first, *behind = (f"0x{table[n, w]}" for w in ROWS[row][1])
        if behind and row not in BEHIND:
            behind, first = [first, *behind], ""
        codes = f"({' ∷ '.join(behind)} ∷ [])" if behind else ""
        listed += f"opcode_of {n.capitalize()} mode = {' '.join(filter(None, [row, first, codes]))} mode\n"
    return f'''-- The table of opcodes.
use Rattle.std.specs.Prelude.{{ℕ, List, [], ◌∷◌, get_or, Option, Some, None}}
use Rattle.syntax65.specs.declared.instructions.names.Mnemonic.{{Mnemonic}}
use Rattle.syntax65.specs.declared.instructions.names.Mnemonic.TheVariants.{{{variants}}}
use Rattle.syntax65.specs.declared.instructions.codes.Mode.{{Mode}}
use Rattle.syntax65.specs.declared.instructions.codes.Mode.TheVariants.{{{modes}}}

{kinds}-- instructions with other forms
abbrev pub other_opcode : Mnemonic → Mode → Option ℕ
{alone}other_opcode _ _ = None

-- the opcode of a mnemonic with a form of operand
abbrev pub opcode_of : Mnemonic → Mode → Option ℕ
{listed}opcode_of m mode = other_opcode m mode
'''


def codes_rt(table, names):
    variants = "".join(f"    /// {doc}\n    {v},\n" for _, v, doc in MODES)
    rows, others = rows_of(table, names)
    listed = ""
    for n, row in rows:
        first, *behind = (f"0x{table[n, w]}" for w in ROWS[row][1])
        if behind and row not in BEHIND:
            behind, first = [first, *behind], ""
        codes = f"[{', '.join(behind)}]" if behind else ""
        listed += f"        Mnemonic::{n.capitalize()} => {row}({', '.join(filter(None, ['mode', first, codes]))}),\n"
    kinds = ""
    for row, (_, words) in ROWS.items():
        first, behind = VARIANT[words[0]], BEHIND.get(row)
        arms = [f"Mode::{first} => Some(code)"]
        if behind:
            kind, given = f"code: u8, codes: [u8; {len(words) - 1}]", "code codes"
            arms.append(f"_ => {behind}(mode, codes)")
        elif len(words) == 1:
            kind, given = "code: u8", "code"
            arms.append("_ => None")
        else:
            kind, given = f"codes: [u8; {len(words)}]", "codes"
            arms = [f"Mode::{VARIANT[w]} => Some(codes[{i}])" for i, w in enumerate(words)] + ["_ => None"]
        arms = "".join(f"        {it},\n" for it in arms)
        kinds += f'''
/// Returns the opcode {RETURNED[row]}.
fn {row}(mode: Mode, {kind}) -> Option<u8>
    ensures {{ result ≡ {row} {given} mode }}
{{
    match mode {{
{arms}    }}
}}
'''
    alone = "".join(f"        (Mnemonic::{n.capitalize()}, Mode::{VARIANT[w]}) => 0x{table[n, w]},\n" for n, w in others)
    return f'''//! The opcodes.

ghost use Rattle.std.specs.Prelude.{{◌≡◌}};
ghost use Rattle.syntax65.specs.Opcodes.{{{", ".join(ROWS)}, opcode_of, other_opcode}};

use super::names::Mnemonic;

/// A form of operand.
#[derive(Clone, Copy)]
pub enum Mode {{
{variants}}}

/// Returns the opcode of a mnemonic with a form of operand, if the instruction has
/// it.
pub fn opcode(mnemonic: Mnemonic, mode: Mode) -> Option<u8>
    ensures {{ result ≡ opcode_of mnemonic mode }}
{{
    match mnemonic {{
{listed}        _ => other_opcode(mnemonic, mode),
    }}
}}
{kinds}
/// Returns the opcode of an instruction with other forms.
fn other_opcode(mnemonic: Mnemonic, mode: Mode) -> Option<u8>
    ensures {{ result ≡ other_opcode mnemonic mode }}
{{
    Some(match (mnemonic, mode) {{
{alone}        _ => return None,
    }})
}}
'''


def main():
    table = read_table()
    names = sorted({name for name, _ in table})
    assert len(names) == 56
    write("src/instructions/names.rt", names_rt(names))
    write("src/instructions/lookup.rt", lookup_rt(names))
    write("src/instructions/codes.rt", codes_rt(table, names))
    write("specs/Mnemonics.antt", names_antt(names))
    write("specs/Opcodes.antt", codes_antt(table, names))


main()
