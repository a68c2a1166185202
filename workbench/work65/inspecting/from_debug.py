"""Makes a linked program from a debug file of ld65 --dbgfile, the sources and the image."""
from typing import Dict, Optional

from work65.formats.debug_records import DebugRecords
from work65.frontend.files import read_text
from work65.inspecting.areas import areas_of_config, needed_by
from work65.inspecting.debug_inputs import DebugInputs
from work65.inspecting.debug_reader import DebugReader
from work65.inspecting.linked import LinkedModule, LinkedProgram
from work65.problem import Problem

CONDES = {".constructor", ".destructor", ".interruptor", ".condes"}
EXPORTS = CONDES | {".export", ".exportzp", ".global", ".globalzp"}


def program_of(reader: DebugReader, script: Optional[str]) -> LinkedProgram:
    """Returns the linked program of a debug file, with the areas of a config if there is one."""
    inputs, segments = reader.inputs, reader.records.all("seg")
    program = LinkedProgram(unknown=list(inputs.unknown), labels=list(reader.labels.values()))
    groups = sorted(reader.groups.items(), key=lambda item: (item[0][0], item[1][0].number))
    program.lines = [line for _, group in groups for line in group]
    text = "" if script is None else read_text(script)
    placed = {it.name(): (it.number("start"), it.number("size")) for it in segments}
    program.areas, program.needed = areas_of_config(text, placed), list(needed_by(text))
    unwritten = (it for it in segments if it.word("type") == "rw" and not it.word("oname"))
    program.variables = [it.name() for it in unwritten]
    for file in {reader.located.place(it.line)[0] for it in reader.located.emitted}:
        program.texts[inputs.names[file]] = inputs.lines(file)
    add_modules(program, reader)
    return program


def add_modules(program: LinkedProgram, reader: DebugReader) -> None:
    """Adds the modules with their exports and imports. The linker itself needs the exports in a
    table of constructors."""
    symbols, known = reader.symbols, sorted(reader.inputs.known)
    modules: Dict[int, LinkedModule] = {}
    for number in known:
        modules[number] = LinkedModule(reader.inputs.module_name(number), [], [])
    program.modules = list(modules.values())
    for number, symbol in enumerate(symbols.all):
        module, name = modules.get(symbols.modules[number]), symbols.names[number]
        if module is None:
            continue
        if symbol.word("type") == "imp":
            module.imports.append(name)
            continue
        heads = set(symbols.heads(number))
        if heads & EXPORTS or number in symbols.imported:
            module.exports.append(name)
            program.needed += [name] if heads & CONDES else []


def linked_program_of(path: str, image: Optional[str], script: Optional[str]) -> LinkedProgram:
    """Returns the linked program of a debug file. `image` replaces the one that the file names."""
    records = DebugRecords(path)
    try:
        return program_of(DebugReader(records, DebugInputs(records, image)), script)
    except (ValueError, KeyError, IndexError) as error:
        raise Problem(f"{path}: the debug file is cut or damaged") from error
