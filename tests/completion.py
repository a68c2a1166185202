#!/usr/bin/env python3
"""Completes lines of work65 and of bin65 in bash, by the scripts that `work65 completion` writes: subcommands, options, their
choices, scripts, folders and files. The options are those of each `--help`, and bin65's lines are those of docs/LANGUAGE.md and of
the crate that reads them. If zsh and fish are installed, they read their scripts without completing anything; otherwise only the
scripts' quotes are checked.

usage: completion.py. The last line is 'N passed, M failed'."""
import argparse
import os
import re
import shlex
import shutil
import subprocess
import sys
import tempfile

import pages
import results

sys.path.insert(0, f"{pages.ROOT}/workbench")
sys.dont_write_bytecode = True
from work65.completing import scripts, tables  # noqa: E402

FILES = ("a.s", "b.inc", "game.cfg", "my file.s", "sub/c.s")
EVERY, SCRIPTS = "a.s b.inc game.cfg my|file.s sub", "game.cfg sub"
# Lines, and what each is completed to; a blank within a name is written as |.
LINES = {
    "work65 ch": "check", "work65 --": "--help --version", "work65 x": "",
    "work65 check --": "--bin65 --help --json --target", "work65 check --target ap": "apple2 apple2enh",
    "work65 check --target=c6": "c64", "work65 check --target=": None, "work65 port -t c6": "c64", "work65 port -o ": "sub",
    "work65 port -I sub ": EVERY, "work65 labels --format ": "fceux mesen nocash vice", "work65 labels --format=m": "mesen",
    "work65 list -C ": SCRIPTS, "work65 list -C game": "game.cfg", "work65 list -C b": "b.inc", "work65 list -I ": "sub",
    "work65 list -D ": "", "work65 list -D A=": "", "work65 list -D A=5 --by": "--bytes", "work65 list -C game.cfg ": EVERY,
    "work65 list -C game.cfg -": "-C -D -I -g -h -o --bin65 --bytes --cycles --dbgfile --help --image --json --library", "work65 list my": "my|file.s",
    "work65 pages -C ": SCRIPTS, "work65 unused -C game.cfg --en": "--entry", "work65 unused --entry ": "", "work65 banks -C game.cfg --j": "--json",
    "work65 pages --db": "--dbgfile",
    "work65 size --diff ": EVERY, "work65 list -- -": "", "work65 list sub/": "sub/c.s", "work65 size a.s --sv": "--svg", "work65 list --library lib=s": "sub",
    "work65 faults a.s ": "", "work65 faults -g ": EVERY, "work65 completion ": "bash fish zsh", "work65 completion zsh ": "bin65 work65",
    "work65 completion bash work65 ": "", "work65 explain -- printen": "printenv", "work65 second --image ": EVERY,
    "bin65 ": "ar65 ca65 ld65", "bin65 -": "", "bin65 ca65 -": "-D -I -g -o", "bin65 ca65 a.s ": "", "bin65 ca65 -I ": "sub",
    "bin65 ca65 -o a.o -D A ": EVERY, "bin65 ld65 -": "-C -m -o", "bin65 ld65 -o out -C ": SCRIPTS, "bin65 ld65 a.s -m ": EVERY,
    "bin65 ar65 ": "d r t x", "bin65 ar65 r ": EVERY, "bin65 ar65 r l.lib ": EVERY, "bin65 ar65 r l.lib a.s ": EVERY, "bin65 ar65 -": "",
}  # fmt: skip
# Prints what the words are completed to, of which the last one is being written.
ASK = """
complete_words() {
    local COMP_WORDS=("$@") COMP_CWORD=$(($# - 1))
    "_$1"
    printf '%s\\n' "${COMPREPLY[@]}"
    echo --
}
"""
# What a line of the crate adds to a command, by the function's name: how often an option or a word is allowed.
ADDS = {"with_option": "[-{} X]", "with_required_option": "-{} X", "with_repeated_option": "[-{} X]..", "with_flag": "[-{}]",
        "with_positional": "W", "with_required_positionals": "W..", "with_optional_positionals": "[W].."}


def words_of(line):
    """The words of a line as bash parts them for a completion: an `=` is a word of its own."""
    found = [word for part in line.split(" ") for word in (re.findall(r"=|[^=]+", part) or [""])]
    return [*found[:-1], found[-1]]


def bash(folder, texts, lines):
    """Returns the completions of each line, by bash in a folder."""
    asked = "".join(f"complete_words {shlex.join(words_of(it))}\n" for it in lines)
    how = {**os.environ, "LC_ALL": "C"}
    ran = subprocess.run(["bash", "--norc", "-c", "\n".join([*texts, ASK, asked])], cwd=folder, env=how, capture_output=True, text=True, check=False)
    answers = [sorted({*filter(None, it.split("\n"))}) for it in ran.stdout.split("--\n")[:-1]] if not ran.stderr else []
    if ran.stderr:
        print(ran.stderr)
    return dict(zip(lines, answers))


def help_of(command):
    """The options that the help of a subcommand shows."""
    words = [sys.executable, "-B", "-m", "work65", command, "--help"]
    shown = subprocess.run(words, cwd=f"{pages.ROOT}/workbench", capture_output=True, text=True, check=True).stdout
    lines = re.findall(r"^  (-.*)$", shown, re.M)
    return {it for line in lines for it in re.findall(r"(?:^|, )(--?[\w-]+)", line.split("  ")[0])}


def in_bash(checks):
    """Completes lines in bash."""
    texts = [scripts.script_of("bash", it) for it in scripts.PROGRAMS]
    listed = re.findall(r"^\| \[`(\w+)`\]", pages.read("docs/WORKBENCH.md"), re.M)
    options = {f"work65 {it} -": sorted(help_of(it)) for it in listed}
    with tempfile.TemporaryDirectory() as folder:
        os.makedirs(f"{folder}/sub")
        for it in FILES:
            pages.put(f"{folder}/{it}", "")
        lines = {name: sorted(it.replace("|", " ") for it in wanted.split()) for name, wanted in LINES.items() if wanted is not None}
        lines.update({"work65 ": sorted(listed), **options})
        found = bash(folder, texts, [*lines, "work65 check --target="])
    for name, wanted in lines.items():
        checks[f"{name}: {found.get(name)}"] = found.get(name) == wanted
    checks["all targets"] = len(found.get("work65 check --target=", ())) > 25
    for shell in scripts.SHELLS:
        text = scripts.script_of(shell, "work65")
        plain = {it for names in options.values() for it in names} - {"-h"}
        lost = [it for it in plain if not re.search(rf"-l {it[2:]} " if it.startswith("--") else rf"-s {it[1:]} ", text)] if shell == "fish" else [
            it for it in plain if it not in text]
        checks[f"{shell} has each option: {lost}"] = not lost and len(plain) > 15


def form(parser):
    """The forms of a parser's arguments, and its line of usage as docs/LANGUAGE.md writes it."""
    forms, usage = [], [parser.prog]
    for it in parser._actions:
        name, dots = it.metavar, ".." * (it.nargs in ("+", "*") or isinstance(it, argparse._AppendAction))
        if it.option_strings:
            flag = it.option_strings[0]
            has_value = it.nargs != 0
            forms.append((flag + " X" * has_value) if it.required else f"[{flag}{' X' * has_value}]{dots}")
            usage.append(f"{flag} {name}" if it.required else f"[{flag}{f' {name}' if has_value else ''}]{dots}")
        else:
            forms.append(f"[W]{dots}" if it.nargs == "*" else f"W{dots}")
            usage.append(f"[{name}]{dots}" if it.nargs == "*" else f"{name}{dots}")
    return sorted(forms), " ".join(usage)


def own_lines(checks):
    """bin65's table, against its page and the crate that reads its lines."""
    parts = tables.bin65()._subparsers._group_actions[0].choices
    lines = re.search(r"```\n(bin65 ca65 .*?)```", pages.read("docs/LANGUAGE.md"), re.S)[1].splitlines()
    usages = [form(it)[1] for it in parts.values()]
    checks[f"the lines of LANGUAGE: {usages}"] = [sorted(it.split()) for it in usages] == [sorted(it.split()) for it in lines]
    text = pages.read("crates/cli65/src/commands.rt")
    for name, parser in parts.items():
        body = re.search(rf"^fn {name}<.*?^}}", text, re.M | re.S)[0]
        calls = re.findall(r"(with_\w+)\(\s*alloc,\s*[^\"]*\"(\w+)\"(?:,\s*'(\w)')?,?\s*\)", re.sub(r'Command::new\(alloc, "\w+"\)', "command", body))
        forms = sorted(ADDS[function].format(short) for function, _, short in calls)
        checks[f"cli65's words of {name}: {forms}"] = len(calls) >= 3 and forms == form(parser)[0]
    checks["cli65's subcommands"] = re.findall(r'Command::new\(alloc, "(\w+65)"\)', text) == [*parts, "bin65"]


def others(checks):
    """The scripts of zsh and fish are read."""
    with tempfile.TemporaryDirectory() as folder:
        for shell, option in (("bash", "-n"), ("zsh", "-n"), ("fish", "--no-execute")):
            for name in scripts.PROGRAMS:
                text = scripts.script_of(shell, name)
                pages.put(f"{folder}/{shell}", text)
                if shutil.which(shell):
                    ran = subprocess.run([shell, option, f"{folder}/{shell}"], capture_output=True, text=True, check=False)
                    checks[f"{shell} reads the script of {name}: {ran.stderr}"] = ran.returncode == 0 and not ran.stderr
                elif shell == "fish":
                    word = r"(?:'(?:\\['\\]|[^'\\])*'|[\w.:/-]+)"
                    wrong = [it for it in text.splitlines() if it and not re.fullmatch(rf"#.*|complete(?: {word})+", it)]
                    checks[f"fish isn't here; the words of the script of {name}: {wrong[:1]}"] = not wrong and text.count("\n") > 10
                else:
                    words = shlex.split(text, comments=True)
                    checks[f"{shell} isn't here; the quotes of the script of {name}"] = words[-1] == "$@" and "_arguments" in words


def main():
    checks = {}
    in_bash(checks)
    own_lines(checks)
    others(checks)
    sys.exit(results.report(checks))


main()
