#!/usr/bin/env python3
"""Packs a release of the program, installs it from its archive with no toolchain on the path, runs it, and uninstalls it. Archives that differ
from their checksums, have no version or lack a log of a proof must be rejected. The version is the same in all places. Checks the man
pages: `groff -ww` prints no warning, each is a page, and bin65's has the command lines of docs/LANGUAGE.md.

usage: release.py BIN65. The last line is 'N passed, M failed'."""
import glob
import os
import re
import shutil
import stat
import subprocess
import sys
import tempfile

import links
import pages

sys.path.insert(0, f"{pages.ROOT}/gate")
sys.dont_write_bytecode = True
import release

# The version that is to be released.
VERSION = "1.1"
# Where the system's own commands are.
SYSTEM = "/usr/bin:/bin:/usr/sbin:/sbin"
# All that an empty root has, beside the C library.
COMMANDS = ("sh make tar gzip sha256sum mkdir cp chmod mv rm rmdir dirname readlink find sort sed awk cat grep cmp od head").split()
EMPTY_ROOT = r"""
set -e
cd /work
tar xf bin65-NUMBER.tar.gz
cd bin65-NUMBER
make install > /dev/null
cd ..
printf ' lda #0\n' > a.s
printf 'MEMORY { ROM: start = $8000, size = $10; } SEGMENTS { CODE: load = ROM; }' > a.cfg
/usr/local/bin/bin65 ca65 -o a.o a.s
/usr/local/bin/bin65 ld65 -C a.cfg -o a.bin a.o
od -A n -t x1 a.bin
cat /usr/local/share/bin65/VERSION
cp -R /usr/local/share/doc/bin65/example .
cd example
make BIN65=/usr/local/bin/bin65 TARGET=c64 > /dev/null
sh /usr/local/share/bin65/labels.sh vice out/hello/c64/hello.map | head -1
cd ../bin65-NUMBER
make uninstall
"""
# Where the three shells look for completions of a command.
COMPLETIONS = ("bash-completion/completions/{}", "zsh/site-functions/_{}", "fish/vendor_completions.d/{}.fish")
# The program's crates, each of which has to have a log.
CRATES = ("ar65 asm65 ast65 base65 bin65 cli65 emit65 expand65 ld65 library65 link65 object65 output65 script65 semantics65 sources65 "
          "symbols65 syntax65 tools65 whole65").split()


def run(folder, *words, **how):
    path = {it: os.environ[it] for it in os.environ if not it.startswith("PYTHON")} | {"PATH": "/usr/bin:/bin"}
    return subprocess.run(words, cwd=folder, env=path, capture_output=True, text=True, check=False, **how)


def files(folder):
    """Returns the files below a folder, by their relative names."""
    return {os.path.relpath(f"{place}/{it}", folder) for place, _, names in os.walk(folder) for it in names}


def tracked(*parts):
    return run(pages.ROOT, "git", "ls-files", *parts).stdout.split()


def wanted():
    """Returns the files that must be installed."""
    found = {"bin/bin65", "bin/work65", *(f"share/bin65/{it}" for it in ("FILES", "VERSION", "COMMIT", "labels.sh"))}
    found |= {f"share/doc/bin65/{it}" for it in tracked("README.md", "CHANGELOG.md", "CONTRIBUTING.md", "example")}
    found |= {f"share/doc/bin65/{it[len('docs/'):]}" for it in tracked("docs")}
    found |= {f"share/man/man1/{os.path.basename(it)}" for it in tracked("man")}
    found |= {f"share/{place.format(it)}" for place in COMPLETIONS for it in ("bin65", "work65")}
    return found | {f"share/bin65/{it[len('workbench/'):]}" for it in tracked("workbench/work65") if it.endswith(".py")}


def refused(text):
    """Returns whether a list of changes has no version for a release."""
    try:
        release.version_of(text)
    except release.Refused:
        return True
    return False


def versions(checks):
    """Tests that the version is the same in all places."""
    checks["the version of CHANGELOG"] = release.version_of(pages.read("CHANGELOG.md")) == VERSION
    checks["a heading that is no version"] = refused("# Changes\n\n## Since 1.0\n\n## 1.0\n") and refused("# Changes\n\n## 1.1 soon\n")
    checks["no heading"] = refused("# Changes\n") and release.version_of("# Changes\n\n## 2.10.3\n") == "2.10.3"
    checks["the version of work65"] = run(pages.ROOT, "sh", "workbench/work65.sh", "--version").stdout == f"work65 {VERSION}\n"
    for file in ("README.md", "docs/RELEASE.md", "example/second/workflow.yml"):
        checks[f"the version of {file}"] = set(re.findall(r"bin65-(\d[\d.]*\d)", pages.read(file))) == {VERSION}
    for file in tracked("man"):
        head = pages.read(file).split("\n")[0]
        found = re.findall(r"\d+\.\d+[\d.]*", head)
        checks[f"the version of {file}"] = found == [VERSION] or (not found and not os.path.basename(file).startswith("bin65"))


def pack(program, folder, crates):
    """Packs a release, with the toolchain on the path."""
    words = ["python3", f"{pages.ROOT}/gate/release.py", "pack", program, folder, crates]
    return subprocess.run(words, capture_output=True, text=True, check=False)


def packed(checks, program, top):
    """Tests the archive. Packing without a log must be rejected."""
    for name in CRATES:
        os.makedirs(f"{top}/crates/{name}/out")
        pages.put(f"{top}/crates/{name}/out/prove.log", "logic=proved\n")
    made = [pack(program, f"{top}/{it}", f"{top}/crates") for it in ("one", "two")]
    archives = [f"{top}/{it}/bin65-{VERSION}.tar.gz" for it in ("one", "two")]
    checks["a release is packed"] = not any(it.returncode for it in made) and all(map(os.path.exists, archives))
    if not checks["a release is packed"]:
        print(made[0].stderr)
        return None
    checks["the same archive again"] = open(archives[0], "rb").read() == open(archives[1], "rb").read()
    for name, spoil in (("without a log", os.remove), ("with an empty log", lambda it: pages.put(it, ""))):
        pages.put(f"{top}/crates/asm65/out/prove.log", "logic=proved\n")
        spoil(f"{top}/crates/asm65/out/prove.log")
        ran = pack(program, f"{top}/three", f"{top}/crates")
        checks[f"an archive {name}"] = ran.returncode != 0 and "asm65" in ran.stderr and not os.path.exists(f"{top}/three")
    return archives[0]


def installed(checks, here, top):
    """Tests an installation from the archive, and its removal."""
    made = run(here, "make", "install", f"DESTDIR={top}/to", "PREFIX=/p")
    to, want = f"{top}/to/p", wanted()
    checks["it is installed"] = made.returncode == 0 and not made.stderr
    checks["all files and no other"] = files(to) == want
    if files(to) != want:
        print("installed and not wanted:", files(to) - want, "or not installed:", want - files(to))
    checks["the list of them"] = set(open(f"{to}/share/bin65/FILES", encoding="utf-8").read().split()) == want
    checks["VERSION"] = open(f"{to}/share/bin65/VERSION", encoding="utf-8").read() == f"{VERSION}\n"
    checks["COMMIT"] = open(f"{to}/share/bin65/COMMIT", encoding="utf-8").read().startswith(run(pages.ROOT, "git", "rev-parse", "HEAD").stdout.strip())
    pages.put(f"{top}/a.s", " lda #0\n")
    checks["it runs"] = run(top, f"{to}/bin/bin65", "ca65", "a.s").returncode == 0 and os.path.exists(f"{top}/a.o")
    os.symlink(f"{to}/bin/work65", f"{top}/work65")
    checks["the version of what is installed"] = run(top, f"{to}/bin/work65", "--version").stdout == f"work65 {VERSION}\n"
    for shell, place in zip(("bash", "zsh", "fish"), COMPLETIONS):
        own = open(f"{to}/share/{place.format('work65')}", encoding="utf-8").read()
        checks[f"the completion for {shell}"] = run(top, f"{to}/bin/work65", "completion", shell).stdout == own and "target" in own
    checks["work65 runs"] = all("usage" in run(top, it, "--help").stdout for it in (f"{to}/bin/work65", f"{top}/work65")) and files(to) == want
    for page in ("bin65", "bin65-ca65", "bin65-ld65", "bin65-ar65"):
        text = open(f"{to}/share/man/man1/{page}.1", encoding="utf-8").read().partition(".SH SEE ALSO")[2]
        named = re.findall(r"\w+\.md", text)
        checks[f"{page} names the installed pages"] = "/p/share/doc/bin65 ." in text and "/usr/local" not in text and named and all(
            os.path.exists(f"{to}/share/doc/bin65/{it}") for it in named)
    checks["the links of the installed pages"] = not list(links.all_wrong(f"{to}/share/doc/bin65"))
    tree = run(pages.ROOT, "make", "-o", "program", "install", f"PROGRAM={here}/bin65", f"DESTDIR={top}/tree", "PREFIX=/p")
    checks["the same files from the tree"] = tree.returncode == 0 and files(f"{top}/tree/p") == want and run(top, "diff", "-r", "to", "tree").returncode == 0
    return to


def taken_out(checks, here, top, to):
    """Tests what an uninstall removes, and what the next install removes."""
    pages.put(f"{to}/share/doc/bin65/mine", "a user's own file")
    pages.put(f"{to}/share/bin65/old.py", "a file of an earlier release")
    pages.put(f"{to}/share/bin65/FILES", "share/bin65/old.py\n", True)
    again = run(here, "make", "install", f"DESTDIR={top}/to", "PREFIX=/p")
    checks["installed over an earlier one"] = again.returncode == 0 and files(to) == wanted() | {"share/doc/bin65/mine"}
    gone = run(here, "make", "uninstall", f"DESTDIR={top}/to", "PREFIX=/p")
    checks["it is taken out"] = gone.returncode == 0 and not gone.stderr and files(to) == {"share/doc/bin65/mine"} and not os.path.exists(f"{to}/share/bin65")
    gone = run(pages.ROOT, "make", "uninstall", f"DESTDIR={top}/tree", "PREFIX=/p")
    checks["and by the tree"] = gone.returncode == 0 and not files(f"{top}/tree") and not os.path.exists(f"{top}/tree/p/share/doc/bin65")
    gone = run(here, "make", "uninstall", f"DESTDIR={top}/tree", "PREFIX=/p")
    checks["nothing to take out"] = gone.returncode == 0 and gone.stdout == f"bin65 isn't installed in {top}/tree/p\n"


def by_the_page(checks, archive, top):
    """Tests the first commands of docs/RELEASE.md, as printed there."""
    lines = re.search(r"^```\n(tar .*?)^```$", pages.read("docs/RELEASE.md"), re.M | re.S)[1]
    os.makedirs(f"{top}/home")
    shutil.copy(archive, f"{top}/home")
    how = {**os.environ, "HOME": f"{top}/home"}
    ran = subprocess.run(["sh", "-e", "-c", lines], cwd=f"{top}/home", env=how, capture_output=True, text=True, check=False)
    checks["as RELEASE says"] = ran.returncode == 0 and lines.count("\n") == 3 and files(f"{top}/home/.local") == wanted()
    lines = re.search(r"`(make uninstall .*?)`", pages.read("docs/RELEASE.md"))[1]
    ran = subprocess.run(["sh", "-e", "-c", lines], cwd=f"{top}/home/bin65-{VERSION}", env=how, capture_output=True, text=True, check=False)
    checks["and takes it out"] = ran.returncode == 0 and not files(f"{top}/home/.local")


def libraries_of(file):
    return re.findall(r"/\S+", subprocess.run(["ldd", file], capture_output=True, text=True, check=False).stdout)


def in_an_empty_root(checks, archive, program, top):
    """Installs, runs and uninstalls the archive in a root that has only the C library, a shell, the usual commands and make."""
    if os.geteuid() != 0 or not shutil.which("chroot", path=SYSTEM) or open(program, "rb").read(4) != b"\x7fELF":
        print("this isn't root, or the program is a script: nothing is installed in an empty root")
        return
    root = f"{top}/root"
    os.makedirs(f"{root}/dev")
    os.mknod(f"{root}/dev/null", 0o666 | stat.S_IFCHR, os.makedev(1, 3))
    tools = [os.path.realpath(shutil.which(it, path=SYSTEM)) for it in COMMANDS]
    copied = {file: f"bin/{name}" for file, name in zip(tools, COMMANDS)} | {it: it for file in (*tools, program) for it in libraries_of(file)}
    for file, name in (*copied.items(), (archive, f"work/{os.path.basename(archive)}")):
        os.makedirs(os.path.dirname(f"{root}/{name}"), exist_ok=True)
        shutil.copy(file, f"{root}/{name}")
    pages.put(f"{root}/work/lines", EMPTY_ROOT.replace("NUMBER", VERSION))
    ran = subprocess.run([shutil.which("chroot", path=SYSTEM), root, "/bin/sh", "/work/lines"], env={"PATH": "/bin"}, capture_output=True, text=True, check=False)
    want = f" a9 00\n{VERSION}\nal 00080D .start\n"
    checks["in an empty root"] = ran.returncode == 0 and ran.stdout.endswith(want)
    left = files(f"{root}/usr/local")
    checks["and it goes from there"] = not left
    if not checks["in an empty root"] or left:
        print(ran.stdout[-500:], ran.stderr[-500:], sorted(left)[:5])


def changed(checks, here, top):
    """Tests that files that differ from their checksums are rejected."""
    for file in ("bin65", "docs/LANGUAGE.md", "COMMIT", "VERSION"):
        with open(f"{here}/{file}", "r+b") as it:
            byte = it.read(1)
            it.seek(0)
            it.write(bytes([byte[0] ^ 1]))
            it.flush()
            checks[f"another {file}"] = run(here, "make", "install", f"DESTDIR={top}/no").returncode != 0 and not os.path.exists(f"{top}/no")
            it.seek(0)
            it.write(byte)
    checks["and it is whole again"] = run(here, "make", "install", f"DESTDIR={top}/no").returncode == 0


def libraries(checks, program):
    """Tests that the program needs the version of the C library that docs/RELEASE.md names."""
    if not shutil.which("objdump") or open(program, "rb").read(4) != b"\x7fELF":
        print("objdump isn't here, or the program is a script: the C library that it needs isn't looked at")
        return
    shown = run(".", "objdump", "-T", "-p", program).stdout
    least = max((tuple(map(int, it.split("."))) for it in re.findall(r"GLIBC_(\d[\d.]*\d)", shown)), default=())
    said = re.search(r"with glibc (\d+)\.(\d+) or later", pages.read("docs/RELEASE.md"))
    checks["the least glibc"] = said is not None and least == tuple(map(int, said.groups()))
    needed = set(re.findall(r"NEEDED +(\S+)", shown))
    checks["it needs no other library"] = "It needs no other library." in pages.read("docs/RELEASE.md") and needed - {"ld-linux-x86-64.so.2"} == {"libc.so.6"}


def released(checks, program):
    with tempfile.TemporaryDirectory() as top:
        archive = packed(checks, program, top)
        if not archive:
            return
        run(top, "tar", "xf", archive)
        here = f"{top}/bin65-{VERSION}"
        checks["the links of the archive"] = not list(links.all_wrong(here))
        taken_out(checks, here, top, installed(checks, here, top))
        changed(checks, here, top)
        by_the_page(checks, archive, top)
        in_an_empty_root(checks, archive, program, top)


def man_pages(checks):
    if not shutil.which("groff"):
        print("groff isn't here: the man pages aren't read")
        return
    lines = re.search(r"```\n(bin65 ca65 .*?)```", pages.read("docs/LANGUAGE.md"), re.S)[1].split()
    for file in sorted(glob.glob(f"{pages.ROOT}/man/*.1")):
        name = os.path.basename(file)
        shown = run(".", "groff", "-ww", "-man", "-Tascii", "-P-cbou", "-rLL=200n", file)
        checks[f"{name} is read without a word"] = shown.returncode == 0 and not shown.stderr and "NAME" in shown.stdout
        if not name.startswith("bin65"):
            continue
        checks[f"{name} is a page"] = len(run(".", "groff", "-man", "-Tascii", "-P-cbou", file).stdout.splitlines()) <= 60
        if name == "bin65.1":
            use = shown.stdout.split("SYNOPSIS")[1].split("DESCRIPTION")[0].split()
            checks["the lines of use"] = use == lines


def main():
    checks, program = {}, os.path.abspath(sys.argv[1])
    versions(checks)
    released(checks, program)
    libraries(checks, program)
    man_pages(checks)
    for name, is_so in checks.items():
        if not is_so:
            print(f"{name}: FAILED")
    print(f"{sum(map(bool, checks.values()))} passed, {sum(not it for it in checks.values())} failed")
    sys.exit(not all(checks.values()))


main()
