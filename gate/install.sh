#!/bin/sh
# Installs the files of a release, and takes out what it installed. A list of the files is kept in share/bin65/FILES; what an
# earlier release installed goes first.
# usage: install.sh install FROM DESTDIR PREFIX | uninstall DESTDIR PREFIX
set -eu
what=$1; shift
[ "$what" = install ] && { from=$1; shift; }
prefix=$2 to=$1$2
files=$to/share/bin65/FILES

# remove: takes out the files of the list, and those folders of them that are bin65's alone and are empty then
remove() {
    [ -f "$files" ] || return 0
    names=$(cat "$files")
    echo "$names" | while read -r name; do rm -f "$to/$name"; done
    # a folder is empty only once those within it are gone, so the longest names go first
    echo "$names" | while read -r name; do
        folder=$(dirname "$name")
        while [ "$folder" != . ]; do echo "$folder"; folder=$(dirname "$folder"); done
    done | grep /bin65 | sort -ru | while read -r folder; do rmdir "$to/$folder" 2> /dev/null || true; done
}

# put MODE FILE NAME: installs a file, and notes its name
put() {
    mkdir -p "$(dirname "$to/$3")"
    cp "$2" "$to/$3.new" && chmod "$1" "$to/$3.new" && mv "$to/$3.new" "$to/$3"
    grep -qxF "$3" "$files" || echo "$3" >> "$files"
}

# page EDIT FILE NAME: installs a text that is edited on its way
page() {
    sed "$1" "$2" > "$files.page"
    put 644 "$files.page" "$3"
    rm -f "$files.page"
}

# tree FOLDER PATTERN TO: installs the files of a folder that are so named, in the same folders within it
tree() {
    (cd "$from/$1" && find . -type f -name "$2" ! -path '*/__pycache__/*' ! -path './out/*') | sort | while read -r name; do
        put 644 "$from/$1/$name" "$3/${name#./}"
    done
}

[ "$what" = install ] || [ -f "$files" ] || { echo "bin65 isn't installed in $to"; exit 0; }
remove
[ "$what" = install ] || exit 0
mkdir -p "$to/share/bin65"
echo share/bin65/FILES > "$files"
put 755 "$from/bin65" bin/bin65
for it in VERSION COMMIT example/labels.sh; do put 644 "$from/$it" "share/bin65/${it##*/}"; done
# The pages of docs/ are installed beside README.md, so links between them lose a folder.
for it in README.md CHANGELOG.md CONTRIBUTING.md; do page 's|](docs/|](|g' "$from/$it" "share/doc/bin65/$it"; done
for it in "$from"/docs/*.md; do page 's|](\.\./|](|g' "$it" "share/doc/bin65/${it##*/}"; done
for it in png svg; do tree docs "*.$it" share/doc/bin65; done
tree docs/tables '*' share/doc/bin65/tables
tree example '*' share/doc/bin65/example
page 's|](\.\./\.\./docs/|](../../|g' "$from/example/second/README.md" share/doc/bin65/example/second/README.md
for it in "$from"/man/*.1; do page "s|/usr/local/share/doc/bin65|$prefix/share/doc/bin65|" "$it" "share/man/man1/${it##*/}"; done
tree completions '*' share
tree workbench/work65 '*.py' share/bin65/work65
cat > "$files.work65" <<'END'
#!/bin/sh
# Runs the work65 and the bin65 that are installed with this script.
here=$(cd "$(dirname "$(readlink -f "$0")")" && pwd)
# Until Python has loaded work65, Ctrl-C waits, if this env can hold it back.
held='env --block-signal=INT'
$held true 2> /dev/null || held=
export BIN65="${BIN65:-$here/bin65}" PYTHONDONTWRITEBYTECODE=1
exec $held python3 -c 'import sys; sys.path[0] = sys.argv.pop(1); from work65.__main__ import start; start()' "$here/../share/bin65" "$@"
END
put 755 "$files.work65" bin/work65
rm -f "$files.work65"
