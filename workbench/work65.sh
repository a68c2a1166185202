#!/bin/sh
# Runs work65 from the tree. Modules in the folder where it is run aren't looked at. Until Python has loaded work65, Ctrl-C waits,
# if this env can hold it back.
here=$(dirname "$(readlink -f "$0")")
held='env --block-signal=INT'
$held true 2> /dev/null || held=
exec $held python3 -c 'import sys; sys.path[0] = sys.argv.pop(1); from work65.__main__ import start; start()' "$here" "$@"
