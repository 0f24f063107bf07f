#!/bin/sh
# Brings this repository's own antt names to the spelling of today's Rattle, after the kit's port.py and before any edit by hand.
# usage: sh tools/port/spell.sh [FOLDER]     FOLDER is the top of a checkout; none is this one
here=$(cd "$(dirname "$0")" && pwd) || exit 2
cd "${1:-$here/../..}" || exit 2
python3 "$here/rename.py" && python3 "$here/keep.py" && python3 "$here/head.py"
