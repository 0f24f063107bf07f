#!/bin/sh
# Proves and builds the program, as target/bin/conf, or the runs as a static library for C, as target/staticlib/libruns.a.
# usage: sh tools/build.sh program|library
cd "$(dirname "$0")/.." || exit 2
log=$(mktemp) || exit 2
trap 'rm -f "$log"' EXIT

# Runs rt in a crate's folder and puts the file that it must leave there in its place.
built() { # CRATE COMMAND FILE PLACE
    rm -f "crates/$1/out/$3"
    (cd "crates/$1" && rt "$2") </dev/null >"$log" 2>&1
    mkdir -p "$(dirname "$4")" && cp "crates/$1/out/$3" "$4" || { tail -n 20 "$log" >&2; exit 1; }
}

case $1 in
# The program refuses the empty input that it is run on here, so its status says nothing of the build.
program) built conf run conf target/bin/conf ;;
library) built runs_c lib libruns_c.a target/staticlib/libruns.a ;;
*) echo "usage: sh tools/build.sh program|library" >&2; exit 2 ;;
esac
