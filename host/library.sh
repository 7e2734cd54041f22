#!/bin/sh
# Proves and builds the C entries of the libraries NAME.. (default: mars) and puts the archives where C and the harness find them:
# target/staticlib/libNAME.a.
set -eu
cd "$(dirname "$0")/.."
[ $# -gt 0 ] || set -- mars
mkdir -p target/staticlib
for name in "$@"; do
    entries=crates/${name}_c
    [ -d "$entries" ] || { echo "host/library.sh: no C entries of '$name'" >&2; exit 2; }
    (cd "$entries" && rt lib)
    cp "$entries/out/lib${name}_c.a" "target/staticlib/lib$name.a"
done
