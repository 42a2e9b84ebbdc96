#!/bin/sh
# Proves and builds crates, and puts what is built where the other scripts look for it: the archive of a static library as
# target/staticlib/libNAME.a, a program as target/bin/NAME.
# usage: tools/build.sh NAME..
cd "$(dirname "$0")/.." || exit 1
for name; do
    if grep -q "^$name staticlib" crates.txt; then
        (cd "crates/$name" && rt lib) || exit 1
        built=crates/$name/out/lib$name.a to=target/staticlib
    else
        # A program is built where it is run: here on no input.
        (cd "crates/$name" && rt run < /dev/null) || exit 1
        built=crates/$name/out/$name to=target/bin
    fi
    mkdir -p "$to" && cp "$built" "$to/" || exit 1
done
