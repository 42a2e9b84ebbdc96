#!/bin/sh
# Tries the wrong programs that the gate leaves out: each edit tests/wrong/CRATE/*.edit, of the same form as those of crates/*/must-fail,
# has to be refused by the prover. `rt must-fail` tries them in a copy of the repository. One that is refused only by a limit of the prover, or only
# because a proof names what it took away, counts as not refused, and so do all of a crate that isn't proved itself.
# usage: tests/wrong.sh [CRATE..]    a line for each edit: whether it was refused, and the first thing that the prover found wrong
# Exit status 1 where one was not refused, 2 where nothing could be tried.
set -u
cd "$(dirname "$0")/.." || exit 2
[ $# -gt 0 ] || for folder in tests/wrong/*; do [ ! -d "$folder" ] || set -- "$@" "${folder##*/}"; done
copy=$(mktemp -d) || exit 2
trap 'rm -rf "$copy"' EXIT
trap 'exit 2' HUP INT TERM
mkdir "$copy/crates" && cp crates.txt "$copy" || exit 2
for folder in crates/*; do
    mkdir "$copy/$folder" || exit 2
    for part in "$folder"/*; do
        case ${part##*/} in out | must-fail) ;; *) cp -R "$part" "$copy/$part" || exit 2 ;; esac
    done
done

refused=0 failed=0
for crate; do
    edits=$copy/crates/$crate/must-fail
    [ -d "crates/$crate" ] || { echo "there is no crate $crate"; exit 2; }
    ls "tests/wrong/$crate"/*.edit > /dev/null 2>&1 || { echo "$crate has no edits here"; continue; }
    (cd "$copy/crates/$crate" && rt check) > "$copy/said" 2>&1 || { failed=$((failed + 1)); echo "NOT PROVED   $crate"; continue; }
    mkdir "$edits" && cp "tests/wrong/$crate"/*.edit "$edits" || exit 2
    (cd "$copy" && rt must-fail "$crate") > "$copy/said" 2>&1
    for edit in "$edits"/*.edit; do
        name=$crate/$(basename "$edit")
        line=$(grep -m 1 -F "must-fail $name: " "$copy/said")
        case $line in
        *": refused, as it must be: "*)
            refused=$((refused + 1))
            echo "refused      ${name%.edit}: $(echo "${line#*as it must be: }" | cut -c 1-160)" ;;
        *)
            failed=$((failed + 1))
            echo "NOT REFUSED  ${name%.edit}: ${line:-$(tail -n 1 "$copy/said")}" ;;
        esac
    done
    rm -r "$edits"
done
echo "wrong programs: $refused refused, $failed not"
[ $((refused + failed)) -gt 0 ] || exit 2
[ "$failed" = 0 ]
