#!/bin/sh
# Tries the tests themselves: each edit of defects/ makes the reference wrong in one way, in a copy, and the differential tests with the
# archive have to notice. usage: defects.sh [NAME..]    (`tools/build.sh abi` first; KAV_ARCHIVE names another archive; with
# KAV_TEST=shortest it is tests/shortest.rs that has to)
# Exit status 1 where one isn't noticed, 2 where nothing could be tried.
set -u
cd "$(dirname "$0")" || exit 2
case ${KAV_ARCHIVE:=../target/staticlib/libabi.a} in /*) ;; *) KAV_ARCHIVE=$PWD/$KAV_ARCHIVE ;; esac
[ -f "$KAV_ARCHIVE" ] || { echo "no archive at $KAV_ARCHIVE: run tools/build.sh abi first"; exit 2; }
work=$(mktemp -d) || exit 2
trap 'rm -rf "$work"' EXIT
trap 'exit 2' HUP INT TERM

# The copy has no programs and is built with less care for speed.
mkdir "$work/host" && cp -R Cargo.toml Cargo.lock build.rs src tests "$work/host" && rm -r "$work/host/src/bin" || exit 2
cp -R ../samples ../docs "$work" || exit 2
export KAV_ARCHIVE KAV_SEED="${KAV_SEED:-7737595902926417774}" CARGO_TARGET_DIR="$work/target" CARGO_PROFILE_RELEASE_OPT_LEVEL=1 \
    CARGO_PROFILE_RELEASE_LTO=off CARGO_PROFILE_RELEASE_DEBUG=0 CARGO_PROFILE_RELEASE_CODEGEN_UNITS=16 \
    CARGO_PROFILE_RELEASE_INCREMENTAL=true
tests() { (cd "$work/host" && cargo test --release --features archive --test "${KAV_TEST:-differential}" "$@") > "$work/said" 2>&1; }
# A hundredth of the cases, and all of them where these agree.
agree() { KAV_PART=100 tests && tests; }

tests --no-run && agree || { cat "$work/said"; echo "the tests fail with no defect: nothing was tried"; exit 2; }
[ $# -gt 0 ] || for edit in defects/*.edit; do edit=${edit##*/}; set -- "$@" "${edit%.edit}"; done
noticed=0 missed=0
for name; do
    cp -R src/reference "$work/host/src/"
    if ! why=$(DIR="$work/host" WRITE=1 awk -f ../tests/edit.awk "defects/$name.edit" 2>&1); then verdict="BAD EDIT"
    elif ! tests --no-run; then verdict="BAD EDIT" why=$(sed -n '/^error/{p;q;}' "$work/said")
    elif agree; then verdict=MISSED why="all cases agree"
    else verdict=noticed why=$(awk '/^FAILED/ || /panicked at/ { getline what; print $0 ":" what; exit }' "$work/said" | cut -c 1-150); fi
    if [ "$verdict" = noticed ]; then noticed=$((noticed + 1)); else missed=$((missed + 1)); fi
    echo "$verdict  $name: $why"
done
echo "defects: $noticed noticed, $missed not"
[ "$missed" = 0 ]
