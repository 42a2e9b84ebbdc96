#!/bin/sh
# Tests, without proving anything, that each `old:` text of the edits stands exactly once in its file: those of the gate
# (crates/*/must-fail), the other wrong programs (tests/wrong) and the defects of the independent implementation (host/defects).
cd "$(dirname "$0")/.." || exit 1
passed=0 failed=0
for edit in crates/*/must-fail/*.edit tests/wrong/*/*.edit host/defects/*.edit; do
    [ -f "$edit" ] || continue
    case $edit in
    host/*) folder=host ;;
    *) folder=${edit%/*} folder=crates/$(basename "${folder%/must-fail}") ;;
    esac
    if DIR=$folder awk -f tests/edit.awk "$edit"; then passed=$((passed + 1)); else failed=$((failed + 1)); fi
done
echo "edits: $passed passed, $failed failed"
[ "$failed" = 0 ] && [ "$passed" -gt 0 ]
