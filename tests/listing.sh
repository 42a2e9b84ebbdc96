#!/bin/sh
# Runs the proved program `list` on each case of tests/listing and compares what it writes, also through a pipe that gives a few
# bytes at a time; and tries reads and writes that fail. Build it first: tools/build.sh list. The cases: tests/listing/make.py.
# Nothing here looks at the status of a run that fails: it is 0 too (docs/DECISIONS.md, Listing).
cd "$(dirname "$0")/.." || exit 1
program=target/bin/list
passed=0 failed=0
result() { if [ "$1" = 0 ]; then passed=$((passed + 1)); else failed=$((failed + 1)); echo "failed: $2"; fi; }
got=$(mktemp) err=$(mktemp)
for in in tests/listing/*.in; do
    out=${in%.in}.out
    $program < "$in" > "$got" 2> "$err"; [ $? = 0 ] && [ ! -s "$err" ] && cmp -s "$got" "$out"; result $? "$in"
done
for name in example several_buffers two_buffers_odd across_05; do
    dd if=tests/listing/$name.in bs=7 2> /dev/null | $program > "$got"; cmp -s "$got" tests/listing/$name.out; result $? "$name, seven bytes at a time"
done
# A run that fails says so on standard error, and no last line follows.
fails() { ! grep -q '^END\|^ODD\|^BAD' "$got" && grep -q "^$1: " "$err"; result $? "$2"; }
$program < tests > "$got" 2> "$err"; fails 'standard input' "a read of a directory"
$program <&- > "$got" 2> "$err"; fails 'standard input' "a read of a closed input"
: > "$got"
$program < tests/listing/several_buffers.in >&- 2> "$err"; fails 'standard output' "a write to a closed output"
(trap '' XFSZ; ulimit -f 1; $program < tests/listing/dense.in > "$got" 2> "$err"); fails 'standard output' "a write that stops halfway"
: > "$got"
[ ! -w /dev/full ] || { $program < tests/listing/several_buffers.in > /dev/full 2> "$err"; fails 'standard output' "a write to a full disk"; }
rm -f "$got" "$err"
echo "listing: $passed passed, $failed failed"
[ "$failed" = 0 ]
