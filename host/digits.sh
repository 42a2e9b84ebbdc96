#!/bin/sh
# The digit writer in use beside the one that it replaced: nanoseconds, and by callgrind the instructions, multiplications and divisions that each
# executes for a number. An instruction that multiplies or divides several numbers at once counts as one. Needs `rt`, valgrind and objdump.
set -eu
cd "$(dirname "$0")"
(cd .. && tools/build.sh measure >/dev/null)
cargo build --release --bin digits --target-dir target
digits=target/release/digits
kept=$(mktemp -d)
trap 'rm -rf "$kept"' EXIT
"$digits" >"$kept/times"
cat "$kept/times"
numbers=$(awk '/ of them measured$/ { print $4 }' "$kept/times")

# Gives how often instructions were executed inside one function and what it calls: all of them, multiplications, divisions.
# The cost of a call, on the line behind `calls=`, is counted where it arises. Every instruction has to be told apart.
count() { # function
    valgrind --tool=callgrind --dump-instr=yes --compress-pos=no --compress-strings=no --toggle-collect="$1" \
        --callgrind-out-file="$kept/counts" "$digits" --once "$1" >/dev/null 2>"$kept/errors" ||
        { cat "$kept/errors" >&2; exit 1; }
    awk -v function_name="$1" 'FNR == NR { if ($1 ~ /^[0-9a-f]+:$/) mnemonic["0x" substr($1, 1, length($1) - 1)] = $2; next }
        /^(summary|totals):/ && !total { total = $2 }
        /^calls=/ { called = 1; next }
        $1 ~ /^0x[0-9a-f]+$/ {
            if (!called && $1 in mnemonic) {
                all += $3
                if (mnemonic[$1] ~ /mul/) multiplied += $3
                if (mnemonic[$1] ~ /div/) divided += $3
            }
            called = 0
        }
        END {
            if (!total || all != total) { print "digits.sh: " all + 0 " of " total + 0 " instructions of " function_name " told apart" > "/dev/stderr"; exit 1 }
            print all, multiplied + 0, divided + 0
        }' "$kept/code" "$kept/counts"
}

objdump -d --no-show-raw-insn "$digits" >"$kept/code"
new=$(count kav_digits)
old=$(count kav_digits_by_division)
echo "$new $old" | awk -v numbers="$numbers" '{
    split("instructions multiplications divisions", name, " ")
    for (k = 1; k <= 3; k++)
        printf "%-34s %9.2f %12.2f %7s\n", name[k], $k / numbers, $(k + 3) / numbers, $(k + 3) ? sprintf("%.2f", $k / $(k + 3)) : "-"
}'
