#!/bin/sh
# Instructions per word by callgrind: callgrind.sh [WORDS [ROWS]]
# The two sides run in programs of their own, and only what the call itself does is counted.
set -eu
cd "$(dirname "$0")"
words=${1:-100000}
rows=${2:-64}
cargo build --release --bins
bench=target/release/bench

# Gives the instructions counted inside one function.
count() { # call side pattern [words lent]
    out=$(mktemp)
    valgrind --tool=callgrind --callgrind-out-file="$out" --toggle-collect="$3" \
        "$bench" --once "$1" "$2" "$words" "$rows" ${4:+"$4"} >/dev/null 2>"$out.err" ||
        { cat "$out.err" >&2; exit 1; }
    awk '/^(summary|totals):/ { print $2; exit }' "$out"
    rm -f "$out" "$out.err"
}

printf '%-12s %9s %5s %11s %11s %8s\n' call words rows proved reference ratio
for call in run normal_form step write read line lookup scan; do
    name=$(echo "$call" | tr _ ' ')
    # A recording full of scans is played by run.
    case $call in scan) function=run ;; *) function=$call ;; esac
    proved=$(count "$name" proved "kav_$function")
    reference=$(count "$name" reference "kavtziron_host::reference::calls::$function*")
    awk -v c="$name" -v w="$words" -v r="$rows" -v p="$proved" -v q="$reference" 'BEGIN {
        printf "%-12s %9d %5d %11.2f %11.2f %8.2f\n", c, w, r, p / w, q / w, q ? p / q : 0 }'
done

# Several cards on one pair. What the same call does with no word lent, the checks, is taken off and stands behind, in all.
# "to run" is the proved figure over that of kav_run with the first card and the same recording, as "bus run" has it.
echo
printf '%-12s %9s %5s %11s %11s %8s %8s %12s %12s\n' \
    call words rows proved reference ratio "to run" checks reference
alone=0
for name in "bus run" "bus 1" "bus 32" "bus spread"; do
    case $name in "bus run") function=run ;; *) function=bus_run ;; esac
    pattern="kavtziron_host::reference::calls::$function*"
    proved=$(count "$name" proved "kav_$function")
    checks=$(count "$name" proved "kav_$function" 0)
    reference=$(count "$name" reference "$pattern")
    others=$(count "$name" reference "$pattern" 0)
    [ "$alone" != 0 ] || alone=$((proved - checks))
    awk -v c="$name" -v w="$words" -v r="$rows" -v p="$proved" -v k="$checks" -v q="$reference" -v o="$others" \
        -v a="$alone" 'BEGIN { printf "%-12s %9d %5d %11.2f %11.2f %8.2f %8.2f %12d %12d\n",
            c, w, r, (p - k) / w, (q - o) / w, (p - k) / (q - o), (p - k) / a, k, o }'
done
