#!/usr/bin/env bash
# Times `cover` on large gates from outside, beside a plain baseline on the same lists in the same run: the test
# that they may be covered, which looks at each pair of a term of on and a term of off. Prints the time of one call,
# from the difference of many calls and none, so that the start of the program and the making of the lists are in no
# column.
set -eu
. "$(dirname "$0")/timing.sh"
use_program set_benchmarks

# the time of one call, in microseconds: kind, size, work, calls
each() {
    awk -v many="$(least_of 5 "$program" "covers $1 $2 $3 $4")" -v none="$(least_of 5 "$program" "covers $1 $2 $3 0")" -v calls="$4" \
        'BEGIN { printf "%.1f", (many - none) / calls }'
}

printf '%-16s %10s %10s  %8s  %s\n' us check cover 'to check' 'rows, literals'
while read -r kind size calls; do
    check=$(each "$kind" "$size" check "$calls")
    cover=$(each "$kind" "$size" cover "$calls")
    ratio=$(awk "BEGIN { printf \"%8.1f\", $cover / $check }")
    counts=$("$program" "covers $kind $size cover 1" | sed 's/.*: //')
    printf '%-16s %10s %10s  %s  %s\n' "$kind $size" "$check" "$cover" "$ratio" "$counts"
done <<'CASES'
minterms 128 1000
minterms 256 500
minterms 512 200
dense 10 100
dense 12 20
dense 14 4
dense 16 1
counter 6 500
counter 8 100
counter 10 20
terms 250 200
terms 500 100
terms 1000 20
terms 2000 4
terms 4000 1
terms 8000 1
terms 16000 1
terms 32000 1
trees 64 20
trees 128 4
trees 256 1
CASES
