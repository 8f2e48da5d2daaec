#!/usr/bin/env bash
# Times meet, join and order of partitions from outside, as labels and as rows of bits, beside a
# plain baseline over the same partitions in the same run: whether each pair of states is together in both.
# Prints the time of one call, from the difference of many calls and none.
set -eu
. "$(dirname "$0")/timing.sh"
use_program set_benchmarks

# the least of five runs, in microseconds: question, how partitions are kept, kind, states, calls
least() {
    least_of 5 "$program" "$2 $3 $4 $1 $5"
}

# the time of one call, in microseconds: question, how partitions are kept, kind, states, calls
each() {
    awk -v many="$(least "$1" "$2" "$3" "$4" "$5")" -v none="$(least "$1" "$2" "$3" "$4" 0)" -v calls="$5" \
        'BEGIN { printf "%.3f", (many - none) / calls }'
}

# the times of a call on labels and on rows of bits, and their ratio: question, kind, states, calls
pair() {
    awk -v labels="$(each "$1" labels "$2" "$3" "$4")" -v bits="$(each "$1" bits "$2" "$3" "$4")" \
        'BEGIN { printf "%6.2f %6.2f %5.2f", labels, bits, bits / labels }'
}

# the time of the baseline, and its ratio to the meet of rows: kind, states
beside_plain() {
    awk -v plain="$(each plain labels "$1" "$2" 2000)" -v bits="$(each meet bits "$1" "$2" 50000)" \
        'BEGIN { printf "%6.1f %6.0f", plain, plain / bits }'
}

printf '%-6s %6s  %20s  %20s  %20s  %14s\n' us '' 'meet, bits, ratio' \
    'join, bits, ratio' 'before, bits, ratio' 'plain, to bits'
for kind in few ladder alone; do
    for states in 64 128 256; do
        printf '%-6s %6s  %20s  %20s  %20s  %14s\n' "$kind" "$states" "$(pair meet "$kind" "$states" 50000)" \
            "$(pair join "$kind" "$states" 50000)" "$(pair before "$kind" "$states" 500000)" \
            "$(beside_plain "$kind" "$states")"
    done
done
