#!/usr/bin/env bash
# Times `cut_lines` from outside, beside a plain baseline on the same text in the same run: the splits of the
# library, with each line's fields in a list of its own. Prints the time of one call, from the difference of
# many calls and none, the least of five runs.
set -eu
. "$(dirname "$0")/timing.sh"
use_program text_benchmarks

# the time of one call, in microseconds: question, rows, fields of a row, calls
each() {
    awk -v many="$(least_of 5 "$program" "lines $3 $2 $1 $4")" -v none="$(least_of 5 "$program" "lines $3 $2 $1 0")" \
        -v calls="$4" 'BEGIN { printf "%.1f", (many - none) / calls }'
}

printf '%6s %-6s %14s %14s %6s\n' rows fields 'cut (us)' 'lists (us)' ratio
for fields in four five twelve; do
    while read -r rows calls; do
        cut=$(each cut "$rows" "$fields" "$calls")
        lists=$(each lists "$rows" "$fields" "$calls")
        awk -v rows="$rows" -v fields="$fields" -v cut="$cut" -v lists="$lists" \
            'BEGIN { printf "%6d %-6s %14.1f %14.1f %6.2f\n", rows, fields, cut, lists, cut / lists }'
    done <<'SIZES'
1024 640
8192 80
65536 10
SIZES
done
