#!/usr/bin/env bash
# Times the reading of large KISS2 texts from outside, beside a plain pass over the same bytes in the same run:
# cutting them into lines. Prints the time of one call, from the difference of many calls and none, so that the
# start of the program and the making of the text are in no column. The answer is the number of states and that of
# rows, or 0 and the line of the first fault.
set -eu
. "$(dirname "$0")/timing.sh"
use_program text_benchmarks

# the time of one call, in milliseconds: kind, size, work, calls
each() {
    awk -v many="$(least_of 5 "$program" "kiss2 $1 $2 $3 $4")" -v none="$(least_of 5 "$program" "kiss2 $1 $2 $3 0")" -v calls="$4" \
        'BEGIN { printf "%.2f", (many - none) / calls / 1000 }'
}

printf '%-9s %9s %10s %10s %10s %7s  %s\n' kind size bytes 'cut (ms)' 'read (ms)' ratio answer
while read -r kind size; do
    cut=$(each "$kind" "$size" cut 5)
    read=$(each "$kind" "$size" read 5)
    ratio=$(awk "BEGIN { printf \"%.1f\", $read / $cut }")
    read -r bytes first second < <("$program" "kiss2 $kind $size read 1" | sed 's/.*: //; s/ bytes,//')
    printf '%-9s %9s %10s %10s %10s %7s  %s\n' "$kind" "$size" "$bytes" "$cut" "$read" "$ratio" "$first $second"
done <<'CASES'
rows 16384
rows 32768
rows 65536
names 8192
names 16384
names 32768
comments 250000
comments 500000
comments 1000000
blanks 1000000
blanks 2000000
blanks 4000000
line 1000000
line 2000000
line 4000000
fields 500000
fields 1000000
fields 2000000
refused 125000
refused 250000
refused 500000
CASES
