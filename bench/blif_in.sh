#!/usr/bin/env bash
# Times the reading of large BLIF texts from outside, beside a plain pass over the same bytes in the same run:
# cutting them into lines. Prints the time of one call, from the difference of many calls and none, so that the
# start of the program and the making of the text are in no column. The answer is the number of inputs and that of
# gates, or 0 and the line of the first fault.
set -eu
. "$(dirname "$0")/timing.sh"
use_program text_benchmarks

# the time of one call, in milliseconds: kind, size, work, calls
each() {
    awk -v many="$(least_of 5 "$program" "blif $1 $2 $3 $4")" -v none="$(least_of 5 "$program" "blif $1 $2 $3 0")" -v calls="$4" \
        'BEGIN { printf "%.2f", (many - none) / calls / 1000 }'
}

printf '%-9s %9s %10s %10s %10s %7s  %s\n' kind size bytes 'cut (ms)' 'read (ms)' ratio answer
while read -r kind size; do
    cut=$(each "$kind" "$size" cut 5)
    read=$(each "$kind" "$size" read 5)
    ratio=$(awk "BEGIN { printf \"%.1f\", $read / $cut }")
    read -r bytes first second < <("$program" "blif $kind $size read 1" | sed 's/.*: //; s/ bytes,//')
    printf '%-9s %9s %10s %10s %10s %7s  %s\n' "$kind" "$size" "$bytes" "$cut" "$read" "$ratio" "$first $second"
done <<'CASES'
gates 16384
gates 32768
gates 65536
names 16384
names 32768
names 65536
chain 16383
chain 32767
chain 65535
ring 16383
ring 32767
ring 65535
rows 250000
rows 500000
rows 1000000
continued 250000
continued 500000
continued 1000000
blanks 500000
blanks 1000000
blanks 2000000
line 1000000
line 2000000
line 4000000
fields 500000
fields 1000000
fields 2000000
refused 250000
refused 500000
refused 1000000
CASES
