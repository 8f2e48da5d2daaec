#!/usr/bin/env bash
# Times runs of networks on symbols from outside, beside a plain run in the same program, which evaluates each
# gate for each symbol by its rows, character by character. Prints the time of one run, without that of a run that
# only makes the texts, reads the network and puts it in order.
set -eu
. "$(dirname "$0")/timing.sh"
use_program text_benchmarks

# the time of the work, in milliseconds: kind, size, symbols, work
each() {
    awk -v all="$(least_of 3 "$program" "networks $1 $2 $4 $3")" -v order="$(least_of 3 "$program" "networks $1 $2 order $3")" \
        'BEGIN { printf "%.2f", (all - order) / 1000 }'
}

printf '%-8s %6s %8s %11s %10s %6s  %s\n' kind size symbols 'plain (ms)' 'run (ms)' ratio 'gates, ones'
while read -r kind size symbols; do
    plain=$(each "$kind" "$size" "$symbols" plain)
    run=$(each "$kind" "$size" "$symbols" run)
    ratio=$(awk "BEGIN { printf \"%.1f\", $plain / $run }")
    answer=$("$program" "networks $kind $size run $symbols" | sed 's/.*bytes, //')
    printf '%-8s %6s %8s %11s %10s %6s  %s\n' "$kind" "$size" "$symbols" "$plain" "$run" "$ratio" "$answer"
done <<'CASES'
counter 16 20000
counter 64 20000
counter 256 20000
code 6 20000
code 8 20000
code 10 20000
chain 4096 1000
chain 16384 1000
chain 65536 1000
CASES
