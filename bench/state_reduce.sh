#!/usr/bin/env bash
# Times the partition of alike states from outside, beside a plain way in the same run: pairs of states that are
# not alike are marked until a pass through all pairs marks no more. Each time is the least of three runs without
# that of a run that only makes the machine.
set -eu
. "$(dirname "$0")/timing.sh"
use_program machine_benchmarks

printf '%-8s %8s %8s %12s %12s %8s\n' machine states classes 'alike (ms)' 'plain (ms)' ratio
while read -r kind states; do
    classes=$("$program" "machines $kind $states alike 1" | awk '{ print $NF }')
    none=$(least_of 3 "$program" "machines $kind $states build 1")
    alike=$(least_of 3 "$program" "machines $kind $states alike 1")
    plain=$(least_of 3 "$program" "machines $kind $states marks 1")
    awk -v kind="$kind" -v states="$states" -v classes="$classes" -v alike="$((alike - none))" -v plain="$((plain - none))" \
        'BEGIN { printf "%-8s %8d %8d %12.1f %12.1f %8.3f\n", kind, states, classes, alike / 1000, plain / 1000, alike / plain }'
done <<'CASES'
chain 64
chain 128
chain 256
halves 64
halves 128
halves 256
CASES
