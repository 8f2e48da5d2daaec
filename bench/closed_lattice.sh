#!/usr/bin/env bash
# Times the listings of closed partitions, of Mm pairs, and of closed partitions that the outputs respect, from
# outside, beside plain passes in the same run: asking of each two states whether they go to equal states, as
# often as there are states. Each time is the least of five runs without that of a run that only makes the
# machine; there is no ratio to less than two milliseconds. With words, as `closed pairs`, only these listings are
# timed.
set -eu
words="closed pairs consistent"
. "$(dirname "$0")/timing.sh"
use_program machine_benchmarks
works=("$@")
[ $# -gt 0 ] || works=($words)

printf '%-10s %8s %-10s %6s %10s %10s %8s\n' machine states listing listed 'time (ms)' 'ask (ms)' ratio
while read -r kind size; do
    states=$("$program" "machines $kind $size build 1" | awk '{ print $NF }')
    none=$(least_of 5 "$program" "machines $kind $size build 1")
    ask=$(least_of 5 "$program" "machines $kind $size equal 1")
    for work in "${works[@]}"; do
        listed=$("$program" "machines $kind $size $work 1" | awk '{ print $NF }')
        time=$(least_of 5 "$program" "machines $kind $size $work 1")
        awk -v machine="$kind $size" -v states="$states" -v work="$work" -v listed="$listed" -v time="$((time - none))" -v ask="$((ask - none))" \
            'BEGIN { printf "%-10s %8d %-10s %6d %10.1f %10.1f %8s\n", machine, states, work, listed, time / 1000, ask / 1000, ask < 2000 ? "-" : sprintf("%.1f", time / ask) }'
    done
done <<'CASES'
cycle 64
cycle 128
cycle 256
still 64
still 128
still 256
grid 8
grid 11
grid 16
shift 6
shift 7
shift 8
CASES
