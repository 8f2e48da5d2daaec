#!/usr/bin/env bash
# Times machines of large files from outside: the building, beside the reading of the same text, and the questions
# about two states, beside a plain comparison of the two at each symbol by itself in the same run. What reading and
# building take is subtracted from the questions. The machines are those of crates/machine_benchmarks.
set -eu
. "$(dirname "$0")/timing.sh"
use_program machine_benchmarks

# the time of the program, in microseconds: kind, size, work, pairs
run() {
    least_of 5 "$program" "machines $1 $2 $3 $4"
}

printf '%-7s %5s %7s %12s %12s %7s\n' kind size rows 'read (ms)' 'build (ms)' ratio
while read -r kind size; do
    read=$(run "$kind" "$size" read 0)
    build=$(run "$kind" "$size" build 0)
    rows=$("$program" "machines $kind $size read 0" | awk '{ print $6 }')
    awk -v kind="$kind" -v size="$size" -v rows="$rows" -v read="$read" -v both="$build" \
        'BEGIN { build = both - read; printf "%-7s %5s %7s %12.1f %12.1f %7.2f\n", kind, size, rows, read / 1000, build / 1000, build / read }'
done <<'CASES'
dense 64
dense 128
dense 256
long 14
long 15
long 16
cubes 16
cubes 64
cubes 256
sparse 64
sparse 128
sparse 256
CASES

# the time of the work at one pair of states, in microseconds, or a dash for no pairs: kind, size, work, pairs,
# time of building
each() {
    if [ "$4" -eq 0 ]; then
        printf -- -
    else
        awk -v all="$(run "$1" "$2" "$3" "$4")" -v none="$5" -v pairs="$4" 'BEGIN { printf "%.2f", (all - none) / pairs }'
    fi
}

printf '\n%-7s %5s %7s %6s %12s %12s %14s %11s\n' kind size pairs plain 'goes (us)' 'images (us)' 'plain (us)' ratio
while read -r kind size pairs plain; do
    build=$(run "$kind" "$size" build 0)
    goes=$(each "$kind" "$size" goes "$pairs" "$build")
    images=$(each "$kind" "$size" images "$pairs" "$build")
    symbols=$(each "$kind" "$size" symbols "$plain" "$build")
    ratio=-
    if [ "$symbols" != - ]; then
        ratio=$(awk "BEGIN { printf \"%.7f\", $goes / $symbols }")
    fi
    printf '%-7s %5s %7s %6s %12s %12s %14s %11s\n' "$kind" "$size" "$pairs" "$plain" "$goes" "$images" "$symbols" "$ratio"
done <<'CASES'
dense 64 2016 500
dense 128 8128 500
dense 256 32640 500
sparse 64 2016 1
sparse 128 8128 0
sparse 256 32640 0
CASES
