#!/usr/bin/env bash
# Times what the gates of a code read from outside, beside a plain way in the same run. It asks each state about the
# first one like it, which is searched, for each bit that is judged, and compares each two pieces of a state. A time is
# processor time, the least of three runs without that of a run that only makes the case, for one call. The cases are
# those of crates/machine_benchmarks.
set -eu
. "$(dirname "$0")/timing.sh"
use_program machine_benchmarks
TIMEFORMAT='%U %S'

# the processor time of the program in milliseconds, the least of three runs: case, size, work, calls
spent() {
    for _ in 1 2 3; do
        { time "$program" "machines $*" >/dev/null; } 2>&1 | awk '{ print 1000 * ($1 + $2) }'
    done | sort -n | head -n 1
}

# the time of one call in milliseconds: case, size, work, calls, time of making the case
call() {
    awk -v all="$(spent "$1" "$2" "$3" "$4")" -v none="$5" -v calls="$4" 'BEGIN { printf "%.3f", (all - none) / calls }'
}

printf '%-7s %5s %11s %12s %9s  %s\n' case size 'reads (ms)' 'search (ms)' 'to search' 'bits and inputs'
while read -r kind size calls plain_calls; do
    answer=$("$program" "machines $kind $size reads 1" | awk '{ print $NF }')
    if [ "$answer" != "$("$program" "machines $kind $size search 1" | awk '{ print $NF }')" ]; then
        echo "$kind $size: reads and search differ"
        exit 1
    fi
    none=$(spent "$kind" "$size" reads 0)
    reads=$(call "$kind" "$size" reads "$calls" "$none")
    search=$(call "$kind" "$size" search "$plain_calls" "$none")
    awk -v kind="$kind" -v size="$size" -v reads="$reads" -v search="$search" -v answer="$answer" \
        'BEGIN { printf "%-7s %5d %11.3f %12.3f %9.2f  %s\n", kind, size, reads, search, reads / search, answer }'
done <<'CASES'
adder 64 20 10
adder 128 20 5
adder 256 10 2
random 64 50 20
random 128 50 10
random 256 50 5
still 17 1000 500
still 33 200 50
still 65 50 10
copies 8 5000 5000
copies 16 2000 2000
copies 32 500 500
wide 8 200 100
wide 16 200 100
wide 32 200 100
long 12 100 20
long 13 50 10
long 14 20 4
mixed 12 100 20
mixed 13 50 10
mixed 14 20 4
CASES
