#!/usr/bin/env bash
# Times first_gap from outside, beside a plain baseline over the same cubes in the same run: `scan` asks each cube
# once for each bit of a symbol whether it holds one symbol. Prints the time of one call, from the difference of
# many calls and none, and the ratio.
set -eu
. "$(dirname "$0")/timing.sh"
use_program set_benchmarks

# the least of five runs, in microseconds: question, kind, size, calls
least() {
    least_of 5 "$program" "cubes $2 $3 $1 $4"
}

# the time of one call, in microseconds: question, kind, size, calls
each() {
    awk -v many="$(least "$1" "$2" "$3" "$4")" -v none="$(least "$1" "$2" "$3" 0)" -v calls="$4" \
        'BEGIN { t = (many - none) / calls; print (t < 0.01 ? 0.01 : t) }'
}

# kind, size, calls of first_gap, calls of the scan
beside_scan() {
    awk -v kind="$1" -v size="$2" -v gap="$(each gap "$1" "$2" "$3")" -v scan="$(each scan "$1" "$2" "$4")" \
        'BEGIN { printf "%-9s %6d  first_gap %11.3f ms  scan %9.3f ms  first_gap to scan %8.1f\n", kind, size, gap / 1000, scan / 1000, gap / scan }'
}

echo "all minterms of a width"
for width in 12 13 14 15 16; do beside_scan minterms "$width" 20 200; done
echo "so many cubes of width 32 that leave one gap"
for count in 500 1000 2000 4000; do beside_scan random "$count" 5 2000; done
beside_scan random 65536 3 100
echo "two cubes of width 32 that look at the last bit alone"
beside_scan chain 1 20000 20000
echo "so many cubes of width 32 that leave one gap and look at the last bits first"
for count in 500 1000 2000 4000; do beside_scan mirrored "$count" 5 2000; done
beside_scan mirrored 65536 3 100
echo "a chain of so many places from the last on, that leaves no gap"
for length in 8 16 24 32; do beside_scan chain "$length" 5000 20000; done
echo "the same with a place of the first half beside each"
for length in 4 8 12 16; do beside_scan pairs "$length" 2000 20000; done
echo "so many cubes of width 32 with bits at five and at seven random places each"
for count in 400 600 800; do beside_scan five "$count" 5 2000; done
for count in 1400 2100 2800; do beside_scan seven "$count" 1 2000; done
