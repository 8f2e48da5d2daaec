#!/usr/bin/env bash
# Times the commands that split machines from outside, beside the listing of the closed partitions of the same
# machine, which no split needs. Each time is the least of three runs of the program, reading and writing included.
set -eu
. "$(dirname "$0")/timing.sh"
use_program hsdec --version
make_room

# so many states that never move
still() {
    awk -v states="$1" 'BEGIN { print ".i 1\n.o 1"; for (s = 0; s < states; s++) printf "- s%d s%d 0\n", s, s; print ".e" }'
}

# two machines side by side, of so many states each, with so many inputs, that go where a generator says
pair() {
    awk -v size="$1" -v inputs="$2" '
        function word() { seed = (seed * 16807) % 2147483647; return seed }
        function text(x,  bits, k) { for (k = 0; k < inputs; k++) { bits = (x % 2) bits; x = int(x / 2) } return bits }
        BEGIN {
            seed = 42; symbols = 2 ^ inputs
            for (i = 0; i < size; i++) for (x = 0; x < symbols; x++) { one[i, x] = word() % size; two[i, x] = word() % size }
            print ".i " inputs "\n.o 1"
            for (i = 0; i < size; i++) for (j = 0; j < size; j++) for (x = 0; x < symbols; x++)
                print text(x), "s" i "_" j, "s" one[i, x] "_" two[j, x], (i + j) % 2
            print ".e"
        }'
}

# a run of the program, whatever it answers
answered() {
    "$program" "$@" 2>/dev/null || true
}

# the milliseconds of a command, or its status where it ends otherwise than with a text or without a split
timed() {
    local status=0
    "$program" "$@" >/dev/null 2>&1 || status=$?
    if [ "$status" -gt 1 ]; then
        echo "status $status"
    else
        least_of 3 answered "$@" | awk '{ printf "%.1f\n", $1 / 1000 }'
    fi
}

still 20 >"$room/still20"
still 65 >"$room/still65"
pair 8 4 >"$room/pair8x4"
pair 16 4 >"$room/pair16x4"
pair 16 8 >"$room/pair16x8"
cp ../../examples/counter8.kiss "$room/counter8"

printf '%-10s %12s %12s %12s %12s %12s\n' 'ms' closed parallel serial cascade feedback
for machine in counter8 still20 still65 pair8x4 pair16x4 pair16x8; do
    printf '%-10s %12s %12s %12s %12s %12s\n' "$machine" "$(timed closed "$room/$machine")" "$(timed parallel "$room/$machine")" \
        "$(timed serial "$room/$machine")" "$(timed cascade "$room/$machine")" "$(timed feedback "$room/$machine")"
done
