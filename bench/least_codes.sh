#!/usr/bin/env bash
# Times the command `least` from outside, beside `code` of the same file and `check`, which only reads it, on random
# machines of eight states with 8 and with 13 inputs: 256 and 8,192 rows a state. Each time is the least of three runs.
set -eu
. "$(dirname "$0")/timing.sh"
use_program hsdec --version
make_room

# a random machine of eight states with so many inputs
random_machine() {
    awk -v inputs="$1" '
        function word() { seed = (seed * 16807) % 2147483647; return seed }
        function bits(x,  text, k) { for (k = 0; k < inputs; k++) { text = (x % 2) text; x = int(x / 2) } return text }
        BEGIN {
            seed = 42
            print ".i " inputs "\n.o 1"
            for (s = 0; s < 8; s++) for (x = 0; x < 2 ^ inputs; x++) print bits(x), "s" s, "s" int(word() / 64) % 8, int(word() / 64) % 2
            print ".e"
        }'
}

# the milliseconds of a command
timed() {
    least_of 3 "$program" "$@" | awk '{ printf "%.1f\n", $1 / 1000 }'
}

printf '%-7s %8s %10s %10s %10s\n' inputs rows check code least
for inputs in 8 13; do
    echo "machine of $inputs inputs" >&2
    random_machine "$inputs" >"$room/random$inputs"
    printf '%-7s %8s' "$inputs" "$((8 << inputs))"
    for command in check code least; do
        printf ' %10s' "$(timed "$command" "$room/random$inputs")"
    done
    echo
done
