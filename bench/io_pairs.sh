#!/usr/bin/env bash
# Times the listings of pairs on inputs and on outputs from outside, beside `pairs` of the same machine and `check`,
# which only reads it. The machine of n inputs goes from state s at symbol x to s xor x, which is also its output, so
# that each listing has a pair for each space of vectors of n bits, as the numbers show. Each time is the least of three runs.
set -eu
. "$(dirname "$0")/timing.sh"
use_program hsdec --version
make_room

# the machine of so many inputs
xor_machine() {
    awk -v inputs="$1" '
        function bits(x,  text, k) { for (k = 0; k < inputs; k++) { text = (x % 2) text; x = int(x / 2) } return text }
        function xor(a, b,  sum, place) { for (place = 1; place < 2 ^ inputs; place *= 2) if (int(a / place) % 2 != int(b / place) % 2) sum += place; return sum + 0 }
        BEGIN {
            print ".i " inputs "\n.o " inputs
            for (s = 0; s < 2 ^ inputs; s++) for (x = 0; x < 2 ^ inputs; x++) print bits(x), "s" s, "s" xor(s, x), bits(xor(s, x))
            print ".e"
        }'
}

# the milliseconds of a command
timed() {
    least_of 3 "$program" "$@" | awk '{ printf "%.1f\n", $1 / 1000 }'
}

# the pairs that a command lists: those lines that are not outputs
listed() {
    "$program" "$@" --limit 10000 | grep -vc '^output'
}

printf '%-7s %20s %10s %10s %10s %10s\n' inputs 'listed by each' check pairs ispairs sopairs
for inputs in 4 5 6; do
    echo "machine of $inputs inputs" >&2
    machine=$room/xor$inputs
    xor_machine "$inputs" >"$machine"
    counts="$(listed pairs "$machine") $(listed ispairs "$machine") $(listed sopairs "$machine")"
    printf '%-7s %20s %10s' "$inputs" "$counts" "$(timed check "$machine")"
    for command in pairs ispairs sopairs; do
        printf ' %10s' "$(timed "$command" "$machine" --limit 10000)"
    done
    echo
done
