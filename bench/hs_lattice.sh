#!/usr/bin/env bash
# Times the listing of joins from outside, beside a plain baseline in the same run: joins of two of the
# generators and nothing else, the generators that differ times the values where the listing is whole, and
# one for each value where it stops at the limit. Each time is the least of five runs, without that of a run
# that does nothing: the start, and the making of the generators. That of a listing is the time of one, from
# a run of many; so are the instructions of the listing, in millions, from a run of one, where valgrind is there
# to count them.
set -eu
. "$(dirname "$0")/timing.sh"
use_program set_benchmarks

# the least of five runs of a case, in microseconds
least() {
    least_of 5 "$program" "$1"
}

printf '%-8s %-12s %10s  %-12s %10s %10s %7s %13s\n' kept generators different answer 'list (ms)' 'join (ms)' ratio instructions
while read -r kind size different times; do
    for kept in labels bits; do
        case="$kept $kind $size"
        values=$("$program" "$case list 1" | awk '{ print $NF }')
        joins=$values
        answer="more $values"
        if [ "$values" -le 10000 ]; then
            joins=$((different * values))
            answer="whole $values"
        fi
        none=$(least "$case join 0")
        list=$(least "$case list $times")
        join=$(least "$case join $joins")
        counted=$(instructions_of "$program" "$case list 1")
        made=$(instructions_of "$program" "$case join 0")
        awk -v kept="$kept" -v gens="$kind $size" -v different="$different" -v answer="$answer" \
            -v list="$((list - none))" -v times="$times" -v join="$((join - none))" -v counted="$((counted - made))" \
            'BEGIN { one = list / times; printf "%-8s %-12s %10d  %-12s %10.2f %10.2f %7.2f %13.1f\n", kept, gens, different, answer, one / 1000, join / 1000, one / join, counted / 1000000 }'
    done
done <<'CASES'
pairs 6 15 200
pairs 7 21 40
pairs 8 28 10
pairs 10 45 5
pairs 50 1225 3
nested 50 49 100
nested 100 99 20
nested 200 199 5
product 8 8 200
product 10 10 50
product 13 13 10
equal 64 8 50
equal 128 8 20
equal 256 8 10
CASES
