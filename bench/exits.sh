#!/usr/bin/env bash
# Runs the program itself where it ends with the status 0, 2, 7, 12 and 14, and compares the status, the text on
# standard output and the line on standard error. Then it runs the cases of the greatest machine, which the gate leaves
# out for their time. It ends with 0 if all agree.
set -eu
. "$(dirname "$0")/timing.sh"
from=$PWD
use_program hsdec --version
example=$PWD/../../examples/modulo4.kiss
make_room
differ=0

# compares a file with the text of standard input
same_as() {
    cat >"$room/wanted"
    cmp -s "$1" "$room/wanted" || { echo "$name: $2 differs:"; diff "$1" "$room/wanted" || true; differ=1; }
}

# compares a status with the wanted one
ended_with() {
    [ "$1" -eq "$2" ] || { echo "$name: status $1, not $2"; differ=1; }
}

# runs the program with the words that follow; the text is in $room/out, the line in $room/err
run_program() {
    status=0
    "$program" "$@" >"$room/out" 2>"$room/err" </dev/null || status=$?
}

name="a page"
run_program --version
ended_with "$status" 0
same_as "$room/out" "the text" <<<"hsdec 0.1.0"
same_as "$room/err" "the line" </dev/null

name="words that are refused"
run_program closed "$example" --limit 0
ended_with "$status" 2
same_as "$room/out" "the text" </dev/null
same_as "$room/err" "the line" <<<"hsdec: usage word 4"

name="as many as the limit"
run_program closed "$example" --limit 3
ended_with "$status" 0
same_as "$room/out" "the text" <<<$'0,1,2,3\n0,1,0,1\n0,0,0,0'
same_as "$room/err" "the line" </dev/null

name="more than the limit"
run_program closed "$example" --limit 2
ended_with "$status" 7
same_as "$room/out" "the text" <<<$'0,1,2,3\n0,1,0,1\n0,0,0,0'
same_as "$room/err" "the line" <<<"hsdec: more than 2"

name="a file that is not there"
run_program check "$room/none"
ended_with "$status" 12
same_as "$room/out" "the text" </dev/null
same_as "$room/err" "the line" <<<"hsdec: cannot read $room/none"

# A device that takes nothing.
name="a full device"
status=0
"$program" code "$example" >/dev/full 2>"$room/err" || status=$?
ended_with "$status" 14
same_as "$room/err" "the line" <<<"hsdec: cannot write"

# A file of at most 1,024 bytes takes a front of the page of --help.
name="a file that is full"
"$program" --help >"$room/whole"
status=0
(
    trap '' XFSZ
    ulimit -f 1
    exec "$program" --help >"$room/front" 2>"$room/pipe"
) || status=$?
ended_with "$status" 14
size=$(wc -c <"$room/front")
[ "$size" -gt 0 ] && [ "$size" -lt "$(wc -c <"$room/whole")" ] || { echo "$name: a front of $size bytes"; differ=1; }
head -c "$size" "$room/whole" | same_as "$room/front" "the text"

# A pipe that nobody reads.
name="a closed pipe"
mkfifo "$room/closed"
status=0
(
    exec 3<>"$room/closed" 4>"$room/closed" 3>&-
    exec "$program" code "$example" >&4 2>"$room/err"
) || status=$?
ended_with "$status" 14
same_as "$room/err" "the line" <<<"hsdec: cannot write"
[ "$differ" -ne 0 ] || echo "exits.sh: the program agrees"

cd "$from"
use_program hsdec_cases words.cases
cd data
"$program" greatest.cases || differ=1
exit "$differ"
