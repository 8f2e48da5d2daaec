#!/usr/bin/env bash
# Times whole runs of the program on machines whose form is hard for a program that counts on the order of rows or on
# chance, each beside a plain machine of the same size. It prints processor seconds and the peak of memory in MiB, of one
# run each. A run is cut off at 20 seconds of processor time. `--program PATH` names a program that is there.
set -eu
. "$(dirname "$0")/networks.sh"
[ ${#files[@]} -eq 0 ] || { echo "${0##*/}: it takes no files" >&2; exit 2; }
use_hsdec

# The machine of a form, as KISS2. Forms, with N states and K inputs:
#   random      all next states drawn
#   late        all next states one state, but drawn at the last 16 symbols
#   counter     counts at the last symbol alone
#   still       no state moves
#   before      each state goes to the one before it
#   rotated     no state moves; of 64 outputs the last tells states apart at one symbol
# `own` as the fourth word gives each state its rows in an order of its own.
table() {
    awk -v form="$1" -v states="$2" -v inputs="$3" -v order="${4:-}" '
        function word() { seed = (seed * 16807) % 2147483647; return seed }
        function text(x,  bits, k) { for (k = 0; k < inputs; k++) { bits = (x % 2) bits; x = int(x / 2) } return bits }
        function zeros(count,  all) { while (count-- > 0) all = all "0"; return all }
        function next_of(s, x) {
            if (form == "random") return word() % states
            if (form == "late") return x < symbols - 16 ? 0 : word() % states
            if (form == "counter") return x == symbols - 1 ? (s + 1) % states : s
            if (form == "before") return s > 0 ? s - 1 : 0
            return s
        }
        function output_of(s, x) {
            if (form != "rotated") return "0"
            return zeros(63) (x < 8 ? int(s / 2 ^ x) % 2 : 0)
        }
        BEGIN {
            seed = 42; symbols = 2 ^ inputs
            print ".i " inputs "\n.o " (form == "rotated" ? 64 : 1)
            for (s = 0; s < states; s++) {
                first = order == "own" ? word() % symbols : 0
                for (i = 0; i < symbols; i++) { x = (i + first) % symbols; print text(x), "s" s, "s" next_of(s, x), output_of(s, x) }
            }
            print ".e"
        }'
}

# one state that goes on where any of so many inputs is 1: each row looks at one input alone
lines() {
    awk -v inputs="$1" '
        function dashes(count,  all) { while (count-- > 0) all = all "-"; return all }
        BEGIN {
            print ".i " inputs "\n.o 1"
            for (i = 0; i < inputs; i++) print dashes(i) "1" dashes(inputs - i - 1) " a b 1"
            zeros = dashes(inputs); gsub("-", "0", zeros)
            print zeros " a a 0\n" dashes(inputs) " b a 0\n.e"
        }'
}

# as many outputs as inputs, each of which copies its own input, by two rows
columns() {
    awk -v inputs="$1" '
        function dashes(count,  all) { while (count-- > 0) all = all "-"; return all }
        BEGIN {
            print ".i " inputs "\n.o " inputs
            for (i = 0; i < inputs; i++) for (bit = 0; bit < 2; bit++) { cube = dashes(i) bit dashes(inputs - i - 1); print cube, "a a", cube }
            print ".e"
        }'
}

# so many states, each with as many rows as the second number says: the leaves of a tree of the inputs, drawn for each
# state. With `still` no state moves; with `before` each goes to the one before it; with a number, there are as many outputs, and a row leaves half of them open.
tree() {
    awk -v states="$1" -v rows="$2" -v inputs="$3" -v form="${4:-}" '
        function word() { seed = (seed * 16807) % 2147483647; return seed }
        function next_of(s) { return form == "still" ? s : form == "before" ? (s > 0 ? s - 1 : 0) : word() % states }
        function outputs(  text, b) {
            if (form + 0 == 0) return word() % 2
            text = ""; for (b = 0; b < form; b++) text = text (int(word() / 7) % 2 ? "-" : int(word() / 7) % 2)
            return text
        }
        function split_leaf(at,  place) {
            do place = word() % inputs; while (substr(leaf[at], place + 1, 1) != "-")
            leaf[count++] = substr(leaf[at], 1, place) "1" substr(leaf[at], place + 2)
            leaf[at] = substr(leaf[at], 1, place) "0" substr(leaf[at], place + 2)
        }
        BEGIN {
            seed = 3; all = ""; for (i = 0; i < inputs; i++) all = all "-"
            print ".i " inputs "\n.o " (form + 0 ? form + 0 : 1)
            for (s = 0; s < states; s++) {
                count = 0; leaf[count++] = all
                while (count < rows) { at = word() % count; if (index(leaf[at], "-")) split_leaf(at) }
                for (i = 0; i < rows; i++) print leaf[i], "s" s, "s" next_of(s), outputs()
            }
            print ".e"
        }'
}

# one state with a row for each symbol. With `same`, all rows are equal. With `mixed`, a row looks at one input alone, and
# the rows with 0 and those with 1 there go to two states in turn. With `last`, the last row conflicts with the first.
long() {
    awk -v inputs="$1" -v form="${2:-}" '
        function text(x,  bits, k) { for (k = 0; k < inputs; k++) { bits = (x % 2) bits; x = int(x / 2) } return bits }
        function cube(x) { return form == "same" ? dashes : form == "mixed" ? substr(dashes, 2) x % 2 : text(x) }
        BEGIN {
            print ".i " inputs "\n.o 1"; dashes = text(0); gsub("0", "-", dashes)
            for (x = 0; x < 2 ^ inputs - 1; x++) print cube(x), "a", (form == "mixed" && x % 2 ? "b" : "a"), 0
            print (form == "last" ? text(0) : cube(x)), "a", (form == "mixed" ? "b" : "a"), (form == "last")
            if (form == "mixed") print dashes, "b b 0"
            print ".e"
        }'
}

# two states that look at different inputs, so many each
crossed() {
    awk -v inputs="$1" '
        function text(x,  bits, k) { for (k = 0; k < inputs; k++) { bits = (x % 2) bits; x = int(x / 2) } return bits }
        BEGIN {
            print ".i " 2 * inputs "\n.o 1"; dashes = text(0); gsub("0", "-", dashes)
            for (x = 0; x < 2 ^ inputs; x++) print text(x) dashes, "a", (x % 2 ? "a" : "b"), 0
            for (x = 0; x < 2 ^ inputs; x++) print dashes text(x), "b", (x % 3 ? "b" : "a"), 1
            print ".e"
        }'
}

# so many symbols of ones
symbols() {
    awk -v count="$1" -v inputs="$2" 'BEGIN { text = ""; for (i = 0; i < inputs; i++) text = text "1"; for (i = 0; i < count; i++) print text }'
}

# the cover of so many states by the pairs of neighbours in a ring
ring() {
    awk -v states="$1" 'BEGIN { for (s = 0; s + 1 < states; s++) printf "%d,%d/", s, s + 1; print "0," states - 1 }'
}

# so many states whose rows overlap and agree: each row looks at so many inputs, and the last alone gives the output
overlap() {
    awk -v states="$1" -v rows="$2" -v inputs="$3" -v looks="${4:-2}" '
        function word() { seed = (seed * 16807) % 2147483647; return seed }
        function cube(  text, place, left) {
            text = dashes
            for (left = looks; left > 0; left--) {
                do place = int(word() / 7) % inputs; while (substr(text, place + 1, 1) != "-")
                text = substr(text, 1, place) int(word() / 7) % 2 substr(text, place + 2)
            }
            return text
        }
        BEGIN {
            seed = 6; for (i = 0; i < inputs; i++) dashes = dashes "-"
            print ".i " inputs "\n.o 1"
            for (s = 0; s < states; s++) {
                next_names = " s" s " s" (s + 1) % states " "
                for (i = 1; i < rows; i++) print cube() next_names "-"
                print dashes next_names "1"
            }
            print ".e"
        }'
}

# 170 states, of which so many go elsewhere on a parabola of the plane over 13 numbers, each at symbols of its own
parabolas() {
    awk -v active="$1" '
        function text(x, width,  bits, k) { for (k = 0; k < width; k++) { bits = (x % 2) bits; x = int(x / 2) } return bits }
        function dashes(count,  all) { while (count-- > 0) all = all "-"; return all }
        function is_away(s, p,  x) { x = int(p / 13); return (p % 13 + 169 * 13 - int(s / 13) * x * x - s % 13 * x) % 13 == 0 }
        BEGIN {
            for (bits = 0; 2 ^ bits < active; bits++);
            print ".i " bits + 8 "\n.o 1"
            for (s = 0; s < active; s++) {
                own = text(s, bits)
                for (p = 0; p < 256; p++) print own text(p, 8), "p" s, (p < 169 && !is_away(s, p) ? "p" p : "hub"), 0
                for (k = 1; k <= bits; k++) print substr(own, 1, k - 1) (1 - substr(own, k, 1)) dashes(bits - k + 8), "p" s, "hub 0"
            }
            for (s = active; s < 169; s++) print dashes(bits + 8), "p" s, "hub 0"
            print dashes(bits + 8), "hub hub 0\n.e"
        }'
}

# so many states of 8 inputs and 64 outputs, the last of which tells states apart. With `halves` a symbol has two rows, for
# the lower outputs and for the upper ones; with `dashes` one row, which leaves an output open.
halves() {
    awk -v states="$1" -v form="$2" '
        function text(x,  bits, k) { for (k = 0; k < 8; k++) { bits = (x % 2) bits; x = int(x / 2) } return bits }
        function dashes(count,  all) { while (count-- > 0) all = all "-"; return all }
        function outputs(s, x,  word, b) {
            word = ""; for (b = 0; b < 63; b++) word = word ((x * 7 + b) % 3 == 0)
            return word (x < 8 ? int(s / 2 ^ x) % 2 : 0)
        }
        BEGIN {
            print ".i 8\n.o 64"
            for (s = 0; s < states; s++) for (x = 0; x < 256; x++) {
                word = outputs(s, x); at = x % 63; names = " s" s " s" (s + 1) % states " "
                if (form == "dashes") { print text(x) names substr(word, 1, at) "-" substr(word, at + 2); continue }
                print text(x) names substr(word, 1, 32) dashes(32)
                print text(x) " s" s " - " dashes(32) substr(word, 33)
            }
            print ".e"
        }'
}

# two states, a shift register of one symbol: the state is whether most bits of the last symbol are 1, the output the
# parity of the symbol and the state. With `plain` the state is the last bit, and the output the state.
parity() {
    awk -v inputs="$1" -v form="${2:-}" '
        function text(x,  bits, k) { for (k = 0; k < inputs; k++) { bits = (x % 2) bits; x = int(x / 2) } return bits }
        function ones(x,  count) { while (x > 0) { count += x % 2; x = int(x / 2) } return count + 0 }
        BEGIN {
            print ".i " inputs "\n.o 1"
            for (s = 0; s < 2; s++) for (x = 0; x < 2 ^ inputs; x++) {
                next_state = form == "plain" ? x % 2 : ones(x) > inputs / 2
                print text(x), "s" s, "s" next_state, (form == "plain" ? s : (ones(x) + s) % 2)
            }
            print ".e"
        }'
}

# so many states of 6 inputs and 64 outputs, where each row gives one output
single() {
    awk -v states="$1" '
        function text(x,  bits, k) { for (k = 0; k < 6; k++) { bits = (x % 2) bits; x = int(x / 2) } return bits }
        function dashes(count,  all) { while (count-- > 0) all = all "-"; return all }
        function bit(s, x, b) { return b < 63 ? (x * 7 + b) % 3 == 0 : x < 8 ? int(s / 2 ^ x) % 2 : 0 }
        BEGIN {
            print ".i 6\n.o 64"
            for (s = 0; s < states; s++) for (x = 0; x < 64; x++) for (b = 0; b < 64; b++)
                print text(x), "s" s, (b ? "-" : "s" (s + 1) % states), dashes(b) bit(s, x, b) dashes(63 - b)
            print ".e"
        }'
}

# three states in a ring, where each output copies its own input, by two rows
copying() {
    awk -v inputs="$1" '
        function dashes(count,  all) { while (count-- > 0) all = all "-"; return all }
        BEGIN {
            print ".i " inputs "\n.o " inputs
            for (s = 0; s < 3; s++) for (i = 0; i < inputs; i++) for (bit = 0; bit < 2; bit++) {
                cube = dashes(i) bit dashes(inputs - i - 1); print cube, "s" s, "s" (s + 1) % 3, cube
            }
            print ".e"
        }'
}

# a partition for each state but the first, which sets it apart from the others
apart() {
    awk -v states="$1" 'BEGIN {
        for (a = 1; a < states; a++) for (s = 0; s < states; s++) printf "%s%d", (s ? "," : a > 1 ? "/" : ""), s == a
        print ""
    }'
}

# a network of so many gates, each reading the one after it in the text
chain() {
    awk -v gates="$1" 'BEGIN {
        print ".model chain\n.inputs a\n.outputs g0"
        for (i = 0; i + 1 < gates; i++) print ".names g" i + 1 " g" i "\n0 1"
        print ".names a g" gates - 1 "\n1 1\n.end"
    }'
}

# processor seconds and MiB of one run, whatever it answers
measured() {
    python3 - "$program" "$@" <<'PYTHON'
import resource, subprocess, sys
limit = lambda: resource.setrlimit(resource.RLIMIT_CPU, (20, 20))
status = subprocess.run(sys.argv[1:], stdout=subprocess.DEVNULL, stderr=subprocess.DEVNULL, preexec_fn=limit).returncode
used = resource.getrusage(resource.RUSAGE_CHILDREN)
seconds = "over 20" if status < 0 else f"{used.ru_utime + used.ru_stime:.2f}"
print(f"{seconds:>9} {used.ru_maxrss / 1024:>7.0f}")
PYTHON
}

# a line: the form, its plain machine, its hard one, and the words of the command with the machine in the place of @
compare() {
    local label=$1 plain=$2 hard=$3 words=("${@:4}")
    printf '%-44s %s %s\n' "$label" "$(measured "${words[@]//@/$room/$plain}")" "$(measured "${words[@]//@/$room/$hard}")"
}

table random 256 8 >"$room/random"
table late 256 8 >"$room/late"
table late 256 8 own >"$room/late_own"
table counter 256 8 >"$room/counter"
table counter 256 8 own >"$room/counter_own"
table still 256 8 >"$room/still"
table still 256 1 >"$room/still1"
table random 256 1 >"$room/random1"
table rotated 190 8 >"$room/rotated"
table rotated 190 8 own >"$room/rotated_own"
lines 16 >"$room/lines16"
lines 24 >"$room/lines24"
columns 4 >"$room/columns4"
columns 16 >"$room/columns16"
columns 32 >"$room/columns32"
table random 64 7 >"$room/random64"
tree 64 128 16 >"$room/tree64"
tree 256 256 32 >"$room/tree256"
long 16 >"$room/long16"
long 16 same >"$room/long_same"
long 15 mixed >"$room/long_mixed"
long 16 last >"$room/long_last"
tree 256 256 32 still >"$room/tree_still"
tree 16 256 16 64 >"$room/tree_outputs"
long 14 >"$room/long14"
crossed 8 >"$room/crossed8"
crossed 15 >"$room/crossed15"
for rows in 5 6 8; do table still 24 "$rows" >"$room/still24_$rows"; done
tree 24 20 32 still >"$room/rest20"
tree 24 64 32 still >"$room/rest64"
tree 24 256 32 still >"$room/rest256"
tree 64 1024 32 still >"$room/rest1024"
table still 64 10 >"$room/still64"
tree 256 256 32 before >"$room/descent"
table before 256 8 >"$room/before"
overlap 1 60000 32 >"$room/overlap1"
overlap 8 8000 32 >"$room/overlap8"
overlap 1 65536 32 8 >"$room/overlap_wide"
table random 8 13 >"$room/random8"
table random 170 8 >"$room/random170"
for states in 20 40 80; do parabolas "$states" >"$room/parabolas$states"; done
for states in 24 48; do
    halves "$states" halves >"$room/halves$states"
    table rotated "$states" 8 >"$room/rotated$states"
done
halves 48 dashes >"$room/dashes48"
for inputs in 9 10 12; do
    parity "$inputs" >"$room/parity$inputs"
    parity "$inputs" plain >"$room/last$inputs"
done
single 11 >"$room/single"
copying 4 >"$room/copying4"
copying 16 >"$room/copying16"
table random 40 8 >"$room/random40"
table random 64 8 >"$room/random64_8"
table rotated 11 8 >"$room/rotated11"
chain 16 >"$room/chain16"
chain 65535 >"$room/chain"
symbols 10000 1 >"$room/symbols1_short"
symbols 10000 16 >"$room/symbols16"
symbols 10000 32 >"$room/symbols32"
symbols 127100 32 >"$room/symbols32_long"
symbols 127100 16 >"$room/symbols16_long"
symbols 100000 14 >"$room/symbols14"
symbols 100000 1 >"$room/symbols1"

printf '%-44s %17s %17s\n' '' 'plain (s, MiB)' 'hard (s, MiB)'
compare 'pairs, late' random late pairs @
compare 'pairs, late, rows in other orders' random late_own pairs @
compare 'closed, counter' random counter closed @
compare 'closed, counter, rows in other orders' random counter_own closed @
compare 'closed, still' random still closed @
compare 'cascade, still' random still cascade @
compare 'cascade, still, one input' random1 still1 cascade @
compare 'parallel, still, one input' random1 still1 parallel @
compare 'reduce, 64 outputs, rows in other orders' rotated rotated_own reduce @
compare 'code, a row looks at one input' lines16 lines24 code @
compare 'the same with --fill hold' lines16 lines24 code @ --fill hold
compare 'code, 4 and 16 outputs that copy inputs' columns4 columns16 code @
compare 'code, 4 and 32 outputs that copy inputs' columns4 columns32 code @
compare 'closed, trees of 16 inputs' random64 tree64 closed @
compare 'the same with --fill hold' random64 tree64 closed @ --fill hold
compare 'check, trees of 32 inputs' random tree256 check @
compare 'closed, trees of 32 inputs' random tree256 closed @
compare 'closed, trees of 32 inputs, still' random tree_still closed @
compare 'code, 64 outputs, half of them open' random64 tree_outputs code @ --fill hold
compare 'code, trees of 32 inputs' random tree256 code @
compare 'feedback, trees of 32 inputs' random tree256 feedback @
compare 'check, 65,536 rows of one state' random long16 check @
compare 'check, 65,536 equal rows' random long_same check @
compare 'check, 32,768 rows of two kinds' random long_mixed check @
compare 'check, the last of 65,536 rows conflicts' random long_last check @
compare 'low, two states that look at other inputs' crossed8 crossed15 low @ 0,0
compare 'pairs, two states that look at other inputs' crossed8 crossed15 pairs @
compare 'shift, 4 and 16 outputs that copy inputs' columns4 columns16 shift @
compare 'shift, 4 and 32 outputs that copy inputs' columns4 columns32 shift @
printf '%-44s %s %s\n' 'walk, 100,000 symbols, 2 and 16,384 rows' "$(measured walk "$room/still1" "$room/symbols1")" "$(measured walk "$room/long14" "$room/symbols14")"
# the same for a command whose second file is of symbols
with_symbols() {
    printf '%-44s %s %s\n' "$1" "$(measured "$2" "$room/$3" "$room/$4")" "$(measured "$2" "$room/$5" "$room/$6")"
}

compare 'cover of a ring, 24 states of 20 cubes' still24_5 rest20 cover @ "$(ring 24)"
compare 'cover of a ring, 24 states of 64 cubes' still24_6 rest64 cover @ "$(ring 24)"
compare 'cover of a ring, 24 states of 256 cubes' still24_8 rest256 cover @ "$(ring 24)"
with_symbols 'walk, 10,000 symbols, overlapping rows' walk long16 symbols16 overlap1 symbols32
with_symbols 'walk, 127,100 symbols, overlapping rows' walk long16 symbols16_long overlap1 symbols32_long
for states in 20 40 80; do compare "pairs, $states states on parabolas" random170 "parabolas$states" pairs @; done
compare 'cascade, 64 still states of 1,024 cubes' still64 rest1024 cascade @
compare 'definite, each state to the one before' before descent definite @
compare 'shift, each state to the one before' before descent shift @
for states in 24 48; do compare "reduce, $states states, outputs in two rows" "rotated$states" "halves$states" reduce @; done
compare 'reduce, a row leaves one output open' rotated48 dashes48 reduce @ --fill hold
for inputs in 9 10 12; do compare "shift, parity of $inputs inputs" "last$inputs" "parity$inputs" shift @; done
compare 'pairs --limit 10000, trees of 32 inputs' random tree256 pairs @ --limit 10000
compare 'code, overlapping rows' random8 overlap8 code @
compare 'least, overlapping rows' random8 overlap8 least @
compare 'compare, overlapping rows' random8 overlap8 compare @
compare 'compare, 64 still states of 1,024 cubes' still64 rest1024 compare @
compare 'compare, trees of 32 inputs' random tree256 compare @
compare 'code, each row gives one output' rotated11 single code @ --fill hold
compare 'feedback, each row gives one output' rotated11 single feedback @ --fill hold
compare 'compare, each row gives one output' rotated11 single compare @ --fill hold
compare 'cover, three states that copy 4, 16 inputs' copying4 copying16 cover @ 0,1/1,2/0,2
compare 'assign, a partition for each of 40 states' random40 random40 assign @ "$(apart 40)"
compare 'assign, a partition for each of 64 states' random64_8 random64_8 assign @ "$(apart 64)"
with_symbols 'sim, 10,000 symbols, 16 and 65,535 gates' sim chain16 symbols1_short chain symbols1_short
with_symbols 'walk, 127,100 symbols, rows of 8 inputs each' walk long16 symbols16_long overlap_wide symbols32_long
