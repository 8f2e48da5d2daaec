#!/usr/bin/env bash
# Takes the networks of the machines in examples/ through the tools that make hardware of them, and prints the rows of the
# second table in docs/RESULTS.md. First it runs each line that docs/HARDWARE.md and the section "Use the network" of
# README show, and compares what they print. Then, for each machine and each command that writes its network:
#
# - ABC proves the network equal to that of `code`, with a clock and without;
# - the two texts differ in the lines of latches and in the name of the model alone;
# - as a module in Verilog, with initial values and with a reset in their place, it answers 500 symbols as `walk` does;
# - after synth_ice40 no cell is left that is not one of the FPGA.
#
# Needs the packages yosys, iverilog and berkeley-abc (apt-get install yosys iverilog berkeley-abc), and is no part of the
# gate. Given files of KISS2 as words, it takes these machines instead, and no page. `--program PATH` names a program
# that is built already. It ends with 0 if all agree.
set -eu
. "$(dirname "$0")/networks.sh"
need_tools berkeley-abc yosys iverilog vvp awk
use_hsdec
differ=0

# says what differs of which network
wrong() {
    echo "hardware.sh: $machine $command: $1" >&2
    differ=1
}

# runs the blocks of commands of a page in one folder, in order; the block after one, if it has no language, is what it
# prints. With a second word, the blocks of this section alone.
run_page() {
    local page=$1 section=${2:-} folder=$room/page block
    rm -rf "$folder"
    mkdir -p "$folder/bin" "$folder/work"
    ln -s "$program" "$folder/bin/hsdec"
    ln -s "$root/examples" "$folder/work/examples"
    awk -v folder="$folder" -v section="$section" '
        /^## / { inside = section == "" || $0 == "## " section }
        !inside && section != "" { next }
        /^```/ && file == "" {
            if ($0 == "```sh") { file = sprintf("%s/%02d.sh", folder, ++blocks); ran = 1 }
            else if ($0 == "```" && ran) { file = sprintf("%s/%02d.prints", folder, blocks); ran = 0 }
            else file = "/dev/null"
            printf "" >file
            next
        }
        /^```/ { close(file); file = ""; next }
        file != "" { print >file }' "$page"
    for block in "$folder"/*.sh; do
        machine=$(basename "$page")
        command="block $(basename "$block" .sh)"
        (cd "$folder/work" && PATH="$folder/bin:$PATH" bash -eu -o pipefail "$block") >"$folder/printed" 2>"$folder/err" ||
            { wrong "a line failed"; cat "$folder/err" >&2; }
        [ ! -e "${block%.sh}.prints" ] || diff "${block%.sh}.prints" "$folder/printed" >&2 || wrong "it prints something else"
    done
    echo "hardware.sh: ran the lines of $(basename "$page")" >&2
}

# a file of 500 random symbols of so many bits
random_symbols() {
    awk -v width="$1" 'BEGIN {
        srand(1)
        for (j = 0; j < 500; j++) { line = ""; for (i = 0; i < width; i++) line = line int(2 * rand()); print line }
    }'
}

# a bench that gives the symbols to the module of a BLIF text and prints its answers; `reset` after one step in reset
bench_of() {
    awk -v symbols="$room/symbols" -v reset="${2:-}" '
        /^\.model/ { model = $2 }
        /^\.inputs/ { for (i = 2; i <= NF; i++) input[inputs++] = $i }
        /^\.outputs/ { for (i = 2; i <= NF; i++) output[outputs++] = $i }
        END {
            print "module bench;\nreg clk = 0, rst = 0;\ninteger j;"
            printf "reg [0:%d] x = 0;\nwire [0:%d] z;\nreg [0:%d] symbols [0:499];\n", inputs - 1, outputs - 1, inputs - 1
            printf "\\%s m(.clk(clk)", model
            if (reset != "") printf ", .rst(rst)"
            for (i = 0; i < inputs; i++) printf ", .\\%s (x[%d])", input[i], i
            for (i = 0; i < outputs; i++) printf ", .\\%s (z[%d])", output[i], i
            printf ");\ninitial begin\n$readmemb(\"%s\", symbols);\n", symbols
            if (reset != "") print "rst = 1; #1 clk = 1; #1 clk = 0; rst = 0; #1;"
            print "for (j = 0; j < 500; j = j + 1) begin x = symbols[j]; #1 $display(\"%b\", z); clk = 1; #1 clk = 0; #1; end"
            print "end\nendmodule"
        }' "$1"
}

# how Yosys reads a BLIF text: a gate of more than 12 inputs only as a sum of products, of which techmap makes gates
reading() {
    if awk '/^\.names/ && NF > 14 { wide = 1 } END { exit !wide }' "$1"; then
        echo "read_blif -sop $1; techmap"
    else
        echo "read_blif $1"
    fi
}

# whether the module of a BLIF text, with these inputs of its own, answers the symbols as `walk` does
answers_alike() {
    local text=$1 own=$2 reset=${3:-}
    yosys -q -p "$(reading "$text"); expose -input $own; write_verilog $room/module.v" >"$room/log" 2>&1 || return 1
    bench_of "$text" "$reset" >"$room/bench.v"
    iverilog -o "$room/simulated" "$room/bench.v" "$room/module.v" >"$room/log" 2>&1 || return 1
    vvp -n "$room/simulated" >"$room/simulated.answers" 2>"$room/log" || return 1
    cmp -s "$room/answers" "$room/simulated.answers"
}

# look-up tables and flip-flops of a BLIF text on an iCE40, or nothing where a cell of another kind is left
cells_of() {
    yosys -q -p "$(reading "$1"); expose -input machine/w:clk; synth_ice40 -top machine; tee -q -o $room/cells stat" \
        >"$room/log" 2>&1 || return 0
    awk '
        cells && NF == 2 { count[$1] = $2; if ($1 !~ /^SB_/) other = 1 }
        /Number of cells:/ { cells = 1 }
        END {
            for (cell in count) if (cell ~ /^SB_DFF/) latches += count[cell]
            if (cells && !other) printf "%d / %d", count["SB_LUT4"], latches
        }' "$room/cells"
}

# AND nodes, look-up tables and flip-flops of the network of a command, after all that is asked of it
figures() {
    local plain=$room/$command.blif clocked=$room/clocked.blif cells
    "$program" "$command" "$@" --fill hold >"$plain"
    "$program" "$command" "$@" --fill hold --clock clk --model machine >"$clocked"
    sed -E '/^\.latch /s/ re clk / /; s/^\.model machine$/.model hsdec/' "$clocked" | cmp -s "$plain" - ||
        wrong "the clock changes more than its lines"
    [ "$(grep -c '^\.latch' "$plain" || true)" -eq "$(grep -c '^\.latch .* re clk [01]$' "$clocked" || true)" ] ||
        wrong "a latch is without the clock"
    proved_equal "$room/code.blif" "$plain" || wrong "not shown equal to code"
    proved_equal "$room/code.blif" "$clocked" || wrong "not shown equal to code with a clock"
    answers_alike "$clocked" machine/w:clk || wrong "its module answers otherwise than walk"
    sed -E 's/^\.latch (\S+) (\S+) re (\S+) ([01])$/.subckt $_SDFF_PP\4_ D=\1 Q=\2 C=\3 R=rst/' "$clocked" >"$room/reset.blif"
    answers_alike "$room/reset.blif" "machine/w:clk machine/w:rst" reset || wrong "its module with a reset answers otherwise"
    cells=$(cells_of "$clocked")
    [ -n "$cells" ] || wrong "a cell is not mapped"
    networks=$((networks + 1))
    echo "$(nodes "$plain") / $cells"
}

# the row of a machine; `compare` says which commands write its network, and counts its literals
row_of() {
    local file=$1 line kind said
    machine=$(basename "$file" .kiss)
    "$program" compare "$file" --fill hold >"$room/compared" || { command=compare; wrong "no machine"; return; }
    random_symbols "$("$program" check "$file" --fill hold | sed -n 's/^inputs //p')" >"$room/symbols"
    "$program" walk "$file" "$room/symbols" --fill hold >"$room/answers"
    "$program" code "$file" --fill hold >"$room/code.blif"
    line="| \`$machine\`"
    for kind in $kinds; do
        read -r -a said <<<"$(grep "^$kind " "$room/compared")"
        command=$kind
        case ${said[1]} in
        parts | order)
            figures "$file" >"$room/figures"
            line="$line | ${said[12]} / $(cat "$room/figures")"
            ;;
        *) line="$line | ${said[*]:1}" ;;
        esac
    done
    echo "$line |"
}

# a command with an operand, on a machine of the tour
operand_row() {
    machine=$1
    command=$2
    random_symbols "$("$program" check "$root/examples/$1.kiss" | sed -n 's/^inputs //p')" >"$room/symbols"
    "$program" walk "$root/examples/$1.kiss" "$room/symbols" >"$room/answers"
    "$program" code "$root/examples/$1.kiss" >"$room/code.blif"
    figures "$root/examples/$1.kiss" "$3" >"$room/figures"
    echo "$machine $command: $(cat "$room/figures")"
}

kinds="code parallel serial cascade feedback least shift"
networks=0
if [ ${#files[@]} -eq 0 ]; then
    run_page "$root/docs/HARDWARE.md"
    run_page "$root/README.md" "Use the network"
    files=("$root"/examples/*.kiss)
    tour=1
fi
echo "| machine | \`${kinds// /\` | \`}\` |"
echo "|---$(for _ in $kinds; do printf '|---'; done)|"
for file in "${files[@]}"; do
    row_of "$file"
done
if [ -n "${tour:-}" ]; then
    operand_row counter8 assign 0,1,0,1,0,1,0,1/0,0,1,1,0,0,1,1/0,0,0,0,1,1,1,1
    operand_row modulo3 cover 0,1/0,2/1,2
fi
echo "hardware.sh: $networks networks$([ "$differ" -ne 0 ] || echo ', and all agree')" >&2
exit "$differ"
