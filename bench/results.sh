#!/usr/bin/env bash
# What each decomposition of the controllers in examples/ costs, as rows of the table in docs/RESULTS.md: latches and
# literals as `hsdec compare` counts them, and AND nodes after one script of Berkeley ABC. Beside them the binary and the
# one-hot coding of the same table that Yosys makes. ABC proves each network equal to that of `code`. Given files of KISS2
# as words, it makes the rows of these machines instead. `--program PATH` names a program that is built already.
#
# Needs the packages berkeley-abc and yosys. It takes a minute and a half.
set -eu
. "$(dirname "$0")/networks.sh"
need_tools berkeley-abc yosys awk
use_hsdec
if [ ${#files[@]} -eq 0 ]; then
    for machine in traffic uart jtag detector shift3 decade elevator arbiter vending counter8 seconds; do
        files+=("$root/examples/$machine.kiss")
    done
fi

# the table of a machine as a Verilog module, for the coding tool
verilog() {
    awk '
        function number(name) { if (!(name in state)) { state[name] = count; names[count++] = name } return state[name] }
        { sub(/#.*/, "") }
        $1 == ".i" { inputs = $2 } $1 == ".o" { outputs = $2 } $1 == ".r" { reset = $2 }
        NF == 4 && $1 !~ /^\./ { row[rows++] = $0; number($2) }
        END {
            if (reset == "") reset = names[0]
            for (r = 0; r < rows; r++) { split(row[r], f); if (f[3] !~ /^[-*]$/) number(f[3]) }
            for (bits = 1; 2 ^ bits < count; bits++);
            printf "module machine(input clk, input rst, input [0:%d] x, output reg [0:%d] z);\n", inputs - 1, outputs - 1
            printf "(* fsm_encoding = \"auto\" *) reg [%d:0] s;\nreg [%d:0] n;\nalways @(posedge clk or posedge rst) if (rst) s <= %d; else s <= n;\n", bits - 1, bits - 1, state[reset]
            print "always @* begin n = 0; z = 0; case (s)"
            for (c = 0; c < count; c++) {
                printf "%d: begin casez (x)\n", c
                whole = 0
                for (r = 0; r < rows; r++) {
                    split(row[r], f)
                    if (f[2] != names[c]) continue
                    cube = f[1]; gsub(/-/, "?", cube)
                    whole = whole || cube !~ /[01]/
                    label = cube ~ /[01]/ ? inputs "'"'"'b" cube : "default"
                    gsub(/-/, "0", f[4])
                    next_state = f[3] ~ /^[-*]$/ ? c : state[f[3]]
                    printf "%s: begin n = %d; z = %d'"'"'b%s; end\n", label, next_state, outputs, f[4]
                }
                if (!whole) printf "default: begin n = %d; z = 0; end\n", c
                print "endcase end"
            }
            print "default: begin n = " bits "'"'"'bx; z = " outputs "'"'"'bx; end\nendcase end\nendmodule"
        }' "$1"
}

# latches and AND nodes of the coding that the tool makes
coded() {
    local file=$1 coding=$2
    verilog "$file" >"$room/machine.v"
    yosys -q -p "read_verilog $room/machine.v; proc; opt; fsm_detect; fsm_extract; fsm_opt; fsm_recode -encoding $coding; fsm_map; opt -full; expose -evert-dff; opt -full; techmap; opt -full; aigmap; opt_clean; write_blif $room/$coding.blif" >"$room/yosys.log" 2>&1 || { echo "failed"; return; }
    echo "$(awk '/^\.outputs/ { for (i = 2; i <= NF; i++) if ($i ~ /\.d\[?|\.d$/) latches++ } END { printf "%d", latches }' "$room/$coding.blif") / $(nodes "$room/$coding.blif")"
}

# what a row says of a kind: latches, literals and AND nodes, or the reason why there is no network
entry() {
    local file=$1 kind=$2 out=$room/$2.blif said
    read -r -a said <<<"$(grep "^$kind " "$room/compared")"
    case ${said[1]} in
    parts | order) ;;
    *)
        echo "${said[*]:1}"
        return
        ;;
    esac
    "$program" "$kind" "$file" --fill hold >"$out"
    proved_equal "$room/code.blif" "$out" || { echo "not shown equal"; return; }
    echo "${said[4]} / ${said[12]} / $(nodes "$out")"
}

kinds="code parallel serial cascade feedback least shift"
echo "machine | states | ${kinds// / | } | binary | one-hot"
for file in "${files[@]}"; do
    machine=$(basename "$file" .kiss)
    echo "results.sh: $machine" >&2
    "$program" compare "$file" --fill hold >"$room/compared" || { echo "results.sh: $file is no machine" >&2; continue; }
    line="$machine | $("$program" check "$file" --fill hold | sed -n 's/^states //p')"
    for kind in $kinds; do
        line="$line | $(entry "$file" "$kind")"
    done
    echo "$line | $(coded "$file" binary) | $(coded "$file" one-hot)"
done
