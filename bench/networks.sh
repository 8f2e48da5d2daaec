# To be sourced by the scripts that give networks to other tools: the program and the files that they were given as
# words, and what Berkeley ABC makes of a network. `--program PATH` names a program that is there; without it, `hsdec` is
# built. Each other word is a file of KISS2.

named=
files=()
while [ $# -gt 0 ]; do
    if [ "$1" = --program ]; then
        [ -x "${2:-}" ] || { echo "${0##*/}: no such program: ${2:-}" >&2; exit 2; }
        named=$(realpath "$2")
        shift 2
    else
        [ -f "$1" ] && [ -r "$1" ] || { echo "${0##*/}: no such file: $1" >&2; exit 2; }
        files+=("$(realpath "$1")")
        shift
    fi
done
root=$(realpath "$(dirname "$0")/..")
. "$root/bench/timing.sh"
make_room

# $program is the program that was named, or else the one of the crate
use_hsdec() {
    if [ -n "$named" ]; then program=$named; else use_program hsdec --version; fi
}

# refuses to begin where a tool is missing
need_tools() {
    local tool
    for tool in "$@"; do
        command -v "$tool" >/dev/null || { echo "${0##*/}: $tool is missing" >&2; exit 2; }
    done
}

resyn='balance; rewrite; refactor; balance; rewrite; rewrite -z; balance; refactor -z; rewrite -z; balance'

# the AND nodes of a BLIF text after the script, twice
nodes() {
    berkeley-abc -c "read_blif $1; strash; $resyn; $resyn; print_stats" 2>&1 |
        sed -n 's/.*and = *\([0-9]*\).*/\1/p' | tail -n 1
}

# whether two networks are shown to be equal
proved_equal() {
    berkeley-abc -c "dsec $1 $2" 2>&1 | grep -q 'Networks are equivalent'
}
