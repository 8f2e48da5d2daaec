# To be sourced by the scripts beside it, with `words` set to the words that a script takes, if it takes any. Refuses
# other words, says on standard error what is begun and how long it took, and has the time and the instructions of a
# command, from outside.

for word in "$@"; do
    case " ${words:-} " in
    *" $word "*) ;;
    *)
        echo "${0##*/}: no such word: $word; it takes ${words:-none}" >&2
        exit 2
        ;;
    esac
done

room=
finish() {
    [ -z "$room" ] || rm -rf "$room"
    echo "${0##*/}: ended after $SECONDS seconds" >&2
}
trap finish EXIT

# a folder for files that goes when the script ends
make_room() {
    room=$(mktemp -d)
}

# builds a program where it has changed, with the words of a first run, and goes to its folder; $program is the program
use_program() {
    local name=$1
    shift
    cd "$(dirname "$0")/../crates/$name"
    echo "${0##*/}: building $name, which is proved first where it has changed" >&2
    rt run -- "$@" >/dev/null 2>&1 || {
        echo "${0##*/}: $name is not built" >&2
        exit 1
    }
    program=$PWD/out/$name
    echo "${0##*/}: timing" >&2
}

# the least of so many runs of a command, in microseconds
least_of() {
    local runs=$1 begin end
    shift
    for _ in $(seq "$runs"); do
        begin=$(date +%s%N)
        "$@" >/dev/null
        end=$(date +%s%N)
        echo $(((end - begin) / 1000))
    done | sort -n | head -n 1
}

# the instructions of a command as valgrind counts them, or 0 where it is not there
instructions_of() {
    command -v valgrind >/dev/null || { echo 0; return; }
    valgrind --tool=callgrind --callgrind-out-file=/dev/null "$@" 2>&1 >/dev/null |
        sed -n 's/.*Collected : \([0-9]*\).*/\1/p'
}
