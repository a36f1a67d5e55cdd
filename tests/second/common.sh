# shellcheck shell=bash
# Shared by the tests that hold the programs against the second opinion, random and planted of tests/bus, tests/plan,
# tests/capture, tests/save, tests/list and tests/watch, and by tests/bus/fuzz; sourced, not run.
#
# Finds the repository, `root`, and the folder of the test, `here`; builds the C programs (build.sh) into a folder that
# goes away at the end, `work`; and runs the two programs. FIRST, if set, is the command line of the program under test,
# a filter from a script on standard input to lines on standard output.

set -u
here=$(cd "$(dirname "${BASH_SOURCE[1]}")" && pwd)
root=$(cd "$here/../.." && pwd)
name=tests/${here##*/}/${0##*/}    # of the test, for people
work=$(mktemp -d "${TMPDIR:-/tmp}/second.XXXXXX") || exit 2
trap 'rm -rf "$work"' EXIT
trap 'exit 130' INT TERM

first=${FIRST:-$(printf '%q script' "$root/run")}

die() { echo "$*" >&2; exit 2; }

for argument; do                  # all arguments of all of them are numbers
    case $argument in
    "" | *[!0-9]*) die "$name: not a number: $argument" ;;
    esac
done

# shellcheck source=build.sh
. "$root/tests/second/build.sh"
for program in second generate shrink; do
    build "$work/$program" "$second/$program.c" -O1
done

# plan EVENTS SEED: a line `seed events mode` for each script: a bare setup, up to 90 short ones with two odd ones after
# every fifth, then, for what is still missing, 23 long ones and a very long one that does not fit into one buffer. Odd
# ones are not counted as events.
plan() {
    local events=$1 seed=$(($2 * 1000)) i=0 size rest
    echo "$((seed + 199)) 0 plain"
    while ((i < 90 && events > 0)); do
        size=$((50 + (i * 137 + $2 % 451 * 31) % 451))
        echo "$((seed + i)) $size plain"
        ((events -= size, i++))
        ((i % 5)) && continue
        echo "$((seed + 200 + i)) $((size % 100)) odd"
        echo "$((seed + 201 + i)) $((size % 7)) odd"
    done
    ((events > 0)) || return 0
    size=$(((events * 2 / 3 + 22) / 23))
    for ((i = 0; i < 23; i++)); do
        echo "$((seed + 400 + i)) $size plain"
    done
    rest=$((events - 23 * size))
    ((rest <= 0)) || echo "$((seed + 423)) $rest plain"
}

run_first() { sh -c "$first" <"$1" >"$2" 2>"$work/first.err"; }
run_second() { "$work/second" <"$1" >"$2"; }

# start_of PROGRAM: leaves in `command` its command line without ./run in front; a start then takes a few milliseconds.
# `short` is what every program here says to no input at all (`save` to standard error, where a build also speaks).
start_of() {
    local said
    said=$("$root/run" "$1" </dev/null 2>&1 | tee >(grep --line-buffered -vx short >&2))
    [ "${said##*$'\n'}" = short ] || die "$name: the program $1 could not be built or run"
    command=$(printf %q "$root/crates/$1/out/$1")
}

# alike SCRIPT: both programs say the same, byte for byte.
alike() {
    run_first "$1" "$work/first.txt"
    run_second "$1" "$work/second.txt"
    cmp -s "$work/first.txt" "$work/second.txt"
}

# The whole case of document 01, so that a FIRST that cannot be run at all is not taken for a difference.
check_whole_case() {
    printf '\1\1\0\0\0\0\0\0\0\0\0\0\0\0\0\0' >"$work/whole"
    printf '%b' '\01\0\0\0' '\02\0\0\0240' '\02\0\0\0' '\02\0\0\0132' '\04\0\0\0' \
        '\01\0\0\0' '\02\0\0\0240' '\06\0\0\0' '\01\0\0\0' '\02\0\0\0240' >>"$work/whole"
    run_first "$work/whole" "$work/first.txt"
    [ "$(tr '\n' ' ' <"$work/first.txt")" = '- A A A - - N - - A ' ] && return
    cat "$work/first.err" >&2
    die "the whole case of document 01 fails with: $first"
}

# show SCRIPT: shrinks the difference and prints it.
show() {
    "$work/shrink" "$1" "$work" "$first" "$(printf %q "$work/second")" && return
    cmp "$work/first.txt" "$work/second.txt"
    cat "$work/first.err"
}

# ---- judges: programs in C that make inputs, give them to the program under test, and say in one line what came of it
# judged_by JUDGE WORD...: runs it. Where it finds something wrong, status 1, what the program was given and what it
# wrote is kept. Ends here.
judged_by() {
    local kept folder=${KEPT:-$root/target/tests}
    "$work/$1" "${@:2}" && exit
    [ $? = 1 ] || exit 2
    mkdir -p "$folder" || exit 2
    for kept in input said told; do
        cp "$work/$kept" "$folder/$1-$seed.$kept"
    done
    echo "kept: $folder/$1-$seed.* (what the program was given, and its standard output and standard error)"
    exit 1
}

# ---- planted faults
# plant OLD NEW SOURCE: the source with the one place of OLD replaced.
plant() {
    OLD=$1 NEW=$2 awk '
        { at = index($0, ENVIRON["OLD"]) }
        at { n++; $0 = substr($0, 1, at - 1) ENVIRON["NEW"] substr($0, at + length(ENVIRON["OLD"]))
             if (index(substr($0, at + length(ENVIRON["NEW"])), ENVIRON["OLD"])) n++ }
        { print }
        END { exit n != 1 }' "$3"
}

# found TEST WORD...: whether a test of tests/ finds the faulted program wrong; `said` has its first line.
found() {
    said=$("$root/tests/$1" "${@:2}")
    case $? in
    0) return 1 ;;
    1) said=${said%%$'\n'*} ;;
    *) die "$name: tests/$1 could not be run" ;;
    esac
}

# try NAME: says whether the faulted program is caught, and in what words: here by the random test of the same part.
try() {
    if found "${here##*/}/random" "$count" "$seed"; then
        echo "caught $1: ${said#*: }"
    else
        echo "NOT CAUGHT $1"
        return 1
    fi
}

# must_pass SOURCE WORDS: the program as it stands, in words, is not found wrong.
must_pass() {
    build "$work/faulted" "$1" -O1
    ! try "nothing" >/dev/null || die "$name: $2 is found wrong as it stands: $said"
}

# plant_all SOURCE: plants the faults of planted.txt (its head has the form) in the source, one by one, builds each as
# $work/faulted, and has `try NAME` say whether it is caught. Says how many were; status 0 if all.
plant_all() {
    local faults=0 caught=0 fault='' old='' line
    while IFS= read -r line; do
        case $line in
        'name: '*) fault=${line#name: } ;;
        'old: '*) old=${line#old: } ;;
        'new: '*)
            plant "$old" "${line#new: }" "$1" >"$work/faulted.c" ||
                die "$name.txt: the old text of '$fault' must occur exactly once in ${1##*/}"
            build "$work/faulted" "$work/faulted.c" -O0
            ((faults += 1))
            try "$fault" && ((caught += 1))
            ;;
        '' | '#'*) ;;
        *) die "$name.txt: what is this line: $line" ;;
        esac
    done <"$here/planted.txt"
    echo "$name: $caught of $faults caught"
    ((caught == faults))
}
