# shellcheck shell=bash
# What the benches have in common; sourced, not run, by a script of this folder. It finds the repository, `root`, and
# this folder, `here`; makes a folder that goes away at the end, `work`; and builds `measure` there.
#
# What is compared are times of programs that have their turns one behind the other, so that what slows the machine down
# slows all of them, and of each the best.
set -euo pipefail
here=$(cd "$(dirname "${BASH_SOURCE[0]}")" && pwd)
root=${here%/bench}
die() { echo "bench: $*" >&2; exit 2; }
say() { if [[ -t 2 ]]; then printf '\r\033[K%s' "$*" >&2; fi; }    # how far it is, on a terminal; say "" erases it
work=$(mktemp -d "${TMPDIR:-/tmp}/bench.XXXXXX")
trap 'say ""; rm -rf "$work"' EXIT

# is_count NUMBER WHAT: or it ends here
is_count() { [[ $1 =~ ^[1-9][0-9]*$ ]] || die "not a $2: $1"; }

# ---- the programs
# shellcheck source=../tests/second/build.sh
. "$root/tests/second/build.sh"
find_kit
say "building"
build "$work/measure" "$here/measure.c" -O2

# proved NAME [LINE [INPUT SAID]]: leaves in `command` how the proved program NAME is started, without ./run in front,
# once ./run has built it: to that input (none if not told) it says this (`short`). LINE, if not empty, is another
# program's.
proved() {
    if [[ -n ${2:-} ]]; then
        read -ra command <<<"$2"
        return
    fi
    [[ $(printf '%s' "${3:-}" | "$root/run" "$1" || true) = "${4:-short}" ]] || die "the program $1 could not be built or run"
    command=("$root/crates/$1/out/$1")
}

# ---- in turn: the best of all turns, in `best`, by a key
declare -A best=()
in_turn() { # TURNS FUNCTION: calls it so often
    local turn
    for ((turn = 1; turn <= $1; turn++)); do
        say "turn $turn of $1"
        "$2"
    done
    say ""
}
less() { awk -v a="$1" -v b="$2" 'BEGIN { exit !(a < b) }'; }
keep() { if [[ -z ${best[$1]:-} ]] || less "$2" "${best[$1]}"; then best[$1]=$2; fi; }    # KEY SECONDS

# took FILE COMMAND...: the processor's time, user and system, of a start of it on a file of `work`, in seconds
took() { "$work/measure" start 1 "$work/$1" "${@:2}"; }
measured() { keep "$1" "$(took "${@:2}")"; } # KEY FILE COMMAND...

# ---- a program that is told 'LETTER COUNT', does something so many times, and says 'done'
# told LETTER COUNT: the files LETTER-none, with count 0, and LETTER-all
told() {
    echo "$1 0" >"$work/$1-none"
    echo "$1 $2" >"$work/$1-all"
}
says_done() { # FILE COMMAND...
    [[ $("${@:2}" <"$work/$1") = 'done' ]] || die "'$(<"$work/$1")' should give 'done'"
}
# once KEY COUNT: one time of it, in nanoseconds, from the keys KEY-all and KEY-none, beyond a start
once() { awk -v all="${best[$1-all]}" -v none="${best[$1-none]}" -v n="$2" 'BEGIN { print (all - none) / n * 1e9 }'; }
