# shellcheck shell=bash
# What the tests `examples` of tests/plan, tests/save, tests/list and tests/watch have in common; sourced, not run.
#
# Who sources it sets `reading`, an awk program that, behind words.awk, makes rows of an example, fields parted by tabs;
# or, alone, a row B: line number, what is wrong there. It then calls each_example.
export LC_ALL=C
here=$(cd "$(dirname "${BASH_SOURCE[1]}")" && pwd) || exit 2
root=$(cd "$here/../.." && pwd) || exit 2
work=$(mktemp -d "${TMPDIR:-/tmp}/examples.XXXXXX") || exit 2
trap 'rm -rf "$work"' EXIT

not_run() { printf '%s\n' "tests/${here##*/}/examples: $1" >&2; exit 2; }

# answers_short PROGRAM COMMAND...: that is what it says to no input at all, on standard output or standard error
answers_short() {
    local said
    said=$("${@:2}" </dev/null 2>&1)
    [ "${said##*$'\n'}" = short ] || { printf '%s\n' "$said" >&2; not_run "the program $1 could not be built or run"; }
}

# each_example WORD CHECK FOLDER FILE...: has the function CHECK play each file, or each of the folder of examples/ if none
# is named; its rows are then in $work/rows, its name in `name`. The last line says how many they were.
each_example() {
    local what=$1 check=$2 folder=$3 count=0 file row line why
    shift 3
    [ $# -gt 0 ] || set -- "$root/examples/$folder"/*.txt
    for file; do
        name=${file#"$root"/}
        [ -f "$file" ] && [ -r "$file" ] || { printf '%s: no such file, or not readable\n' "$name" >&2; exit 2; }
        awk "$(cat "$root"/door/lib/{bench,words}.awk)$reading" <"$file" >"$work/rows"
        IFS=$'\t' read -r row line why <"$work/rows"
        case $row in
        B) printf '%s, line %s: %s\n' "$name" "$line" "$why" >&2; exit 2 ;;
        '') printf '%s: the example could not be read (awk failed)\n' "$name" >&2; exit 2 ;;
        esac
        "$check"
        count=$((count + 1))
    done
    printf '%s: %d examples, all as expected\n' "$what" "$count"
}

# compared AWK: what this awk program says of its input, the first difference or nothing, in $work/apart; it has to succeed
compared() { awk "$1" >"$work/apart" || not_run "$name could not be compared (awk failed)"; }

# fail WHERE EXPECTED GOT: what differs first in the example in hand; ends here
fail() {
    printf '!!! %s\n!!!   expected  %s\n!!!   got       %s\n' "$name$1" "$2" "$3"
    exit 1
}
