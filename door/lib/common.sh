# shellcheck shell=bash
# What the commands of ./plungerhen have in common; sourced, not run. It leaves in `lib` this folder, in `root` the
# repository's, and in `called` by what name a person called the command.
set -u
export LC_ALL=C
lib=$(dirname -- "$(readlink -f -- "${BASH_SOURCE[0]}")")
root=${lib%/door/lib}
called=${CALLED:-./plungerhen ${0##*/}}

say() { noted ''; printf '%s: %s\n' "$called" "${*//[[:cntrl:]]/?}" >&2; }
die() { say "$@"; exit 2; }
help() { exec "$root/plungerhen" help "$@"; }
plural() { if [ "$1" -eq 1 ]; then printf '1 %s' "$2"; else printf '%s %ss' "$1" "$2"; fi; }

# Long work, where `long` is set, takes its time. On a terminal that is said, and the line erased again: noted WORDS,
# noted ''
long=
noted() { [ ! -t 2 ] || [ -z "$long" ] || printf '\r\033[K%s' "${1//[[:cntrl:]]/?}" >&2; }

# awk_by NAMES OPTION...: awk with these programs of this folder, behind bench.awk
awk_by() {
    local name by=(-f "$lib/bench.awk")
    for name in $1; do by+=(-f "$lib/$name.awk"); done
    awk "${by[@]}" "${@:2}"
}
# bench EXPRESSION: what bench.awk says, as in: bench SLOTS
bench() { awk "$(<"$lib/bench.awk")"$'\n'"BEGIN { print $1 }"; }
# is_slot WORD: whether it is the number of one of `slots` slots
is_slot() { [[ $1 =~ ^(0|[1-9][0-9]{0,3})$ ]] && [ "$1" -lt "$slots" ]; }

# A difference, as the program capture says it: a record's number, the model's answer, the captured one.
answer='(-|A|N|D[0-9A-F][0-9A-F]|R[0-9]{1,3})'
difference="^(0|[1-9][0-9]{0,14}) $answer ($answer|\\?)\$"

# program NAME LINE: runs the proved program NAME (./run NAME), or the command line, if one is given
program() { if [ -n "$2" ]; then eval "$2"; else "$root/run" "$1"; fi; }

# ---- files to read
# is_readable FILE: whether it is; if not, `why` says so
is_readable() {
    why=
    if [ ! -e "$1" ]; then why="there is no such file"
    elif [ -d "$1" ]; then why="it is a folder"
    elif [ ! -f "$1" ]; then why="it is no plain file"
    elif [ ! -r "$1" ]; then why="it is not readable"
    fi
    [ -z "$why" ]
}
# is_bytes FILE: whether it has a byte that no text has: a control byte that no printer knows, or FFh, which an empty
# module is full of
is_bytes() { [ "$(tr -d '\11-\15\32\33\40-\176\200-\376' <"$1" | head -c 1 | wc -c)" -ne 0 ]; }
# is_case FILE: whether it can be read and is text; if not, `why` says so
is_case() {
    is_readable "$1" || return
    if [ ! -s "$1" ]; then why="it is an empty file, and a case has a setup or an event"
    elif is_bytes "$1"; then why="it is a file of bytes, and a case is text (examples/cases/README.md has its form)"
    fi
    [ -z "$why" ]
}
# readable FILE, readable_case FILE: ends with that sentence if it is not
readable() { is_readable "$1" || unreadable "$1"; }
readable_case() { is_case "$1" || unreadable "$1"; }
unreadable() {
    case $why in
    'it '*) die "'$1' ${why#it }" ;;
    *) die "there is no file '$1'" ;;
    esac
}
# image FILE KIND: the bytes of the memory of such a slot, as octal escapes, in `bytes`; if it has none such, `why` says
# so
image() {
    local most whose
    is_readable "$1" || return
    most=$(bench "bytes_of($2)") whose=$(bench "whose_memory($2)")
    # shellcheck disable=SC1003    # a backslash
    bytes=$(od -An -v -to1 -N$((most + 1)) <"$1" | tr -d '\n' | tr ' ' '\\')
    case ${#bytes} in
    0) why="it is empty; $whose memory is 1 to $most bytes" ;;
    $((4 * most + 4))) why="it has more than $most bytes; $whose memory is 1 to $most bytes" ;;
    esac
    [ -z "$why" ]
}

# A folder for what is made on the way, `work`, and the files that are made aside: both go at the end.
work='' made=()               # made: in turn a file aside, its place
trap 'noted ""; rm -rf -- ${work:+"$work"}; for ((i = 0; i < ${#made[@]}; i += 2)); do rm -f -- "${made[i]}"; done' EXIT
workplace() { work=$(mktemp -d) || die "there is no place for what is made on the way"; }

# ---- files to write. A file is made beside its place, and moved there when all are complete: each is written whole, or
# none at all.
# target NAME [OPTION]: the place of a file that may be written, by its own name, in `target`; no file of `files`, those
# that are read, is lost
target() {
    local name=$1 of=${2:+$2: } file
    [ -n "$name" ] || die "${of}the file to write has no name"
    target=$(readlink -f -- "$name") || target=/nowhere/
    [ -d "${target%/*}/" ] || die "$of'$name' cannot be written: there is no such folder"
    [ "${name: -1}" != / ] || die "$of'$name' is no name of a file"
    [ ! -e "$target" ] || [ -f "$target" ] || die "$of'$name' is there already, and is no plain file"
    [ ! -e "$target" ] || [ -w "$target" ] || die "$of'$name' is there already, and may not be written"
    for file in "${files[@]}"; do
        [ ! "$target" -ef "$file" ] || die "$of'$name' is a file that is read here, and would be lost"
    done
}
# prepare PLACE COMMAND...: what the command says is to be the contents of the file at this place
prepare() {
    local place=$1 aside
    shift
    aside=$(mktemp -- "$place.XXXXXX" 2>/dev/null) || die "'$place' cannot be written; nothing is written"
    made+=("$aside" "$place")
    chmod "=rw" -- "$aside"      # as any new file
    "$@" >"$aside" || die "'$place' cannot be written; nothing is written"
}
put_in_place() {
    local i
    for ((i = 0; i < ${#made[@]}; i += 2)); do
        mv -f -- "${made[i]}" "${made[i + 1]}" || die "'${made[i + 1]}' cannot be written"
    done
    made=()
}

# ---- a case, as a plan (reading.awk)
# plan_of FILE STRICT BENCH: that plan; reading.awk says what the two others are
plan_of() { awk_by 'words reading' -v strict="$2" -v bench="$3" <"$1"; }
# read_case FILE: the plan in `plan`; `events` is the number of events, and `input` the setup and the records, as octal
# escapes of printf
read_case() {
    local row loose
    readable_case "$1"
    plan=$(plan_of "$1" 0 '')
    # shellcheck disable=SC2034    # for who asked
    IFS=$'\t' read -r row events loose input <<<"$plan"
    case $row in
    I) ;;
    B) die "'$1', line $events: $loose" ;;
    *) die "'$1' could not be read (awk failed)" ;;
    esac
}
# watch_case: what the program `watch` (./run watch), or the command line that the environment variable WATCH names,
# says of that case, behind its plan and a line GOT: in $work/watched; `watched` is its first line
# shellcheck disable=SC2034,SC2059    # for who asked; the bytes are escapes
watch_case() {
    workplace
    { printf '%s\nGOT\n' "$plan"; printf "$input" 2>/dev/null | program watch "${WATCH:-}"; } >"$work/watched"
    watched=$(sed '1,/^GOT$/d' "$work/watched" | head -n 1)
}
# telling_case MODE [FILE]: what that plan tells, or the file with what was watched (save.awk)
telling_case() { awk_by save -F '\t' -v mode="$1" "${2:--}" <<<"$plan"; }
