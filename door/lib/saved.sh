# shellcheck shell=bash
# What ./plungerhen save, show and resume have in common; sourced, not run.
# shellcheck source=lib/common.sh
. "$(dirname -- "$(readlink -f -- "${BASH_SOURCE[0]}")")/common.sh"

# words COUNT WHAT WORD...: the files that are named, in `files`
words() {
    local count=$1 what=$2
    shift 2
    files=()
    while [ $# -gt 0 ]; do
        case $1 in
        -h | --help) help ;;
        --) shift; files+=("$@"); break ;;
        -?*) die "there is no option '$1'" ;;
        *) files+=("$1"); shift ;;
        esac
    done
    [ ${#files[@]} -eq "$count" ] || die "$what is wanted, and $(given ${#files[@]}) given (./plungerhen help says more)"
}
given() { if [ "$1" -eq 1 ]; then printf '1 file is'; else printf '%s files are' "$1"; fi; }

# ---- a file that is said to hold a form: `shown FILE` asks the proved program `show` of it (./run show), or the command
# line that the environment variable SHOW names. Its word alone counts: `said` is what it says but for slots' lines,
# which are in $work/lines, `status` how it ends, and $work/form the form with its length before it, as programs read it.
shown() {
    local size
    workplace
    size=$(wc -c <"$1")
    [ "$size" -le 65535 ] || size=65536      # the program takes no form that long, and does not read it
    # shellcheck disable=SC2059    # the bytes are escapes
    { printf "$(printf '\\%03o' 0 $((size / 65536)) $((size / 256 % 256)) $((size % 256)))"; head -c "$size" <"$1"; } >"$work/form"
    program show "${SHOW:-}" <"$work/form" >"$work/lines"
    status=$?
    said=$(grep -v '^[0-9]' "$work/lines")
}
# saved FILE: sees that it holds one; where it does not, the place is looked for (saved.awk), to be told
saved() {
    readable "$1"
    shown "$1"
    case $said,$status in
    ,0) ;;
    R10,*) say "'$1' is refused (10): $(in_numbers "$1" saved)"; exit 1 ;;
    ,*) die "the program show could not be built or run" ;;
    *) die "the program show gave something that is no verdict on '$1': $said" ;;
    esac
}
# in_numbers FILE PROGRAM OPTION...: its bytes, as numbers, to an awk program
in_numbers() { od -An -v -tu1 -N65536 <"$1" | awk_by "$2" -v size="$(wc -c <"$1")" "${@:3}"; }
# telling MODE FILE: what shown.awk tells of the form that was shown last
telling() { in_numbers "$2" shown -v mode="$1" -v lines="$work/lines"; }
