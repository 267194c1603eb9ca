# What the tests of the programs share; sourced by each. A case runs in a fresh folder and compares all that is written, and how it ends.
#   NAME [PROGRAMS [FEW]]    PROGRAMS is the folder of other programs to test; with FEW it ends after so many judgements, or at the first
#                            that fails
# Root may read every file: a test that is called by root runs as another user, unless it sets $keeps_user before it sources this file.
. "$(dirname "$0")/../../scripts/preamble.sh"
bin=${1:+$(realpath -m -- "$1")}
few=${2:-}
cd "$(dirname "$0")" || exit 2
root=$(cd ../.. && pwd)
bin=${bin:-$root/target/bin}
top=
passed=0
failed=0
skipped=0

# stop MESSAGE: the test cannot go on.
stop() {
    echo "$(basename "$0"): $1" >&2
    exit 2
}

for program in cart compare durations import pack unpack verdict; do
    [ -x "$bin/$program" ] || stop "not built: $program (make programs)"
done
trap '[ -z "$top" ] || rm -rf "$top"' EXIT
top=$(mktemp -d) && top=$(realpath -e -- "$top") && [ "$top" != / ] || stop 'there is no folder for temporary files'
if [ "$(id -u)" -eq 0 ] && [ -z "${keeps_user:-}" ]; then
    . ./other_user.sh
fi

# room: what cannot be written stops the test. The pages stay free in between.
room() {
    printf '%8192s' '' > "$top/room" && : > "$top/room" || stop "$top cannot be written: is it full?"
}

# fresh: an empty folder for the next case, and into it.
fresh() {
    rm -rf "$top/case"
    mkdir "$top/case" && cd "$top/case" || stop "$top/case cannot be made"
}

# bytes N..: each number as a byte.
bytes() {
    local text='' octal n
    for n in "$@"; do
        printf -v octal '\\%03o' "$n"
        text+=$octal
    done
    printf "$text"
}

# pad LENGTH: standard input, then zeros up to this length.
pad() {
    { cat; head -c "$1" /dev/zero; } | head -c "$1"
}

# cycle N K P M: the packed sheet with one scene, a leading cycle of N places, and for each a loop cycle of K places, of which P has
# the mark M and the others have not.
cycle() {
    local n=$1 k=$2 p q tail='' all=''
    for ((p = 0; p < k; p++)); do tail+="$(((p + 1) % k)) "; done
    for ((p = 0; p < k; p++)); do tail+="$((p == $3 ? $4 : 1 - $4)) "; done
    for ((q = 0; q < n; q++)); do all+="$k "; done
    for ((q = 0; q < n; q++)); do all+="$(((q + 1) % n)) "; done
    for ((q = 0; q < n; q++)); do all+=$tail; done
    bytes 1 "$n" $all
}

# uniform S N K NEXT MARK: the packed sheet whose next places are all NEXT and whose marks are all MARK.
uniform() {
    awk -v s="$1" -v n="$2" -v k="$3" -v next_place="$4" -v mark="$5" '
    function put(count, value) { while (count-- > 0) printf "\\%03o", value }
    BEGIN {
        put(1, s); put(1, n); put(n, k); put(n * s, next_place)
        for (q = 0; q < n; q++) { put(k * s, next_place); put(k, mark) }
    }' > "$top/octal"
    printf "$(cat "$top/octal")"
}

# seconds_of S: so many seconds as 16-bit numbers, low byte first: 999, 1, and others.
seconds_of() {
    local text='' a cell octal
    for ((a = 0; a < $1; a++)); do
        cell=$((a == 1 ? 1 : 999 - 31 * a))
        printf -v octal '\\%03o\\%03o' $((cell % 256)) $((cell / 256))
        text+=$octal
    done
    printf "$text"
}

# damaged_sheets: number and place of the refusal, then the bytes
damaged_sheets() {
    cat << 'END'
1 1 2
1 3 2 2 1
1 7 2 1 1 0 0 0 0
1 9 2 1 1 0 0 0 0 1 0
1 10 2 1 2 0 0 1 0 1 1 0
2 0 0 1 1 0 0 0 0 1
2 0 33 1 1 0 0 0 0 1
3 1 2 0 1 0 0 0 0 1
3 1 2 33 1 0 0 0 0 1
4 2 2 1 0 0 0 0 0 1
4 2 2 1 33 0 0 0 0 1
5 3 2 1 1 1 0 0 0 1
5 6 2 1 1 0 0 0 1 1
6 7 2 1 1 0 0 0 0 2
END
}

refusal() {
    printf 'refused part place\n%s %s %s\n' "$1" "$2" "$3"
}

# sentence NUMBER: why that number is refused
sentence() {
    case $1 in
        1) echo 'the packed sheet is too short or too long' ;;
        2) echo 'the number of scenes is not from 1 to 32' ;;
        3) echo 'the number of places is not from 1 to 32, or 16 in a drawn automaton' ;;
        4) echo 'the number of loop places is not from 1 to 32' ;;
        5) echo 'this place is not below the number of places of its automaton' ;;
        6) echo 'this mark is neither 0 nor 1' ;;
        7) echo 'the two sheets have different numbers of scenes' ;;
        8) echo 'the show has no loop' ;;
        9) echo 'this scene is not below the number of scenes' ;;
        10) echo 'the level is neither 3 nor 4' ;;
        11) echo 'the text departs from its layout here, or ends too early' ;;
        12) echo 'another scene, place or loop place is due here' ;;
        13) echo 'the automaton has no accepting place' ;;
        14) echo 'the seconds are not from 1 to 999' ;;
        21) echo 'there is too little room for the result' ;;
        22) echo 'the comparison needs more work cells than there are' ;;
        23) echo 'the show found is longer than the room for it' ;;
        25) echo 'the file has more than 65,536 bytes' ;;
        26) echo 'this part of the show has more than 65,536 scenes' ;;
    esac
}

# unread FILE: what is said of a file that cannot be read; nothing of any other.
unread() {
    if [ "${#1}" -gt 4096 ]; then
        echo "${1:0:4096}: File name too long"
    elif [ ! -e "$1" ]; then
        echo "$1: No such file or directory"
    elif [ -d "$1" ]; then
        echo "$1: Is a directory"
    elif [ ! -r "$1" ]; then
        echo "$1: Permission denied"
    fi
}

# judge NAME TEST..: a case passes where the test holds.
judge() {
    local name=$1
    shift
    room
    if "$@"; then
        passed=$((passed + 1))
    else
        failed=$((failed + 1))
        echo "FAILED: $name ($*)"
    fi
    [ -z "$few" ] || [ $((passed + (failed > 0 ? few : 0))) -lt "$few" ] || finish
}

# written FILE TEXT: the file holds this text, and then the dot that ends_with adds. A byte 0 would begin another part.
written() {
    local parts
    mapfile -d '' parts < "$1"
    [ "${#parts[@]}" -eq 1 ] && [ "${parts[0]}" = "$2." ] || { printf 'written: %q\n' "${parts[@]::3}" | cut -c 1-300; false; }
}

# names: sets $names to the names of all that is in this folder, with a slash around each.
names() {
    local IFS=/
    shopt -s nullglob dotglob
    set -- *
    shopt -u nullglob dotglob
    names=/$*/
}

# only_named BEFORE WORD..: no name is new in this folder but those that the words have.
only_named() {
    local before=$1 name IFS=/
    shift
    names
    for name in $names; do
        [ -n "$name" ] || continue
        case $before in */"$name"/*) continue ;; esac
        case "/$*/" in */"$name"/*) ;; *) return 1 ;; esac
    done
}

# ends_with STATUS NAME STDOUT STDERR COMMAND..: the command writes exactly this, exits so, and makes no file in this folder that its
# words do not name. The dots need room where what is written had none.
ends_with() {
    local due=$1 name=$2 stdout=$3 stderr=$4 status names before
    shift 4
    names
    before=$names
    : > "$top/out" && : > "$top/err" || stop "$top cannot be written"
    "$@" > "$top/out" 2> "$top/err"
    status=$?
    printf . >> "$top/out" && printf . >> "$top/err" || stop "$top cannot be written: is it full?"
    judge "$name: standard output" written "$top/out" "$stdout"
    judge "$name: standard error" written "$top/err" "$stderr"
    judge "$name: exit status" test "$status" -eq "$due"
    judge "$name: no other file is made" only_named "$before" "$@"
}

# expect NAME STDOUT STDERR COMMAND..: the same, with exit status 0.
expect() {
    ends_with 0 "$@"
}

skip() {
    skipped=$((skipped + 1))
    echo "skipped: $*"
}

# What is skipped because something is missing is not tested: the test fails.
finish() {
    echo "$(basename "$0"): $passed passed, $failed failed, $skipped skipped"
    [ "$failed" -eq 0 ] && [ "$skipped" -eq 0 ] && [ "$passed" -gt 0 ]
    exit
}
nl=$'\n'
