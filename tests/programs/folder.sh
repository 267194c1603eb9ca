# What the tests of compare, verdict, durations and cart share, sourced by each: programs that read two files, or more, of
# the folder they are run in or named. The caller sets $program, $one and $two, the files, and $lined, those of them that are text always. $asked has the arguments, and
# $any says that a sheet may come in any form.
asked=()
any=

# 01's sheets
A='2 1 1 0 0 0 0 1'
B='2 1 2 0 0 1 0 1 1 0 1'
C='1 1 2 0 1 0 1 0'
D='1 2 1 1 1 0 0 1 0 1'
E='1 3 1 1 1 1 2 1 0 0 0 1 0 0'
# one scene, three and four places one after the other; at the last ones the loop automata go 0 2 1 0, 1 marked, and 0 1 4 2 3 0, 4 not marked
left='1 3 3 1 3 1 2 2 1 2 0 0 0 0 0 1 2 0 1 0 1 0'
right='1 4 2 1 1 5 1 2 3 3 1 1 1 1 0 1 0 1 1 4 3 0 2 1 1 1 1 0'

# chain N K M: the packed sheet with one scene and N places one after the other, of which the last stays; it has K loop places in the same
# manner, the last one with the mark M, all others have one loop place. No other mark is 1.
chain() {
    local n=$1 k=$2 p ones='' leads='' loops='' zeros=''
    for ((p = 1; p < n; p++)); do ones+='1 ' leads+="$p " zeros+='0 0 '; done
    for ((p = 1; p < k; p++)); do loops+="$p "; done
    loops+="$((k - 1)) "
    for ((p = 1; p < k; p++)); do loops+='0 '; done
    bytes 1 "$n" $ones "$k" $leads "$((n - 1))" $zeros $loops "$3"
}

zeros() {
    head -c "$1" /dev/zero
}

# far_scenes: the packed sheet with 32 scenes in which scene 31 leads to place 1, whose loop automaton marks what scene 17 leads to
far_scenes() {
    bytes 32 2 1 2
    zeros 31; bytes 1; zeros 32 | tr '\0' '\1'
    zeros 33
    zeros 17; bytes 1; zeros 31; bytes 1; zeros 14; bytes 0 1
}

# spot FILE PLACE: the place by line and column, from 1, in a text, else by byte
spot() {
    local text='' lines ended
    case $(head -c 1 "$1" 2> /dev/null | tr '\0' .) in
        l | '[') text=$any ;;
    esac
    if [ -n "$text" ] || [[ " $lined " = *" $1 "* ]]; then
        lines=$(head -c "$2" "$1" 2> /dev/null | tr -cd '\n' | wc -c)
        ended=$(head -c "$2" "$1" 2> /dev/null | head -n "$lines" | wc -c)
        echo "$1:$((lines + 1)):$(($2 - ended + 1))"
    else
        echo "$1: byte $2"
    fi
}

# says NAME OUTPUT [ERROR]: the program prints this of the files that are there, and makes none. What cannot be read is said first.
says() {
    local unread
    unread=$(unread "$one"; unread "$two")
    expect "$1" "$2$nl" "${unread:+$unread$nl}${3:-}" "$bin/$program" "${asked[@]}"
}

# scene PART INDEX: where that scene stands in the show's text
scene() {
    echo "$two:$(grep -n "^$1 " "$two" | sed -n "$(($2 + 1))s/:.*//p"):$((${#1} + 2))"
}

# refuses NAME NUMBER PART PLACE
refuses() {
    local where why
    why=$(sentence "$2")
    case $3-$2 in
        second-7) where=$two ;;
        first-*) where=$(spot "$one" "$4") ;;
        second-*) where=$(spot "$two" "$4") ;;
        opening-9 | loop-9) where=$(scene "$3" "$4") ;;
        opening-21 | loop-21) where=$two why="the $3 has more than 4,096 scenes" ;;
        *) where=$program ;;
    esac
    says "$1" "$(refusal "$2" "$3" "$4")" "$where: refusal $2: $why$nl"
}

# show LINE..: the text of these lines after the names; a comma stands for the space.
show() {
    local line
    printf 'part scene\n'
    for line in "$@"; do printf '%s\n' "${line/,/ }"; done
}

# scenes PART COUNT SCENE: so many lines of that part, all of one scene.
scenes() {
    yes "$1 $3" | head -n "$2"
}

# unreadable FILE NUMBER PART PLACE: what is no file that can be read counts as missing; any other file is there.
unreadable() {
    rm -f "$1"
    mkdir "$1"
    refuses "a folder as $1" "$2" "$3" "$4"
    rmdir "$1"
    ln -s nowhere "$1"
    refuses "a link to nothing as $1" "$2" "$3" "$4"
    rm "$1"
    if [ "$(id -u)" -eq 0 ]; then
        skip "a file that may not be read as $1: root may read every file"
    else
        bytes $A > "$1"
        chmod 000 "$1"
        refuses "a file that may not be read as $1" "$2" "$3" "$4"
    fi
}

# 01's sheet B as text, of level four, and an automaton
text_b="level scenes places${nl}3 2 1${nl}place loops s0 s1${nl}0 2 0 0${nl}place loop mark s0 s1${nl}0 0 0 1 0${nl}0 1 1 1 1$nl"
text_4="level scenes places${nl}4 2 1${nl}scene seconds${nl}0 1${nl}1 999$nl${text_b#*3 2 1$nl}"
drawn="[0]${nl}s0,[0]->[1]${nl}s1,[0]->[0]${nl}s0,[1]->[1]${nl}s1,[1]->[0]${nl}[1]$nl"

# named FILE FILE: the arguments are these names
named() {
    one=$1 two=$2 asked=("$1" "$2") any=yes
}

# too_long NAME NUMBER PART SPOT ARGUMENT..: the program prints and says this where a name, $long, has more than 4,096 bytes: no file has it
long=$(zeros 5000 | tr '\0' a)
too_long() {
    local cut=${long:0:4096}
    expect "$1" "refused part place$nl$2 $3 0$nl" "$cut: File name too long$nl$cut$4: refusal $2: $(sentence "$2")$nl" "$bin/$program" "${@:5}"
}

# forms_of NAME: of the packed sheet NAME its texts, NAME.txt and NAME.four
forms_of() {
    printf '\1\0\2\0' > seconds
    "$bin/unpack" "$1" "$1.txt"
    "$bin/unpack" "$1" "$1.four" seconds
    rm seconds
}

# text_faults PART FILE [WHOLE..]: each number that a text may be refused for, at its place; FILE is the damaged one and of this part. Only
# faults of these whole texts, where they are named.
text_faults() {
    local number place whole old new
    while read -r number place whole old new; do
        [ $# -eq 2 ] || [[ " ${*:3} " = *" $whole "* ]] || continue
        old=${old//_/ } new=${new//_/ }
        old=${old//@/$nl} new=${new//@/$nl}
        [ "$new" = - ] && new=''
        whole=${!whole}
        printf '%s' "${whole/"$old"/"$new"}" > "$2"
        judge "'$old' to '$new': the text differs" test "$(cat "$2"; echo .)" != "$whole."
        refuses "$1: '$old' to '$new'" "$number" "$1" "$place"
    done << 'END'
10 20 text_b 3_2_1 5_2_1
2 22 text_b 3_2_1 3_33_1
3 24 text_b 3_2_1 3_2_0
4 46 text_b 0_2_0_0 0_33_0_0
5 50 text_b 0_2_0_0 0_2_0_1
6 78 text_b 0_0_0_1_0 0_0_2_1_0
11 4 text_b level lever
11 93 text_b 1_1_1_1@ 1_1_1_1
11 94 text_b 1_1_1_1@ 1_1_1_1@@
12 86 text_b 0_1_1_1_1 0_0_1_1_1
14 42 text_4 0_1@ 0_0@
12 17 drawn s1,[0] s32,[0]
5 13 drawn ->[1] ->[2]
11 1 drawn [0] [1]
12 17 drawn s1,[0] s3,[0]
13 52 drawn @[1]@ @
END
}

# show_faults FILE: what a show's text may be refused for, FILE being the show: number, place and text; _ is a space, @ a line feed, ^ a
# carriage return
show_faults() {
    local number place text
    while read -r number place text; do
        text=${text//_/ }
        text=${text//@/$nl}
        printf '%s' "${text//^/$'\r'}" > "$1"
        refuses "'$text'" "$number" second "$place"
    done << 'END'
8 11 part_scene@
8 21 part_scene@opening_0@
8 31 part_scene@opening_0@opening_1@
11 10 part_scene
11 10 part_scene^@loop_0^@
11 17 part_scene@loop_0^@
11 17 part_scene@loop_0
11 20 part_scene@opening_0
11 15 part_scene@loop
11 18 part_scene@loop_0@@
11 18 part_scene@loop_0@x
11 18 part_scene@loop_0@waits_ends@
11 18 part_scene@loop_0@opening_0@
11 11 part_scene@@loop_0@
11 0 @part_scene@loop_0@
11 0 loop_0@
11 0 verdict_reached_opening_loop@
11 16 part_scene@loop_00@
11 16 part_scene@loop_01@
11 16 part_scene@loop_1000@
11 16 part_scene@loop_@
11 16 part_scene@loop__0@
11 17 part_scene@loop_0_@
11 11 part_scene@Loop_0@
9 16 part_scene@loop_32@
9 16 part_scene@loop_999@
9 16 part_scene@loop_32
9 19 part_scene@opening_32@
9 19 part_scene@opening_32@loop_0
9 24 part_scene@loop_31@loop_32@
8 22 part_scene@opening_31@
11 22 part_scene@loop_2@loopx
END
}

# usage_shown NAME ARGUMENT..: these arguments are refused with the usage, and nothing is judged
usage_shown() {
    expect "$1" '' "$usage$nl" "$bin/$program" "${@:2}"
}
