# The cases that cart, import, pack and unpack share, sourced by each: what becomes of SOURCE and TARGET. It is given
#   $program   and in $top: good, a source that is taken; made, what it makes (more than 1,024 bytes); bad, a source that is refused
#   $fault     number and place of that refusal
#   $nothing   number of the refusal of an empty source
#   $padded    the refusal of the good source with zeros after it
#   $lined     yes where the source is lines of text
#   $usage     what is said of a wrong number of arguments, and $too_many, the words after two that make it so
#   $target    what the second argument is called where it is too long
#   $one_file  what is said where the good source is the target too; nothing where that is taken
#   $also      the arguments after source and target, if there are others
run() {
    "$bin/$program" "$@" "${also[@]}"
}

# limited ARGUMENT..: the same where no file may grow beyond 1,024 bytes.
limited() {
    (trap '' XFSZ; ulimit -f 1; run "$@")
}

takes() {
    expect "$1" '' '' run "$2" "$3"
    judge "$1: what is made" cmp "$top/made" "$3"
}

# takes_by NAME TARGET ARGUMENT..: the target is made by these arguments, and removed.
takes_by() {
    expect "$1" '' '' run "${@:3}"
    judge "$1: what is made" cmp "$top/made" "./$2"
    rm "./$2"
}

# refuses NAME NUMBER PLACE ARGUMENT..
refuses() {
    refuses_part "$1" "$2" first "$3" "${@:4}"
}

# words FILE LINED NUMBER PLACE: the refusal in words, by line and column or by byte.
words() {
    local line
    if [ "$2" = yes ]; then
        line=$(($(head -c "$4" "$1" 2> "$top/null" | wc -l) + 1))
        printf '%s:%s:%s:' "${1:0:4096}" "$line" "$(($(head -c "$4" "$1" 2> "$top/null" | tail -n "+$line" | wc -c) + 1))"
    else
        printf '%s: byte %s:' "${1:0:4096}" "$4"
    fi
    echo " refusal $3: $(sentence "$3")"
}

# refuses_part NAME NUMBER PART PLACE ARGUMENT..: on standard output, and in words on standard error.
refuses_part() {
    local said
    said=$(
        unread "$5"
        if [ "$program" = unpack ] && [ $# -gt 6 ] && [ "$2$3" != 25first ]; then unread "$7"; fi
        case $3 in
            first) words "$5" "$lined" "$2" "$4" ;;
            second) words "$7" no "$2" "$4" ;;
            seconds)
                words "$7" no "$2" $(($4 * 2))
                if [ "$2" = 21 ]; then echo 'unpack: SECONDS has not two bytes for each scene'; fi
                ;;
        esac
    )
    expect "$1" "$(refusal "$2" "$3" "$4")$nl" "$said$nl" run "${@:5}"
}

# keeps_all NAME: no file is left over beside those that are made.
keeps_all() {
    judge "$1: nothing is left over" test -z "$(ls -A | grep '^\.new\.')"
}

# as_user COMMAND..: by someone whom permissions bind.
as_user() {
    if [ "$(id -u)" -eq 0 ]; then
        setpriv --reuid 65534 --regid 65534 --clear-groups "$@"
    else
        "$@"
    fi
}

# faulty TEXT [THIRD]: each line of standard input has number and place of a refusal, what stands in the text and what takes its place; _
# is a space, @ a line feed, and - alone nothing. THIRD is a third file.
faulty() {
    local number place old new
    while read -r number place old new; do
        old=${old//_/ } new=${new//_/ }
        [ "$new" = - ] && new=''
        old=${old//@/$nl} new=${new//@/$nl}
        printf '%s' "${1/"$old"/"$new"}" > text
        judge "'$old' to '$new': the text differs" test "$(cat text; echo .)" != "$1."
        rm -f sheet ${2:+"$2"}
        refuses "'$old' to '$new'" "$number" "$place" text sheet ${2:+"$2"}
        judge "'$old' to '$new': no target is made" test ! -e sheet -a ! -e "${2:-sheet}"
    done
}

fresh
cp "$top/good" good
cp "$top/bad" bad
takes 'a new target' good target
judge 'a new target: the source stays' cmp "$top/good" good
yes 'something longer' | head -c 200000 > target
takes 'a target that is longer' good target
# of a drawing, or of what a cart is made of, nothing would be left, so it stays
if [ -n "${one_file:-}" ]; then
    ln good hard
    for name in good ./good hard; do
        expect "source and target are one: $name" '' "$one_file$nl" run good "$name"
        judge "source and target are one: $name stays" cmp "$top/good" "$name"
    done
    rm hard
else
    takes 'source and target are one' good good
fi
refuses 'refused, no target' $fault bad none
judge 'refused, no target: none is made' test ! -e none
echo 'as before' > target
refuses 'refused, a target' $fault bad target
judge 'refused, a target: it stays' test "$(cat target)" = 'as before'
refuses 'refused, source and target are one' $fault bad bad
judge 'refused, source and target are one: it stays' cmp "$top/bad" bad

# sources that are not there, empty or cannot be read
: > empty
mkdir folder
long_name=$(head -c 5000 /dev/zero | tr '\0' a)
for source in missing empty folder '' none/source "$long_name"; do
    refuses "source '${source:0:20}'" "$nothing" 0 "$source" none
    judge "source '${source:0:20}': no target is made" test ! -e none
done
if [ "$(id -u)" -eq 0 ]; then
    skip 'a source that may not be read, a target that may not be written: root may'
else
    cp "$top/good" closed
    chmod 000 closed
    refuses 'a source that may not be read' "$nothing" 0 closed none
    cp "$top/good" good
    expect 'a target that may not be written' '' "closed: Permission denied$nl" run good closed
fi

# a source that is too long
pad 65537 < "$top/good" > long
refuses 'a source of 65537' 25 65536 long target
judge 'a source of 65537: the target stays' test "$(cat target)" = 'as before'
pad 65536 < "$top/good" > long
refuses_part 'a source of 65536' $padded long target

# arguments
cp "$top/good" good
rm -f none
expect 'no argument' '' "$usage$nl" run
expect 'one argument' '' "$usage$nl" run good
expect 'one argument that is empty' '' "$usage$nl" run ''
expect 'too many arguments' '' "$usage$nl" run good none $too_many
expect 'far too many arguments' '' "$usage$nl" run good none $too_many 4 5 6 7
for option in -h --help -x --explain --usage; do
    expect "the option $option" '' "$usage$nl" run "$option"
    expect "the option $option and two names" '' "$usage$nl" run "$option" good none
    expect "the option $option last" '' "$usage$nl" run good none "$option"
done
expect 'no name after --' '' "$usage$nl" run --
expect 'one name after --' '' "$usage$nl" run -- good
judge 'wrong arguments: no target is made' test ! -e none
[ "$program" = cart ] || judge 'the usage has a line and three' test "$(echo "$usage" | wc -l)" -eq 4
takes_by 'names after --' -h -- good -h
takes_by 'a name, then --' -h good -- -h
takes_by 'two names, then --' none good none --
takes_by 'a name that is -' - good -
cp good ./--help
takes_by 'a source like an option' none -- --help none
rm ./--help

# targets that cannot be made
expect 'a folder as the target' '' "folder: Is a directory$nl" run good folder
expect 'a target in no folder' '' "none/target: No such file or directory$nl" run good none/target
expect 'a target in a file' '' "good/target: Not a directory$nl" run good good/target
expect 'an empty name as the target' '' ": No such file or directory$nl" run good ''
expect 'a name that is too long' '' "$target: File name too long$nl" run good "$long_name"
expect 'a part of a name that is too long' '' "${long_name:0:300}: File name too long$nl" run good "${long_name:0:300}"
ln -s round round
expect 'a link to itself as the target' '' "round: Too many levels of symbolic links$nl" run good round
keeps_all 'targets that cannot be made'

# targets that cannot be written whole: what was there is there, and nothing else
fresh
cp "$top/good" good
expect 'a target that grows too large' '' "cut: File too large$nl" limited good cut
judge 'a target that grows too large: it is not made' test ! -e cut
keeps_all 'a target that grows too large'
echo 'as before' > old
ln old again
ln -s old link
expect 'a target that is there grows too large' '' "old: File too large$nl" limited good old
judge 'a target that is there grows too large: it stays' test "$(cat old)" = 'as before'
judge 'a target that is there grows too large: its other name too' test old -ef again
expect 'what a link leads to grows too large' '' "link: File too large$nl" limited good link
judge 'what a link leads to grows too large: it stays' test "$(cat old)" = 'as before'
judge 'what a link leads to grows too large: the link stays' test "$(readlink link)" = old
for length in 1500 200000; do # longer than what may be written: the write fails where the file has bytes
    yes 'as before' | head -c "$length" > long
    cp long "$top/long"
    ln -sf long to_long
    expect "what a link leads to, of $length bytes, is too large" '' "to_long: File too large$nl" limited good to_long
    judge "what a link leads to, of $length bytes, is too large: it stays" cmp "$top/long" long
done
rm long to_long
ln -s "$top/missing" to_be # what is made through a link lies elsewhere
expect 'what a link is to lead to grows too large' '' "to_be: File too large$nl" limited good to_be
judge 'what a link is to lead to grows too large: the link stays' test "$(readlink to_be)" = "$top/missing"
judge 'what a link is to lead to grows too large: it is empty' test ! -s "$top/missing"
cp good both
if [ -z "${one_file:-}" ]; then
    ln -s both to_both
    expect 'a link to the source, and it grows too large' '' "to_both: File too large$nl" limited both to_both
    judge 'a link to the source, and it grows too large: it stays' cmp good both
    rm to_both
    expect 'source and target are one, and grow too large' '' "both: File too large$nl" limited both both
    judge 'source and target are one, and grow too large: it stays' cmp good both
fi
keeps_all 'targets that grow too large'
if [ -c /dev/full ]; then
    ln -s /dev/full full
    expect 'a device that is full' '' "full: No space left on device$nl" run good full
    judge 'a device that is full: it stays' test -L full -a -c full
    expect 'a device that is full, by its name' '' "/dev/full: No space left on device$nl" run good /dev/full
    judge 'a device that is full, by its name: it stays' test -c /dev/full
    cp "$top/bad" bad
    run bad none > /dev/full 2> said
    judge 'an answer that cannot be written' test "$(cat said)" = "standard output: No space left on device$nl$(words bad "$lined" $fault)"
else
    skip 'a device that is full: there is none'
fi

# targets that are written
rm -f to_be "$top/missing"
takes 'what a link leads to' good link
judge 'what a link leads to: the link stays' test "$(readlink link)" = old
judge 'what a link leads to: its other name too' test old -ef again
yes 'something longer' | head -c 200000 > old
takes 'what a link leads to, and is longer' good link
judge 'what a link leads to, and is longer: the file' cmp "$top/made" old
ln -s "$top/new" to_be
takes 'what a link is to lead to' good to_be
judge 'what a link is to lead to: the link stays' test "$(readlink to_be)" = "$top/new"
ln -s "$PWD/old" far
ln -s far farther
echo 'as before' > old
takes 'a link to a link' good farther
mkfifo pipe
timeout 60 cat pipe > "$top/piped" &
expect 'a pipe' '' '' run good pipe
wait $!
judge 'a pipe: what came' cmp "$top/made" "$top/piped"
judge 'a pipe: it stays' test -p pipe
run good /dev/stdout > written
judge 'standard output by its name' cmp "$top/made" written
run good /dev/stdout | cat > written
judge 'standard output by its name, a pipe' cmp "$top/made" written
takes 'a target in a folder by a long way' good "./$(yes ./ | head -n 1000 | tr -d '\n')deep"
keeps_all 'targets that are written'

# the mode of a file stays; a new one has the usual
for mode in 600 644 640 777 4755; do
    echo 'as before' > target
    chmod "$mode" target
    takes "a target of mode $mode" good target
    judge "a target of mode $mode: its mode" test "$(stat -c %a target)" = "$mode"
    rm target
done
for mask in 000 022 027 077; do
    (umask "$mask"; run good target)
    judge "a new target under $mask" test "$(stat -c %a target)" = "$(printf '%o' $((0666 & ~0$mask)))"
    rm target
done
if [ "$(id -u)" -eq 0 ]; then
    echo 'as before' > target
    chown 12345:54321 target
    takes "another's target" good target
    judge "another's target: it stays theirs" test "$(stat -c %u:%g target)" = 12345:54321
    rm target
fi

# what permissions forbid
if ! as_user true 2> "$top/null"; then
    skip 'what permissions forbid: root may do all'
else
    cp "$bin/$program" "$top/program"
    chmod 755 "$top" "$top/case" "$top/program"
    chmod 644 good
    mkdir shut sticky
    echo 'as before' | tee shut/closed shut/old sticky/old > shut/link_to
    ln -s link_to shut/link
    chmod 444 shut/closed
    chmod 666 shut/old shut/link_to sticky/old
    chmod 1777 sticky
    chmod 555 shut
    expect 'a folder that is shut' '' "shut/new: Permission denied$nl" as_user "$top/program" good shut/new "${also[@]}"
    expect 'a folder that is shut, a file that is closed' '' "shut/closed: Permission denied$nl" as_user "$top/program" good shut/closed "${also[@]}"
    judge 'a folder that is shut, a file that is closed: it stays' test "$(cat shut/closed)" = 'as before'
    expect 'a folder that is shut, a file that grows too large' '' "shut/old: File too large$nl" as_user bash -c "trap '' XFSZ; ulimit -f 1; exec \"\$@\"" bash "$top/program" good shut/old "${also[@]}"
    judge 'a folder that is shut, a file that grows too large: it stays' test "$(cat shut/old)" = 'as before'
    yes 'as before' | head -c 200000 > shut/link_to
    cp shut/link_to "$top/long"
    expect 'a folder that is shut, a file that is longer' '' "shut/link_to: File too large$nl" as_user bash -c "trap '' XFSZ; ulimit -f 1; exec \"\$@\"" bash "$top/program" good shut/link_to "${also[@]}"
    judge 'a folder that is shut, a file that is longer: it stays' cmp "$top/long" shut/link_to
    for name in shut/old shut/link sticky/old; do
        expect "a file that may be written, $name" '' '' as_user "$top/program" good "$name" "${also[@]}"
        judge "a file that may be written, $name: it is" cmp "$top/made" "$name"
    done
    judge 'what permissions forbid: nothing is left over' test "$(ls -A shut sticky | tr '\n' ' ')" = 'shut: closed link link_to old  sticky: old '
    mkdir open
    echo 'as before' > open/closed
    chmod 444 open/closed
    chmod 777 open
    expect 'a file that is closed in an open folder' '' "open/closed: Permission denied$nl" as_user "$top/program" good open/closed "${also[@]}"
    judge 'a file that is closed in an open folder: it stays' test "$(cat open/closed)" = 'as before'
    judge 'a file that is closed in an open folder: nothing is left over' test "$(ls -A open)" = closed
    chmod 755 shut
fi
