# What the tests of the program cart share, sourced by each: a folder with a sheet and shows, and what becomes of them.
. "$root/tests/programs/folder.sh"
any=yes

# cart_of SHOW..: the cart of these shows. A show is its opening, a slash and its loop, with a space between scenes.
cart_of() {
    local show part all=$#
    for show in "$@"; do
        for part in "${show%/*}" "${show#*/}"; do
            set -- $part
            all+=" $(($# % 256)) $(($# / 256))"
        done
        all+=" ${show/\// }"
    done
    bytes $all
}

# text_of SHOW: its text
text_of() {
    local opening=${1%/*} loop=${1#*/}
    echo 'part scene'
    [ -z "$opening" ] || printf 'opening %s\n' $opening
    [ -z "$loop" ] || printf 'loop %s\n' $loop
}

# times COUNT SCENE: so many of one scene
times() {
    local all
    all=$(yes "$2" | head -n "$1" | tr '\n' ' ')
    echo "${all% }"
}

# calls SHEET SHOW..: the arguments are these names and the_cart; the last show is the one that faults are put in
calls() {
    one=$1 two=${*: -1} files=("${@:2}") asked=("$1" the_cart "${@:2}") lined="${*:2}"
}

# given SHEET SHOW..: a fresh folder with the sheet of these bytes, and show0, show1 .. of these shows, all named
given() {
    local at=0 show names=()
    fresh
    bytes $1 > sheet
    shows=("${@:2}")
    for show in "${shows[@]}"; do
        text_of "$show" > "show$at"
        names+=("show$at")
        at=$((at + 1))
    done
    calls sheet "${names[@]}"
}

# loads NAME: the cart of the shows is made, and nothing is said
loads() {
    expect "$1" '' '' "$bin/cart" "${asked[@]}"
    judge "$1: the cart" cmp <(cart_of "${shows[@]}") the_cart
    rm -f the_cart
}

# makes_none NAME OUTPUT ERROR: the program prints and says this; no cart is made, and one that is there stays
makes_none() {
    rm -f the_cart
    expect "$1" "$2" "$3" "$bin/cart" "${asked[@]}"
    judge "$1: no cart is made" test ! -e the_cart
    echo 'as before' > the_cart
    expect "$1, a cart that is there" "$2" "$3" "$bin/cart" "${asked[@]}"
    judge "$1, a cart that is there: it stays" test "$(cat the_cart)" = 'as before'
    rm -f the_cart
}

# says NAME OUTPUT [ERROR]: of the sheet and the show that may not be there it is said first
says() {
    local unread
    unread=$(unread "$one"; unread "$two")
    makes_none "$1" "$2$nl" "${unread:+$unread$nl}${3:-}"
}

# rejects NAME INDEX
rejects() {
    makes_none "$1" "rejected$nl$2$nl" "${files[$2]}: rejected by $one$nl"
}

# unknown NAME PART PLACE INDEX: the scene of that index in the last show is one that the sheet has not; the place is
# the cart's
unknown() {
    says "$1" "$(refusal 9 "$2" "$3")" "$(scene "$2" "$4"): refusal 9: $(sentence 9)$nl"
}
