# Which of a program's words is FILE; ../mcsim and unproved.sh read this file.

# how many values follow an option, in the words of either program
values_of() {
    case $1 in
        --horizon | --workers | --show | --format | --allow-lost) echo 1 ;;
        --why) echo 2 ;;
        *) echo 0 ;;
    esac
}

# begins to go through words
begin_words() {
    left=0
    rest=
}

# whether a word may be FILE: it is no option and no value of one
may_be_file() {
    [ "$left" -eq 0 ] || return 1
    case $rest$1 in
        -*) return 1 ;;
    esac
}

# goes on to the next word
pass_word() {
    if [ "$left" -gt 0 ]; then
        left=$((left - 1))
    elif [ -z "$rest" ]; then
        left=$(values_of "$1")
        [ "$1" != -- ] || rest=yes
    fi
}
