# What a person at a terminal is told beside the program's own line; ../mcsim reads this file.

# Runs a program with these words. After a fault of FILE it says where the fault stands and what may stand there, and after FILE could not be read, why.
# The exit code is the program's.
run_at_terminal() {
    "$@"
    status=$?
    shift
    case $status in
        1) explain "$(file_of "$@")" ;;
        3) say_why_unread "$(file_of "$@")" ;;
    esac
    end_as "$status"
}

# FILE, or nothing if standard input was read
file_of() {
    begin_words
    for word; do
        if may_be_file "$word"; then
            printf '%s\n' "$word"
            return
        fi
        pass_word "$word"
    done
}

# What tools/explain says of a regular file, if there is a Python for it. Without a fault to explain nothing is written.
explain() {
    [ -f "$1" ] && has_python || return 0
    told=$("$top/tools/explain" -- "$1" 2>/dev/null </dev/null)
    [ $? -ne 1 ] || printf '%s\n' "$told" >&2
}

has_python() {
    python3 -c 'import sys; sys.exit(sys.version_info < (3, 11))' 2>/dev/null </dev/null
}

say_why_unread() {
    if [ -z "$1" ] || [ -p "$1" ]; then
        return
    elif [ -d "$1" ]; then
        say "$1 is a folder"
    elif [ ! -e "$1" ]; then
        say "there is no file $1"
    elif [ ! -r "$1" ]; then
        say "$1 cannot be read by this user"
    fi
}

# ends with an exit code, or by the signal that ended the program
end_as() {
    [ "$1" -le 128 ] || kill -s "$(kill -l "$1")" $$ 2>/dev/null
    exit "$1"
}
