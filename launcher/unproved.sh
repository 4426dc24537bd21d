# Runs the sources unproved; ../mcsim reads this file.

# Runs the sources in a folder of the toolchain's own, so a FILE that is named goes with them; one that is a pipe is read first. The program's status
# is the exit status where rt says that it ended.
run_unproved() {
    why=$1
    shift
    need_rt "$why, and to run the sources the command rt of the Rattle toolchain is needed, which is not on PATH"
    say "$why: the sources run unproved, which takes a minute or more (./$main --prove proves and builds them)"
    room=$(mktemp -d) || exit 1
    trap 'rm -rf "$room"' EXIT
    trap 'exit 130' INT TERM HUP
    file=
    begin_words
    for word; do
        shift
        if is_file "$word"; then
            file=$room/system.toml
            cat <"$word" >"$file"
            set -- "$@" system.toml
        else
            set -- "$@" "$word"
        fi
        pass_word "$word"
    done
    [ -n "$file" ] || cat >"$room/input"
    attempt "$@"
    if has_met_limit; then
        show_first_part "$@"
        exit 70
    fi
    cat "$room/said" >&2
    say 'rt did not run the sources'
    exit 70
}

# whether an argument is FILE: the first that is no option and no value of one, and that can be read
is_file() {
    [ -z "$file" ] && may_be_file "$1" && [ -r "$1" ] && [ ! -d "$1" ]
}

# Runs the sources once. Where the program ended this does not return: what it wrote was written, and its status is the exit status. The time has no
# limit of its own; what is written to standard output has.
attempt() {
    if [ -n "$file" ]; then
        (cd "$crate" && exec rt try --seconds 86400 --data "system.toml=$file" -- "$@" </dev/null 2>"$room/said")
    else
        (cd "$crate" && exec rt try --seconds 86400 -- "$@" <"$room/input" 2>"$room/said")
    fi
    status=$?
    if tail -n 1 "$room/said" | grep -q '^run=ended status='; then
        sed '/^checked: ended status=/,$d' "$room/said" >&2
        exit "$status"
    fi
}

has_met_limit() {
    tail -n 1 "$room/said" | grep -q '^run=no-answer '
}

# Where the program wrote more than rt takes, rt hands out nothing of it, and tells the last lines. The rows before the moment of these are the
# schedule up to an earlier horizon, so that is run. What another program than mcsim wrote is no such rows.
show_first_part() {
    last=$(sed -n 's/^| \([0-9][0-9]*\) [0-9].*/\1/p' "$room/said" | tail -n 2 | head -n 1)
    do="./$main --prove proves and builds the program, which has no such limit"
    if [ "$main" = mcsim ] && [ "${last:-0}" -gt 0 ] && (attempt_until "$((last - 1))" "$@"); then
        say "rt takes a megabyte at most of what unproved sources write, so these rows end at moment $((last - 1)); $do"
    else
        say "rt ran the sources as far as it does, and hands out nothing of what they wrote; $do"
    fi
}

# the schedule alone up to another horizon, with the other words as they are
attempt_until() {
    until=$1
    shift
    drop=
    rest=
    for word; do
        shift
        if [ -n "$drop" ]; then
            drop=
            continue
        fi
        case $rest$word in
            --) rest=yes ;;
            --horizon | --show)
                drop=yes
                continue
                ;;
            --horizon=* | --show=*) continue ;;
        esac
        set -- "$@" "$word"
    done
    attempt --horizon "$until" --show schedule "$@"
    exit 1
}
