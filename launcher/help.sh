# `mcsim help TOPIC` shows a page of docs; ../mcsim reads this file.

# the pages for users, in the order in which they are listed
topics='MODELLING FORMAT CHECK CI FAULTS FOREVER SWEEPS WORST VIEWER WAYS_IN LIBRARY MODEL LEFT_OUT KERNEL PERFORMANCE'

# shows the page of a topic, or lists the topics
show_help() {
    if [ -z "$1" ]; then
        list_topics
        return
    fi
    topic=$(printf '%s\n' "$1" | tr 'a-z-' 'A-Z_')
    case " $topics " in
        *" $topic "*) page=$top/docs/$topic.md ;;
        *) page= ;;
    esac
    if [ ! -r "$page" ]; then
        say "there is no topic $1: mcsim help lists them"
        exit 2
    elif [ -t 1 ]; then
        ${PAGER:-less} "$page" || cat "$page"
    else
        cat "$page"
    fi
}

list_topics() {
    echo 'mcsim help TOPIC shows a page:'
    for topic in $topics; do
        [ ! -r "$top/docs/$topic.md" ] || printf '  %-12s %s\n' "$(printf '%s\n' "$topic" | tr 'A-Z' 'a-z')" "$(sed -n 's/^# //p;/^# /q' "$top/docs/$topic.md")"
    done
}
