# Options as people type them, which become those that the programs know; ../mcsim reads this file.
#
#   -n N, -w W, -s WHAT        --horizon N, --workers W, --show WHAT
#   1e6, 1_000_000             1000000, as the value of --horizon and --workers
#   --tick-us U, with 10ms     a time becomes ticks of U microseconds; units are ns, us, ms and s
#   -                          standard input, in place of FILE
#   --format csv               in mcscheck alone: the findings, unless --show says what
#   --format pretty, --color WHEN, --rows    in mcscheck alone: tools/pretty shows the verdict
# All other words stay as they are, and so do values of which the program says better what is wrong with them.

# ends with what is wrong with the options
misuse() {
    say "$1"
    exit 2
}

# starts the program with the words that it knows
start_as_typed() {
    take_view "$@"
    left=0 rest='' option=''
    for word; do
        shift
        if [ "$left" -gt 0 ]; then
            left=$((left - 1))
            written=$word
            set_value "$option"
        else
            set_word "$word"
        fi
        [ -n "$dropped" ] || set -- "$@" "$written"
    done
    [ "$how:$picks" != csv: ] || set -- --show findings "$@"
    if [ "$how" = pretty ]; then
        show_pretty "$@"
    else
        run_program "$@"
    fi
}

# what the words ask of the view: the length of a tick, colours, rows, the format, and whether one of --show, --why and --forever picks what is written
take_view() {
    tick='' color='' rows='' how='' picks='' left=0 rest='' option=''
    for word; do
        if [ "$left" -gt 0 ]; then
            left=$((left - 1))
            take_value "$option" "$word"
            continue
        fi
        [ -z "$rest" ] || continue
        case $word in
            --) rest=yes ;;
            --help | -h) show_usage ;;
            --*=*) take_value "${word%%=*}" "${word#*=}" ;;
            -s=*) picks=yes ;;
            -*) begin_value "$word" "$(values_of_typed "$word")" ;;
        esac
    done
    case $option:$left in
        --color:1) misuse "--color wants a value: auto, always or never" ;;
        --tick-us:1) misuse "--tick-us wants a value: the length of a tick in microseconds" ;;
    esac
    if [ "$main" = mcsim ]; then
        how='' rows=''
    elif [ "$how" = pretty ]; then
        has_python || refuse '--format pretty needs Python 3.11, and no such python3 is on PATH'
    elif [ -z "$how" ] && [ -t 1 ] && has_python; then
        how=pretty
    fi
}

# how many values follow an option, also one that the programs do not know
values_of_typed() {
    case $1 in
        -n | -w | -s | --tick-us) echo 1 ;;
        --color) [ "$main" = mcsim ] && echo 0 || echo 1 ;;
        *) values_of "$1" ;;
    esac
}

begin_value() {
    option=$1 left=$2
    case $1 in
        --why | --forever | -s | --show) picks=yes ;;
        --rows) rows=--rows ;;
    esac
}

take_value() {
    case $1 in
        --format) how=$2 ;;
        --show | --why) picks=yes ;;
        --tick-us)
            { point "$2" && [ "$digits" != 0 ]; } || misuse "--tick-us $2 is no length of a tick: microseconds, above 0, as 1000 or 0.5"
            tick=$2
            ;;
        --color)
            [ "$main" = mcscheck ] || return 0
            case $2 in
                auto | always | never) color=$2 ;;
                *) misuse "--color $2 is none of auto, always and never" ;;
            esac
            ;;
    esac
}

# what becomes of a word that is no value: written, or nothing if it is dropped
set_word() {
    written=$1 dropped=''
    if [ "$1" = - ]; then
        dropped=yes
    elif [ -z "$rest" ]; then
        case $1 in
            --) rest=yes ;;
            -[nsw]=*) set_joined "${1%%=*}" "${1#*=}" ;;
            -[nw][0-9]*) set_joined "${1%"${1#??}"}" "${1#??}" ;;
            --*=*) set_joined "${1%%=*}" "${1#*=}" ;;
            -*)
                begin_value "$1" "$(values_of_typed "$1")"
                set_name "$1"
                ;;
        esac
    fi
}

# an option that is one word with its value
set_joined() {
    written=$2
    set_value "$1"
    joined=$written
    [ -n "$dropped" ] || set_name "$1"
    written=$written=$joined
}

# the name of an option that the programs know, or nothing if the option is for the launcher
set_name() {
    written=$1
    case $main:$1:$how in
        *:-n:*) written=--horizon ;;
        *:-w:*) written=--workers ;;
        *:-s:*) written=--show ;;
        *:--tick-us:* | mcscheck:--color:* | mcscheck:--rows:* | mcscheck:--format:pretty) dropped=yes ;;
    esac
}

# what becomes of the value of an option: written, or nothing if it is dropped with the name
set_value() {
    dropped=''
    case $1 in
        --horizon | -n) as_time ;;
        --workers | -w) as_number ;;
        *)
            value=$written
            set_name "$1"
            written=$value
            ;;
    esac
}

# a number as the programs read it
as_number() {
    case $written in
        '' | *[!0-9]*) point "$written" || return 0 ;;
        *) return ;;
    esac
    while [ "$power" -lt 0 ] && [ "$digits" != "${digits%0}" ]; do
        digits=${digits%0} power=$((power + 1))
    done
    [ "$power" -ge 0 ] || return 0
    append_zeros "$power"
    written=$digits
}

# a time, or a number of ticks
as_time() {
    case $written in
        *[0-9]ns) unit=-3 length=${written%ns} ;;
        *[0-9]us) unit=0 length=${written%us} ;;
        *[0-9]ms) unit=3 length=${written%ms} ;;
        *[0-9]s) unit=6 length=${written%s} ;;
        *)
            as_number
            return
            ;;
    esac
    point "$length" || return 0
    [ -n "$tick" ] || misuse "--horizon $written: a time wants --tick-us, the length of a tick in microseconds; without it N is a number of ticks"
    in_ticks "$((power + unit))"
}

# a length of time in ticks: the digits of the length, with this power of ten, over those of the tick
in_ticks() {
    length=$digits length_power=$1
    point "$tick"
    over=$((length_power - power))
    if [ "$over" -lt 0 ]; then
        append_zeros "$((-over))"
        over=0
    fi
    tick_digits=$digits digits=$length
    append_zeros "$over"
    if [ "${#digits}" -gt 18 ] || [ "${#tick_digits}" -gt 18 ]; then
        misuse "--horizon $written is too long a time in ticks of $tick us: a run has at most 2^40 ticks"
    elif [ "$((digits % tick_digits))" -ne 0 ]; then
        down=$((digits / tick_digits))
        misuse "--horizon $written is no whole number of ticks of $tick us: it lies between $down and $((down + 1)) ticks"
    fi
    written=$((digits / tick_digits))
}

# a decimal number: its digits without zeros before them, and the power of ten that they have
point() {
    digits=${1%%[eE]*} power=0
    case $1 in
        *[eE]*) power=${1#*[eE]} ;;
    esac
    case $power in
        '' | *[!0-9]* | ???*) return 1 ;;
    esac
    power=${power#0}
    power=${power:-0}
    case $digits in
        '' | *[!0-9_.]* | _* | *_ | *__* | .* | *. | *._* | *_.* | *.*.*) return 1 ;;
    esac
    while [ "$digits" != "${digits#*_}" ]; do
        digits=${digits%%_*}${digits#*_}
    done
    case $digits in
        *.*)
            fraction=${digits#*.}
            digits=${digits%.*}$fraction power=$((power - ${#fraction}))
            ;;
    esac
    while [ "${#digits}" -gt 1 ] && [ "$digits" != "${digits#0}" ]; do
        digits=${digits#0}
    done
}

append_zeros() {
    zeros=$1
    [ "$digits" != 0 ] || zeros=0
    while [ "$zeros" -gt 0 ]; do
        digits=${digits}0 zeros=$((zeros - 1))
    done
}

# prints the help of the program with the options of the launcher
show_usage() {
    [ -r "$top/launcher/$main.help" ] || return 0
    if cat "$top/launcher/$main.help" 2>/dev/null; then
        exit
    fi
    say 'write failed'
    exit 3
}

# Runs the program through this launcher, so that faults look as they do without the view.
show_pretty() {
    exec "$top/tools/pretty" ${color:+"--color=$color"} ${tick:+"--tick-us=$tick"} ${rows:+"$rows"} --run "$called" "$@"
}
