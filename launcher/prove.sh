# Proves and builds the program; ../mcsim reads this file.

# Proves the crates side by side: each waits for those that it stands on, and two runs of rt never work in one crate. What was proved on this
# machine, here or in another clone, is not proved again where rt kept it. Then proves and builds the program: `rt run` has no word for building
# alone, so it is run once for its help, which is thrown away. The program gets the time at which all this began, so that a source that is
# edited meanwhile is newer than it.
prove() {
    need_rt 'to prove, the command rt of the Rattle toolchain is needed, and it is not on PATH'
    if is_proved; then
        say 'the program was proved and built here, and no source is newer'
        return
    fi
    mkdir -p "$crate/out" || exit 1
    began=$crate/out/began.$$
    : >"$began" || exit 1
    trap 'rm -f "$began" "${said:-}"; exit 130' INT TERM HUP
    say 'proving the crates; a first time this may take half an hour or more'
    libraries "$main" | (cd "$top/crates" && xargs -P 4 -I{} sh -c 'cd {} && rt lib >/dev/null 2>&1 && echo "$0: {} is proved" >&2' "$main")
    said=$(mktemp) || exit 1
    (cd "$crate" && exec rt run -- --help </dev/null >/dev/null 2>"$said")
    status=$?
    if [ -x "$program" ] && { [ "$status" -eq 0 ] || [ -n "$(find "$program" -newer "$began")" ]; }; then
        touch -r "$began" "$program"
        rm -f "$began" "$said"
        trap - INT TERM HUP
        say 'proved and built'
    else
        cat "$said" >&2
        rm -f "$began" "$said"
        say 'the program is not proved and built'
        exit 1
    fi
}
