# Installs what the file installed lists, and takes it away again; ../mcsim reads this file.
#
# PREFIX/lib/mcsim/installed lists what was put there, a line each:
#   file SUM PLACE     a file, and its SHA-256
#   link TARGET PLACE  a link
#   folder - PLACE     a folder that was not there
#   new SUFFIX -       the installation is under way, or broke off: a file PLACE.SUFFIX is not finished
# The list is written before the first file, and until the last file is there it has the lines of an earlier installation, too. So an installation that
# broke off can be repeated or taken away. What does not stand as a line has it was changed by somebody else: it is never overwritten or deleted.
# Earlier versions listed places alone, with a slash after a folder: such a line is read as `old - PLACE`.

stop() {
    say "$1"
    exit 1
}

# PREFIX as a whole path without a slash at its end: the one that was given, that of this installation, or ~/.local
set_prefix() {
    if [ -n "$1" ]; then
        prefix=$1
    elif ! has_sources; then
        prefix=${top%/lib/mcsim}/
    elif [ -n "${HOME-}" ]; then
        prefix=$HOME/.local
    else
        stop "$nothing: HOME is not set, so name the folder: ./mcsim --install PREFIX, or --uninstall PREFIX"
    fi
    case $prefix in
        /*) ;;
        *) prefix=$PWD/$prefix ;;
    esac
    while [ "$prefix" != "${prefix%/}" ]; do prefix=${prefix%/}; done
    list=$prefix/lib/mcsim/installed
}

# a folder for what is made on the way; it goes when the launcher ends, and so does a file that is not finished
open_room() {
    room=$(mktemp -d "${TMPDIR:-/tmp}/mcsim-XXXXXXXXXX") || stop "$nothing: no folder for temporary files can be made"
    suffix=${room##*/}
    unfinished=
    trap 'rm -rf "$room"; [ -z "$unfinished" ] || rm -f "$unfinished"' EXIT
    trap 'break_off interrupted 130' INT
    trap 'break_off interrupted 143' TERM
    trap 'break_off interrupted 129' HUP
}

# ends with why; once the list is there, also with what can be done
break_off() {
    say "$nothing: $1"
    exit "${2:-1}"
}

# a word as a shell reads it
quoted() {
    case $1 in
        *[!A-Za-z0-9/._+@%,-]*)
            printf "'"
            printf '%s' "$1" | sed "s/'/'\\\\''/g"
            printf "'"
            ;;
        *) printf '%s' "$1" ;;
    esac
}

# What is installed

# copies the built files to the room: the program that was proved and built here, and else the files of bin that are of these sources
copy_built() {
    mkdir "$room/bin" || exit 1
    while read -r source rest; do
        from=$top/$source
        name=${source#bin/}
        case $source in
            bin/SOURCES) continue ;;
            bin/mcsim)
                if is_proved; then
                    from=$program
                else
                    takes_shipped || stop "$nothing: $why"
                fi
                ;;
            bin/*.a)
                [ -z "$(why_not_of_sources "$name")" ] || continue
                hold "$name"
                ;;
            bin/*)
                [ -z "$(why_not_of_sources "$name")" ] || continue
                need_mode "$name"
                hold "$name"
                ;;
            *) continue ;;
        esac
        cp "$from" "$room/$source" || stop "$nothing: $source cannot be copied"
    done <"$top/launcher/installed"
    sources_of_built >"$room/SOURCES" && mv "$room/SOURCES" "$room/bin/SOURCES" || stop "$nothing: no list of the sources can be written"
}

# what bin/SOURCES of the installation has
sources_of_built() {
    echo '# What the programs of this folder were built of, and their SHA-256.'
    if is_proved; then
        printf 'kit %s\n' "$(rt --version 2>/dev/null || echo unknown)"
    else
        printf 'kit %s\n' "$(noted kit)"
    fi
    for file in "$room"/bin/*; do
        name=${file##*/}
        built_of=${name#lib}
        built_of=${built_of%.a}
        printf '%s %s\nbin/%s %s\n' "$built_of" "$(digest "$built_of")" "$name" "$(sum_of "$file")"
    done
}

# Makes the shared library in the room, and puts beside it the files by which pkg-config and CMake find it. Without it these are left out.
make_library() {
    mkdir "$room/library" || exit 1
    made=$room/library/libmcs.so.1
    . "$top/launcher/shared.sh"
    with=$(compiler)
    if [ ! -f "$room/bin/libmcs_c.a" ]; then
        missing='which needs bin/libmcs_c.a'
    elif [ -z "$with" ]; then
        missing='since there is no C compiler: set CC, or put cc, gcc or clang on PATH'
    elif said=$(make_shared "$with" "$room/bin/libmcs_c.a" "$made" 2>&1); then
        cp "$top"/library/mcsim* "$room/library" || stop "$nothing: library cannot be copied"
        return
    else
        missing="since $with failed: $(printf '%s\n' "$said" | head -n 1)"
    fi
    rm -f "$made"
    say "left out: the shared library libmcs.so.1, with mcsim.pc and its CMake config, $missing"
}

# where a file is read
read_at() {
    case $1 in
        bin/* | library/*) printf '%s\n' "$room/$1" ;;
        *) printf '%s\n' "$top/$1" ;;
    esac
}

# the lines of what is put: file, place, link; a folder has a line for each of its files
plan() {
    while read -r source place link; do
        case $source in
            '' | '#'*) continue ;;
        esac
        if [ -d "$top/$source" ]; then
            (cd "$top/$source" && find . -type f ! -path '*/tests/*' ! -path '*/__pycache__/*' ! -name '.*' ! -name '*[!A-Za-z0-9._-]*' | sort) |
                while read -r file; do echo "$source/${file#./} $place/${file#./}"; done
        elif [ "$source" = mcsim ] && [ ! -f "$room/$link" ]; then
            # the program that the link would run is left out, and its own line says so
            continue
        elif [ -f "$(read_at "$source")" ]; then
            echo "$source $place $link"
        elif [ "${source%/*}" != library ]; then
            # make_library says what is left out of library
            say "left out: $source, which is not there, or not built of these sources"
        fi
    done <"$top/launcher/installed"
}

# the plan as the list has it
list_plan() {
    while read -r source place link; do
        sum=$(sum_of "$(read_at "$source")")
        [ -n "$sum" ] || stop "$nothing: $source cannot be read"
        missing_folders "$place"
        printf 'file %s %s\n' "$sum" "$place"
        if [ -n "$link" ]; then
            missing_folders "$link"
            printf 'link %s %s\n' "$(target_of "$link" "$place")" "$link"
        fi
    done <"$room/plan"
    # this folder is always of the installation, and goes with it
    echo 'folder - lib/mcsim'
}

# sorts lines of the list by their places, each once
by_place() {
    sort -u -k 3,3 -k 1,2
}

# the folders of a place that are not there
missing_folders() {
    folder=$1
    while [ "$folder" != "${folder%/*}" ]; do
        folder=${folder%/*}
        [ -d "$prefix/$folder" ] || printf 'folder - %s\n' "$folder"
    done
}

# what a link has to say to lead to a place, both below PREFIX
target_of() {
    printf '%s/%s\n' "$(printf '%s\n' "${1%/*}" | sed 's|[^/][^/]*|..|g')" "$2"
}

# What stands there

# the list of an earlier installation as it is read today; a line that no installation writes is named, and passed over
read_list() {
    [ -f "$list" ] || return 0
    while read -r kind value place || [ -n "$kind" ]; do
        case $kind in
            '' | '#'* | lib/mcsim/installed) continue ;;
            file | link | folder | new) ;;
            */) [ -n "$value" ] || place=${kind%/} kind=folder value=- ;;
            *) [ -n "$value" ] || place=$kind kind=old value=- ;;
        esac
        if is_line "$kind" "$value" "$place"; then
            printf '%s %s %s\n' "$kind" "$value" "$place"
        else
            say "passed over in $list: $kind $value $place"
        fi
    done <"$list"
}

# whether an installation writes such a line: its place lies below PREFIX
is_line() {
    case $1/$2 in
        file/* | link/* | folder/- | old/-) ;;
        new/*/*) return 1 ;;
        new/mcsim-??????????) ;;
        *) return 1 ;;
    esac
    case /$3/ in
        *//* | */./* | */../*) return 1 ;;
    esac
}

is_there() {
    [ -e "$prefix/$1" ] || [ -h "$prefix/$1" ]
}

# how a place stands, as a line of the list has it; nothing for what is neither a file nor a link
standing() {
    if [ -h "$prefix/$1" ]; then
        printf 'link %s %s\n' "$(readlink "$prefix/$1")" "$1"
    elif [ -f "$prefix/$1" ]; then
        printf 'file %s %s\n' "$(sum_of "$prefix/$1")" "$1"
    fi
}

# whether an installation put what stands in a place, and nobody changed it since
is_ours() {
    now=$(standing "$1")
    case $now in
        '' | *"
"*) return 1 ;;
    esac
    grep -qxF "$now" "$room/before" && return
    # without a sum a place can tell only that it has a link, or a file
    grep -qxF "old - $1" "$room/before" || return 1
    case $1:$now in
        bin/*:'link ../lib/mcsim/'*) ;;
        bin/*) return 1 ;;
        *:file*) ;;
        *) return 1 ;;
    esac
}

# ends if something else stands where a file, a link or a folder is to be, or a link would lead nowhere
check_places() {
    while read -r kind value place; do
        if [ "$kind" = folder ]; then
            ! is_there "$place" || [ -d "$prefix/$place" ] || stop "$nothing: $prefix/$place is there, and is no folder"
        elif is_there "$place" && ! is_ours "$place"; then
            if grep -q " $place\$" "$room/before"; then
                stop "$nothing: $prefix/$place was changed since it was installed: move it away"
            fi
            stop "$nothing: $prefix/$place is there, and no installation put it there: move it away"
        elif [ "$kind" = link ] && [ -d "$prefix/${place%/*}" ] && ! [ "$prefix/${place%/*}/${value%%/[!.]*}" -ef "$prefix" ]; then
            stop "$nothing: $prefix/${place%/*} is a link to another folder, from which links would lead nowhere"
        fi
    done <"$room/lines"
    [ ! -d "$list" ] || stop "$nothing: $list is a folder"
}

# What is done

# puts the list in place, whole or not at all
write_list() {
    unfinished=$list.$suffix
    said=$({ cp "$1" "$unfinished" && mv -f "$unfinished" "$list"; } 2>&1) || break_off "$said"
    unfinished=
}

make_folder() {
    [ -d "$prefix/$1" ] || said=$(mkdir -p "$prefix/$1" 2>&1) || break_off "$said"
}

put() {
    make_folder "${2%/*}"
    unfinished=$prefix/$2.$suffix
    said=$({ cp "$1" "$unfinished" && mv -f "$unfinished" "$prefix/$2"; } 2>&1) || break_off "$said"
    unfinished=
}

put_link() {
    make_folder "${2%/*}"
    unfinished=$prefix/$2.$suffix
    said=$({ ln -s "$1" "$unfinished" && mv -f "$unfinished" "$prefix/$2"; } 2>&1) || break_off "$said"
    unfinished=
}

# takes away a file or a link that was put there; what was changed since stays, and is named
take_away() {
    is_there "$1" || return 0
    if is_ours "$1"; then
        said=$(rm -f "$prefix/$1" 2>&1) || break_off "$said"
        gone=$((gone + 1))
    else
        say "kept: $prefix/$1, which was changed since it was installed"
        printf '%s\n' "$prefix/$1" >>"$room/kept"
    fi
}

# the files and links of the earlier list, and of this one where it is named, each once
places() {
    awk '$1 != "folder" && $1 != "new" { print $3 }' "$@" | sort -u
}

# takes away what installations that broke off did not finish
remove_unfinished() {
    places "$room/before" >"$room/places"
    while read -r kind value rest; do
        [ "$kind" = new ] || continue
        while read -r place; do rm -f "$prefix/$place.$value"; done <"$room/places"
    done <"$room/before"
    rm -f "$list".mcsim-??????????
}

install_below() {
    nothing='nothing was installed'
    has_sources || stop '--install needs the repository: this is installed'
    need_sums
    set_prefix "$1"
    open_room
    copy_built
    ! grep -q '^library/' "$top/launcher/installed" || make_library
    plan >"$room/plan"
    list_plan >"$room/unsorted"
    by_place <"$room/unsorted" >"$room/lines"
    read_list >"$room/before"
    check_places
    make_folder lib/mcsim
    begin
    while read -r source place link; do
        put "$(read_at "$source")" "$place"
        [ -z "$link" ] || put_link "$(target_of "$link" "$place")" "$link"
    done <"$room/plan"
    finish
    tell
}

# writes the list of what is there and of what comes
begin() {
    remove_unfinished
    {
        echo '# What ./mcsim --install puts below this prefix; --uninstall takes away what is as this list has it.'
        {
            grep -v '^new ' "$room/before"
            cat "$room/lines"
            echo "new $suffix -"
        } | by_place
    } >"$room/list"
    write_list "$room/list"
    nothing="not finished (./mcsim --install $(quoted "$prefix") goes on, --uninstall takes away what is there)"
}

# takes away what the installation before put there and this one does not, and writes the list of what is there
finish() {
    gone=0
    : >"$room/kept"
    places "$room/lines" >"$room/now"
    places "$room/before" | grep -vxF -f "$room/now" >"$room/left"
    while read -r place; do take_away "$place"; done <"$room/left"
    {
        head -n 1 "$room/list"
        {
            grep '^folder ' "$room/before"
            cat "$room/lines"
        } | by_place
    } >"$room/last"
    write_list "$room/last"
}

# says what was put where, and what is still to be done
tell() {
    printf 'installed below %s:\n' "${prefix:-/}"
    grep -v '^lib/mcsim/' "$room/now" | sed 's/^/  /'
    echo "  lib/mcsim: $(grep -c '^lib/mcsim/' "$room/now") files, to which the commands in bin are links"
    case $prefix in
        *:*) printf '%s\n' "$prefix/bin cannot be on PATH, since its name has a colon" ;;
        *)
            case :$PATH: in
                *":$prefix/bin:"*) printf '%s\n' "$prefix/bin is on PATH" ;;
                *) printf '%s\n' "$prefix/bin is not on PATH: export PATH=$(quoted "$prefix/bin"):\$PATH in your shell's profile puts it there" ;;
            esac
            ;;
    esac
    printf '%s\n' "zsh looks for completions in fpath: fpath=($(quoted "$prefix/share/zsh/site-functions") \$fpath) in ~/.zshrc, before compinit"
    case $prefix in
        "${HOME-}/.local" | /usr | /usr/local) ;;
        *)
            printf '%s\n' "bash and fish look for completions in XDG_DATA_DIRS: export XDG_DATA_DIRS=$(
                quoted "$prefix/share"
            ):\${XDG_DATA_DIRS:-/usr/local/share:/usr/share}"
            ;;
    esac
    ! grep -qx 'lib/pkgconfig/mcsim.pc' "$room/now" ||
        printf '%s\n' "pkg-config looks for mcsim in PKG_CONFIG_PATH: export PKG_CONFIG_PATH=$(quoted "$prefix/lib/pkgconfig")\${PKG_CONFIG_PATH:+:\$PKG_CONFIG_PATH}"
    printf '%s\n' "an editor with a TOML plugin checks a file that begins with the line: #:schema file://$prefix/share/mcsim/mcsim.schema.json"
    printf '%s\n' "./mcsim --uninstall $(quoted "${prefix:-/}") takes all this away"
}

uninstall_below() {
    nothing='nothing was taken away'
    set_prefix "$1"
    if [ ! -f "$list" ]; then
        # an installation that broke off before its list was there
        rm -f "$list".mcsim-??????????
        rmdir "$prefix/lib/mcsim" 2>/dev/null
        stop "nothing is installed below ${prefix:-/}"
    fi
    [ -r "$list" ] || stop "$nothing: $list cannot be read"
    need_sums
    open_room
    nothing='not all was taken away (--uninstall can be repeated)'
    gone=0
    : >"$room/kept"
    read_list >"$room/before"
    remove_unfinished
    while read -r place; do take_away "$place"; done <"$room/places"
    remove_caches
    remove_folders
    said=$(rm -f "$list" 2>&1) || break_off "$said"
    remove_folders
    tell_rest
    printf '%s\n' "taken away from ${prefix:-/}: $gone files and links"
}

# what Python made of the tools' modules
remove_caches() {
    find "$prefix/lib/mcsim" -type f -path '*/__pycache__/*.pyc' -exec rm -f {} + 2>/dev/null
    find "$prefix/lib/mcsim" -depth -type d -name __pycache__ -exec rmdir {} + 2>/dev/null
}

# the folders that were made and are empty now, the deepest first
remove_folders() {
    sed -n 's/^folder - //p' "$room/before" | sort -ru | while read -r folder; do rmdir "$prefix/$folder" 2>/dev/null; done
}

# names what else stands in the folder of the installation
tell_rest() {
    [ -d "$prefix/lib/mcsim" ] || return 0
    find "$prefix/lib/mcsim" ! -type d | grep -vxF -f "$room/kept" | while read -r file; do say "kept: $file, which no installation put there"; done
}
