# Makes the shared library of the static one; install.sh reads this file. Alone it is called as
#     sh launcher/shared.sh ARCHIVE SHARED
# The library exports the calls of mcsim.h and nothing else. The compiler is CC or, if that is not set, the first of cc, gcc and clang on PATH.

# the command of the C compiler, or nothing
compiler() {
    if [ -n "${CC-}" ]; then
        printf '%s\n' "$CC"
        return
    fi
    for name in cc gcc clang; do
        if command -v "$name" >/dev/null 2>&1; then
            echo "$name"
            return
        fi
    done
}

# makes the shared library $3 of the archive $2 with the compiler $1, which may be a command with options; its code and its constants are in one segment,
# which saves 8 KB of padding
make_shared() {
    printf '{ global: mcs_*; local: *; };\n' >"$3.map" &&
        $1 -shared -s -Wl,-soname,libmcs.so.1 -Xlinker --version-script="$3.map" -Wl,-z,defs -Wl,-z,relro,-z,now -Wl,-z,noseparate-code -Wl,--gc-sections \
            -o "$3" -Wl,--whole-archive "$2" -Wl,--no-whole-archive &&
        rm -f "$3.map"
}

if [ "${0##*/}" = shared.sh ]; then
    found=$(compiler)
    if [ -z "$found" ]; then
        echo 'shared.sh: there is no C compiler: set CC, or put cc, gcc or clang on PATH' >&2
        exit 1
    fi
    make_shared "$found" "$1" "$2"
fi
