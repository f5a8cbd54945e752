# From which sources, and by which toolchain, the program was built. ./cephmon, ./preview and .ci/run source this, with the top of the repository in `top`.

program=$top/out/cephmon

# A checksum of all that the program is made from.
sources() {
    (
        cd "$top" || exit
        find crates.txt HANDLES crates -name out -prune -o -name must-fail -prune -o -type f ! -name README.md -print0 |
            LC_ALL=C sort -z | xargs -0 sha256sum
    ) 2>/dev/null | sha256sum
}

# The toolchain, or nothing if it isn't installed.
toolchain() {
    local rt
    rt=$(command -v rt) && stat -L -c '%n %s %Y' "$rt"
}

# other_logic: a warning, if the logic of the toolchain isn't the one that TOOLCHAIN names. Another version of the same logic proves the same.
other_logic() {
    local here wanted
    here=$(rt version) wanted=$(cat "$top/TOOLCHAIN")
    [[ " $here " = *" $wanted "* ]] ||
        printf 'the toolchain is %s, and this repository was proved by %s: trust nothing here until ./test has passed, or install that one\n' "$here" "$wanted"
}

# is_built_from SOURCES: whether the program exists and was built from these sources by the installed toolchain, or by any if none is installed
is_built_from() {
    local from by now
    [ -x "$program" ] && { read -r from; read -r by; } 2>/dev/null <"$program.from" || return
    now=$(toolchain)
    [ "$from" = "$1" ] && { [ -z "$now" ] || [ "$by" = "$now" ]; }
}

# take_built FILE SOURCES: FILE becomes the program. It was proved and built from these sources by the installed toolchain.
take_built() {
    rm -f "$program.from" && cp "$1" "$program.new" && mv "$program.new" "$program" && printf '%s\n' "$2" "$(toolchain)" >"$program.from"
}
