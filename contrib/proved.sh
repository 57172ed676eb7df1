# For ./mctpctl and ./prove, which source it: where the proved program is, and of which sources it was built.
#
# Beside the program stands a stamp of two lines. The first is a digest of the sources' content and of the toolchain's
# identity. The second is a digest of the files' names, sizes and times of change: where it is the same, so is the
# content, and the files need not be read.

program=$root/crates/mctpctl/out/mctpctl
stamp=$program.sources

# Runs find over the sources of the program, in the repository's folder, with what it is to do with each file.
find_sources() {
    find crates.txt HANDLES crates \
        \( -name out -o -name must-fail -o -name edits -o -name '*_tests' \) -prune -o -type f "$@"
}

toolchain() {
    local rt
    rt=$(readlink -f "$(command -v rt)") && cat "${rt%/bin/*}/KIT-ID"
}

content_of_sources() {
    (cd "$root" && toolchain && find_sources -print0 | LC_ALL=C sort -z | xargs -0 sha256sum) | sha256sum
}

times_of_sources() {
    (cd "$root" && toolchain && find_sources -printf '%p %s %C@\n' | LC_ALL=C sort) | sha256sum
}

# Whether the program stands and is that of the sources as they are now.
is_proved() {
    local content times now
    [ -x "$program" ] && [ -r "$stamp" ] || return 1
    { read -r content && read -r times; } <"$stamp"
    now=$(times_of_sources)
    [ "$now" = "$times" ] && return 0
    [ "$(content_of_sources)" = "$content" ] || return 1
    printf '%s\n%s\n' "$content" "$now" >"$stamp.new" && mv "$stamp.new" "$stamp"
}
