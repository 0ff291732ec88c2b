# Builds or finds the program.

# Whether the program exists and is newer than the sources.
is_current() {
    [ -x "$program" ] && [ -z "$(find "$here/crates" "$here/crates.txt" \
        -name out -prune -o -type f -newer "$program" -print -quit)" ]
}

needs_tools() {
    for tool in rt flock; do
        command -v "$tool" >/dev/null || fail "there is no $tool on the path, which $1 needs"
    done
}

# Makes a folder and locks it, by descriptor 9. The kernel releases the lock if the call is killed.
lock_folder() {
    mkdir -p "$1" 2>/dev/null
    (: >>"$1/lock") 2>/dev/null || fail "$1 cannot be written"
    exec 9>>"$1/lock"
    flock -n 9 || { say "another call is building the program, and this one waits for it"; flock 9; }
}

# Compiles the program without its proofs, unless one of these sources exists.
compile_unproved() {
    program=$out/unproved/antelope_cli
    is_current && return
    [ "$(uname -m)" = x86_64 ] || fail "a try needs an x86-64 processor"
    needs_tools "a try"
    lock_folder "$out/unproved"
    if ! is_current; then
        say "compiling the program without its proofs: less than a minute, once"
        touch "$out/unproved/start"
        "$here/.ci/unproved" "$program.new" 9>&- || fail "the program was not compiled"
        # a source that was changed meanwhile must be newer
        touch -r "$out/unproved/start" "$program.new"
        mv "$program.new" "$program"
    fi
    exec 9>&-
}

# Proves and builds the program unless it exists.
build_proved() {
    is_current && return
    . "$here/.ci/build"
}

# Sets `program`, and says if it is one without proofs.
prepare_program() {
    if [ "$installed" ]; then
        [ -x "$program" ] || fail "$program is missing"
        [ ! -e "$here/unproved" ] || tried=yes
    elif [ "$tried" ]; then
        compile_unproved
    else
        build_proved
    fi
    [ ! -e "$here/unproved" ] && { [ -z "$tried" ] || [ "$installed" ]; } ||
        say "a try: this program was compiled without its proofs$([ "$form" ] || echo ", and its image is not kept")"
}

# Installs the program, its tools and documents under a prefix; with `try` the program without proofs.
install_below() {
    [ -z "$installed" ] || fail "this is an installed program: run install in a clone of the repository"
    if [ "${2-}" = try ]; then
        compile_unproved
    elif [ $# -eq 1 ]; then
        build_proved
    else
        say "'$2' is one argument too many"
        echo "usage: antelope install PREFIX [try]" >&2
        exit 1
    fi
    exec "$here/.ci/install" "$1" "$program"
}
