# The commands for fixtures, which are in Python and use the C library. For the script wurstlinen, which has the
# functions and names used here, and reads tools/library.bash too.
# shellcheck shell=bash disable=SC2154

front_folder="$own/library"
# With these words, the command in Python needs no library.
without_library=(adapters bridge completion doctor patch pids rig trace)
with_library=(apply check fixtures get identify save serve set show web)

is_of_front() {
    [[ " ${without_library[*]} ${with_library[*]} " = *" $1 "* ]]
}

asks_for_help() {
    local word
    for word in "$@"; do
        [[ "$word" != -- ]] || return 1
        [[ "$word" != -h && "$word" != --help ]] || return 0
    done
    return 1
}

# Replaces the script by the command in Python, which knows all commands, and calls the program. It writes no files into
# the sources.
call_front() {
    export PYTHONPATH="$root/bindings/python${PYTHONPATH:+:$PYTHONPATH}" PYTHONDONTWRITEBYTECODE=1
    export WURSTLINEN_PROGRAM="$program"
    # The caller's folder may have files with the names of modules, and isn't searched. While the package is loaded, an
    # interrupt ends it without a word.
    exec python3 -c '
import sys
sys.path[:] = filter(None, sys.path)
import signal
signal.signal(signal.SIGINT, signal.SIG_DFL)
from wurstlinen.tool import run
sys.exit(run())' "$@"
}

# Sets `costs` to what the doctor also says: what the next steps in the repository cost.
find_costs() {
    local kit_found lack
    kit_found="$(other_kit)" || kit_found="$(kit)"
    costs=(--also kit "${kit_found:-not there: add its folder bin to PATH}")
    lack="$(lacks_cargo)" || lack="$(rustc_version)"
    costs+=(--also rustc "$lack")
    is_up_to_date || costs+=(--also program "its first command $(cost "about 80 processor minutes")")
    [ -n "${WURSTLINEN_LIBRARY-}" ] || library_is_up_to_date \
        || costs+=(--also "C library" "its first command $(cost "about 10 minutes")")
    command -v c++ > /dev/null && has_ola_headers \
        || costs+=(--also OLA "no headers: --install-ola needs libola-dev")
}

# What a build does, and how long it takes; $1: with proofs.
cost() {
    if [ "$compiler" = rustc ]; then echo "compiles it: about a minute"; else echo "proves and builds it: $1"; fi
}

# Calls the command in Python with the C library, if it needs that.
run_front() {
    local costs=()
    if [ "$1" = doctor ] && ! asks_for_help "$@"; then
        find_costs
        [ -n "${WURSTLINEN_LIBRARY-}" ] || export WURSTLINEN_LIBRARY="$front_folder/$soname"
    fi
    if [ -z "${WURSTLINEN_LIBRARY-}" ] && [[ " ${with_library[*]} " = *" $1 "* ]] && ! asks_for_help "$@"; then
        ensure_library "$@"
        export WURSTLINEN_LIBRARY="$front_folder/$soname"
    fi
    call_front "$@" "${costs[@]}"
}

# Ends if the words of a command are wrong, or its line can't be opened: that mustn't be said only after a proof.
check_words() {
    "$root/tools/check_words" "$@" || exit
}

# Refuses a word that is no command: as the program does, but with the reason of the command in Python, which knows all.
refuse_command() {
    [[ " $* " = *" --json "* ]] || echo "fault: command line" || exit 1
    (call_front "$@")
    exit "$bad_arguments"
}

# What the C library is built from.
library_fingerprint() {
    fingerprint_of_build rdm_c
    sha256sum < "$root/bindings/c/heap.c"
}

library_is_up_to_date() {
    [ -r "$front_folder/$soname" ] && [ "$(cat "$front_folder/built" 2> /dev/null)" = "$(library_fingerprint)" ]
}

# Builds the C library for a command into the folder out/, unless it is up to date.
ensure_library() {
    local made before
    ! library_is_up_to_date || return 0
    check_words "$@"
    before="$(library_fingerprint)"
    need_compiler_and_cc
    [ "$compiler" = rustc ] \
        || say "proving and building the C library, about 10 minutes; a call after an interrupt goes on"
    ensure_folder "$front_folder"
    rm -f "$front_folder/built"
    make_c_library
    put "$made/$soname" "$front_folder/$soname" || fail "$not_run" "the file $front_folder/$soname can't be written"
    # If a source changed during the build, the next call builds again.
    [ "$(library_fingerprint)" != "$before" ] || printf '%s\n' "$before" > "$front_folder/built"
    rm -rf "$made"
}

# Puts the command in Python into the place of $1, and what it loads into a folder of $2, which it knows as $3.
install_front() (
    put_folder copy_front "$root/bindings/python/wurstlinen" "$2/python" || exit
    made="$(mktemp)" || exit
    trap 'remove_at_end "$made"' EXIT
    { echo "#!/usr/bin/env -S python3 -IS" && sed "s|@PACKAGES@|$3/python|" "$root/bindings/packages/wurstlinen.py"; } \
        > "$made" || exit
    put "$made" "$1" 755
)

# Makes the folder $2 with the package $1, compiled, and what it says of itself.
copy_front() {
    mkdir -- "$2" && copy_package "$1" "$2/wurstlinen" && front_proof > "$2/wurstlinen/PROOF" || return
    # Another version of Python compiles the sources. The bytes don't depend on when or where they were compiled.
    PYTHONHASHSEED=0 python3 -m compileall -q -j 1 --invalidation-mode unchecked-hash -s "$2" "$2/wurstlinen"
}

# What an installed command says of itself.
front_proof() {
    printf 'version: %s\ncommit: %s\nkit of the program: %s\ncompiler: %s\n' "$(cat "$root/VERSION")" "$(commit)" \
        "$(proved_with)" "$(kit_of_program)"
}

commit() {
    git -C "$root" rev-parse HEAD 2> /dev/null || echo unknown
}

# Prints the version, what proved and built the program, and the commit.
show_version() {
    local found state="not proved here yet"
    [ "$compiler" = kit ] || state="not compiled here yet"
    if [ -x "$program" ] && [ ! -s "$program.kit" ]; then
        state="it isn't known what built it"
    elif [ -x "$program" ]; then
        state="changed since it was $(verb) with $(kit_of_program)"
        ! is_up_to_date || state="$(verb) with $(kit_of_program)"
    fi
    found="$(commit)"
    printf 'wurstlinen %s (%s, commit %s)\n' "$(cat "$root/VERSION")" "${state%% logic *}" "${found:0:8}"
}

verb() {
    if [ "$compiler" = rustc ]; then echo compiled; else echo proved; fi
}
