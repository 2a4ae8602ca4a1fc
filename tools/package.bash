# Packages of the proved program and libraries. For the script wurstlinen, which has the functions and names used here,
# and reads tools/library.bash too.
# shellcheck shell=bash disable=SC2154

# The kit that proved the text: rustc proves nothing, and compiles what the kit of this commit has proved.
proved_with() {
    if [ "$compiler" = rustc ]; then pinned_kit || echo unknown; else kit_of_program; fi
}

# What built the program, if that was noted.
kit_of_program() {
    local found
    found="$(cat "$program.kit" 2> /dev/null)"
    echo "${found:-unknown}"
}

kit_of_library() {
    if [ "$compiler" = rustc ]; then proved_with; else kit; fi
}

# Builds the program and the libraries, for the machine that --for names or for this one, and makes packages of them.
make_packages() {
    local made folder machine="" kit_of_it options=()
    if [ $# -eq 3 ] && [ "$2" = --for ]; then
        machine="$3"
        [ "$machine" = "$cross_machine" ] || fail "$bad_arguments" "--for takes $cross_machine"
        set -- "$1"
    fi
    if [ $# -ne 1 ] || [ -z "$1" ]; then
        fail "$bad_arguments" "--package takes one folder, and for another kind of machine --for $cross_machine"
    fi
    [ -d "$1" ] || [ ! -e "$1" ] || fail "$not_run" "$1 isn't a folder"
    if [ -n "$machine" ]; then need_cross; else need_compiler_and_cc; fi
    command -v strip > /dev/null || fail "$not_run" "there is no command strip: install binutils"
    folder="$(realpath -ms -- "$1")"
    ensure_folder "$folder"
    is_up_to_date || ensure_built
    kit_of_it="$(proved_with)"
    if [ -n "$machine" ]; then make_for_cross; else make_c_library; fi
    package_ola
    "$root/tools/make_packages" --program "$program" --library "$made" "${options[@]}" --program-kit "$kit_of_it" \
        --library-kit "$(kit_of_library)" --compiler "$(compiler_version)" "$folder" \
        || fail "$not_run" "the packages weren't made"
}

# Makes the library for OLA, if OLA's headers are there, and adds its file to the options of tools/make_packages.
package_ola() {
    local lack="OLA's headers aren't there (libola-dev)"
    if [ -n "$machine" ]; then
        lack="OLA's libraries for $machine can't be downloaded (libola-dev)"
        find_cross_system libola-dev 2> "$made/apt" && use_cross_ola "$made/libola" && lack=""
    elif command -v c++ > /dev/null && has_ola_headers; then
        lack=""
    fi
    if [ -n "$lack" ]; then
        say "$lack, so no package wurstlinen-ola is made"
        [ -z "$verbose" ] || cat "$made"/apt* >&2
        return
    fi
    make_ola_library "$root" "$made" || fail "$not_run" "the library for OLA wasn't made"
    options+=(--ola "$made/$ola_library" ${machine:+--system "$cross_system"})
}
