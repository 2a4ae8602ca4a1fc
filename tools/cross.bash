# How the program and the libraries are made for another kind of machine, which is arm64: by the kit's proof and code
# for it, and Debian's cross compilers. For the script wurstlinen and the gate, which have the name `root`, and read
# tools/library.bash too.
# shellcheck shell=bash disable=SC2034,SC2154

cross_machine=arm64
cross_target=aarch64-unknown-linux-gnu
cross=aarch64-linux-gnu
# Debian's packages for that machine, among them OLA's libraries.
cross_system="$root/out/$cross_machine/system"

# Says what is missing, if something is.
lacks_cross() {
    local command
    for command in gcc g++ ar strip; do
        if ! command -v "$cross-$command" > /dev/null; then
            echo "there is no command $cross-$command: on Debian, apt install g++-$cross"
            return
        fi
    done
    return 1
}

# Lets tools/library.bash make libraries for that machine.
use_cross() {
    c_compiler=("$cross-gcc")
    cpp_compiler=("$cross-g++")
    archiver="$cross-ar"
}

# Downloads these of Debian's packages for that machine, and all that they need, unless they are there.
find_cross_system() {
    dpkg-query --admindir="$cross_system/var/lib/dpkg" -W "$@" > /dev/null 2>&1 \
        || "$root/tools/unpack_debian" "$cross_system" "$cross_machine" "$@"
}

# Lets the compiler for C++ find OLA's headers and libraries in those packages, whose C library it doesn't take. Links
# to the libraries are put into the folder $1.
use_cross_ola() {
    local libraries="$cross_system/usr/lib/$cross"
    mkdir -p "$1" && ln -sf "$libraries"/libola*.so* "$1/" || return
    cpp_compiler+=(-idirafter "$cross_system/usr/include" -L"$1" "-Wl,-rpath-link,$libraries"
        "-Wl,-rpath-link,$cross_system/lib/$cross")
}

# Proves and compiles a crate over the proved libraries below it. The other words are options of tools/build_crate.
build_for_cross() {
    "$root/tools/build_crate" --target "$cross_target" "${@:3}" "$1" "$2"
}

# Makes the program in the folder $1, where its object file wurstlinen.o is. The processors of the Raspberry Pi 3 and
# the Zero 2 W have erratum 843419, which the linker avoids.
link_for_cross() {
    local folder="$1" part
    for part in arguments heap; do
        "${c_compiler[@]}" -std=gnu11 -O2 -fPIC -fstack-clash-protection -Wall -Wextra -c "$root/bindings/c/$part.c" \
            -o "$folder/$part.o" || return
    done
    "${c_compiler[@]}" -mfix-cortex-a53-843419 -pie -Wl,-z,now "$folder"/{wurstlinen,arguments,heap}.o \
        -o "$folder/wurstlinen" || return
    rm "$folder"/{wurstlinen,arguments,heap}.o
}

# The functions below are for the script wurstlinen alone.

# Ends if nothing can be made for that machine.
need_cross() {
    local lack
    [ "$compiler" = kit ] || fail "$not_run" \
        "--for $cross_machine needs the kit; with cargo, call './wurstlinen --package FOLDER' on such a machine"
    need_compiler
    ! lack="$(lacks_cross)" || fail "$not_run" "$lack"
}

# Proves the libraries below a crate, unless they are up to date.
prove_below() {
    local below
    for below in $(lines_needed "$1" | sed -n '$s/^[^:]*://p'); do
        [ ! -d "$root/crates/$below" ] || (cd "$root/crates/$below" && rt lib) || return
    done
}

# Makes the archive of the C library, or the object file of the program, in the folder `made`, once the libraries below
# are proved. What was proved for this machine isn't proved again.
make_crate_for_cross() {
    local crate="$1" file="$made/$2" kept="$root/crates/$1/out/incremental"
    say "compiling $crate for $cross_machine, a minute or two"
    if ! { prove_below "$crate" && mkdir -p "$kept" && build_for_cross "$crate" "$file" --incremental "$kept" \
            --jobs "$(processors)"; } > "$made/proof" 2>&1; then
        cat "$made/proof" >&2
        fail "$not_run" "$crate wasn't built for $cross_machine"
    fi
    rm -f "$made/proof"
}

# Makes all of it in the folder `made`: the program, and the C library.
make_for_cross() {
    trap 'clean_up' EXIT
    made="$(mktemp -d)" || fail "$not_run" "there is no place for temporary files"
    made_folder="$made"
    use_cross
    make_crate_for_cross rdm_c librdm_c.a
    make_library "$root" "$made/librdm_c.a" "$made" || fail "$not_run" "the library wasn't made"
    make_crate_for_cross wurstlinen wurstlinen.o
    link_for_cross "$made" || fail "$not_run" "the program wasn't linked"
    program="$made/wurstlinen"
}
