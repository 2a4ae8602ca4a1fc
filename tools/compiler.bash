# Which compiler builds, and how each one does: the kit, which proves too, or rustc, of the text as plain Rust. For the
# script wurstlinen, which has the functions and names used here.
# shellcheck shell=bash disable=SC2034,SC2154

# Says every ten seconds that something goes on, until `end_saying`, or the script's end. A `sleep` would outlive both.
begin_saying() {
    (
        exec {quiet}<> <(:)
        for ((seconds = 1; ; seconds++)); do
            read -rt 1 -u "$quiet"
            # A script that has ended is a process until somebody has waited for it, but nobody's parent.
            read -r _ _ _ parent _ < "/proc/$BASHPID/stat" && [ "$parent" = "$$" ] || exit
            [ $((seconds % 10)) -ne 0 ] || say "$1, for $seconds seconds so far"
        done
    ) < /dev/null > /dev/null &
    saying="$!"
    disown
}

end_saying() {
    kill "${saying-}" 2> /dev/null
}

# What --with says, if it was given.
wanted=""
compiler=kit

# Without a kit, cargo compiles; but what the kit has built is used as long as it is up to date.
choose_compiler() {
    compiler="$wanted"
    if [ -z "$compiler" ]; then
        compiler=kit
        command -v rt > /dev/null || is_up_to_date || lacks_cargo > /dev/null || compiler=rustc
    fi
    [ "$compiler" = kit ] || use_rustc
}

# What rustc builds has a folder of its own: it isn't what was proved here.
use_rustc() {
    compiler=rustc
    own="$root/out/rust"
    program="$own/wurstlinen"
    built="$own/wurstlinen.built"
    lock_file="$own/wurstlinen.lock"
    front_folder="$own/library"
    workspace="$own/workspace"
}

need_compiler() {
    local lack other
    if [ "$compiler" = rustc ]; then
        ! lack="$(lacks_cargo)" || fail "$no_cargo" "$lack"
        return
    fi
    if ! command -v rt > /dev/null; then
        lack="$(lacks_cargo)" || lack="with '--with rustc' cargo does it"
        fail "$no_rt" "the program has to be built, and there is no command rt: add the kit's folder bin to PATH; $lack"
    fi
    ! other="$(other_kit)" || say "the kit is $other"
}

# What built something, or would.
compiler_version() {
    if [ "$compiler" = rustc ]; then rustc_version; else kit; fi
}

kind_of_program() {
    if [ "$compiler" = rustc ]; then echo "program that $(rustc_version) made"; else echo "proved program"; fi
}

# By whom a library was made, if not by the kit.
made_by() {
    [ "$compiler" = kit ] || echo ", which $(rustc_version) made"
}

# What the program, or the crate $1, is built from, and by what.
fingerprint_of_build() {
    fingerprint "$@"
    if [ "$compiler" = rustc ]; then
        rustc_version
        (cd "$root" && find bindings/rust tools/plain_rust tools/rust_*.py -type f -print0 | LC_ALL=C sort -z \
            | xargs -0 sha256sum | sha256sum)
    else
        pinned_kit
        if command -v rt > /dev/null; then kit; else kit_of_program; fi
    fi
}

# Builds the program, and sets `built_program` to its file.
build_program() {
    local status
    if [ "$compiler" = rustc ]; then
        say "compiling the program with $(rustc_version), about a minute"
        build_rust "$workspace" "the program" --release --package wurstlinen-program --bin wurstlinen
        built_program="$workspace/target/release/wurstlinen"
        return
    fi
    say "proving and building the program, about 20 minutes on four processors; a call after an interrupt goes on"
    "$root/tools/build_program" "$(processors)" "$(free_memory_kb)"
    status=$?
    [ "$status" -ne "$interrupted" ] || exit "$interrupted"
    [ "$status" -eq 0 ] || fail "$not_run" "the program isn't built"
    built_program="$root/crates/wurstlinen/out/wurstlinen"
}

# Proves the C library's archive. What rt prints goes to standard error if that is wanted; else only that it waits does,
# and all of it goes to standard output.
prove_archive() {
    if [ -n "$verbose" ]; then
        build_archive "$root" >&2
    else
        build_archive "$root" 2>&1 | tee >(grep --line-buffered '^rt: .*waiting for' >&2)
        return "${PIPESTATUS[0]}"
    fi
}

# Makes the C library's archive, with files for its time in the folder `made`, and sets `archive` to it.
make_archive() {
    if [ "$compiler" = rustc ]; then
        say "compiling the C library with $(rustc_version), about a minute"
        archive="$workspace/target/library/librdm_c.a"
        build_rust "$workspace" "the C library" --profile library --package wurstlinen-c
        archive_of_rust "${archive%/*}" "$archive" || fail "$not_run" "the C library isn't built"
        return
    fi
    archive="$root/crates/rdm_c/out/librdm_c.a"
    if ! prove_archive > "$made/proof"; then
        cat "$made/proof" >&2
        fail "$not_run" "the library wasn't built"
    fi
    rm -f "$made/proof"
}

# Writes the crates as a workspace of plain Rust into a folder.
write_rust() {
    local crates
    if [ $# -ne 1 ] || [ -z "$1" ]; then
        fail "$bad_arguments" "--rust takes one folder"
    fi
    write_workspace "$1" "the workspace wasn't written"
    say "written into $1: the crate wurstlinen, the program, the C library and the tests. To build them there:"
    say "  cargo build --release"
    printf -v crates " --config '%s=\"%s\"'" source.crates-io.replace-with debian \
        source.debian.directory "$debian_registry"
    say "  from Debian's crates: cargo build --release --offline$crates"
}
