# What cargo builds of the text as plain Rust: the program, and the archive of the C library. For the script wurstlinen
# and the gate, which have the name `root`, and read tools/library.bash too.
# shellcheck shell=bash disable=SC2034,SC2154

least_cargo=1.85
debian_cargo="cargo-web rustc-web"
debian_crates="librust-arrayvec-dev librust-clap-dev librust-hex-dev librust-itoa-dev librust-serde-json-dev
    librust-thiserror-dev"
debian_registry=/usr/share/cargo/registry
no_cargo=127
# What cargo says if it has neither a network nor all crates.
no_crates="no matching package|failed to (get|download|query|load source|fetch)|[Cc]ould.?n.t resolve"

# The compiler and its version, as `rustc 1.85.0`.
rustc_version() {
    rustc --version 2> /dev/null | cut -d ' ' -f 1-2
}

# Says why cargo can't be used, if it can't.
lacks_cargo() {
    local version least="${least_cargo#1.}"
    version="$(cargo --version 2> /dev/null | cut -d ' ' -f 2)"
    if ! command -v cargo > /dev/null || [ -z "$version" ]; then
        echo "there is no cargo $least_cargo or later: on Debian 12, apt install $debian_cargo"
    elif [[ ! "$version" =~ ^1\.([0-9]+)\. ]] || [ "${BASH_REMATCH[1]}" -lt "$least" ]; then
        echo "cargo $version is too old, and $least_cargo is wanted: on Debian 12, apt install $debian_cargo"
    elif [ -z "$(rustc_version)" ]; then
        echo "cargo finds no rustc: on Debian 12, apt install $debian_cargo"
    else
        return 1
    fi
}

# Sets `crates_from` to the options by which cargo takes Debian's crates, if all are installed, and no others then.
find_crates() {
    local name
    crates_from=()
    for name in arrayvec-0.7 clap-4 hex-0.4 itoa-1 serde_json-1 thiserror-1; do
        compgen -G "$debian_registry/$name.*" > /dev/null || return 0
    done
    crates_from=(--offline --config 'source.crates-io.replace-with="debian"'
        --config "source.debian.directory=\"$debian_registry\"")
}

# Calls cargo in the workspace $1. It takes no settings of the folders above, or of the user's other builds.
call_cargo() (
    local crates_from
    cd "$1" || exit
    find_crates
    unset CARGO_BUILD_TARGET CARGO_TARGET_DIR CARGO_BUILD_TARGET_DIR RUSTFLAGS CARGO_ENCODED_RUSTFLAGS
    exec cargo "${@:2}" "${crates_from[@]}"
)

# Writes the workspace into the folder $1, or ends the script: with the status of a signal, or since $2.
write_workspace() {
    local status=0
    "$root/tools/plain_rust" "$1" || status=$?
    [ "$status" -le 128 ] || exit "$status"
    [ "$status" -eq 0 ] || fail "$not_run" "$2"
}

# Writes the workspace into the folder $1, and builds $2 there as the other words say. What cargo prints goes to
# standard error if that is wanted; else only its faults do. If it isn't built, the script ends, and says why.
build_rust() {
    local folder="$1" what="$2" printed status lack=""
    write_workspace "$folder" "$what isn't built"
    if [ -n "${verbose-}" ]; then
        call_cargo "$folder" build "${@:3}" >&2 || fail "$not_run" "$what isn't built"
        return
    fi
    begin_saying "compiling $what"
    printed="$(call_cargo "$folder" build --quiet "${@:3}" 2>&1)"
    status=$?
    end_saying
    [ "$status" -ne 0 ] || return 0
    if grep -qE "can't find crate for .(std|core)" <<< "$printed"; then
        lack=": rustc has no std for its target: install that, or another rustc"
    elif grep -qE "$no_crates" <<< "$printed"; then
        lack=": cargo has no network and no crates: on Debian, apt install ${debian_crates//$'\n'    / }"
    else
        printf '%s\n' "$printed" >&2
    fi
    fail "$not_run" "$what isn't built$lack"
}

# Makes the archive $2 for the C library of what cargo has built below the folder $1. It has one object with the names
# of the library's calls alone, so that it can be linked beside other libraries in Rust.
archive_of_rust() (
    made="$(mktemp -d)" || exit
    trap 'remove_at_end "$made"' EXIT
    archive="$(realpath -- "$1")/libwurstlinen_c.a" || exit
    member="$(ar t "$archive" 2> /dev/null | awk '/^wurstlinen_c-/ && !seen++')" && [ -n "$member" ] || exit
    (cd "$made" && ar x "$archive" "$member" 2> /dev/null) || exit
    objcopy --strip-debug --wildcard --keep-global-symbol='wurst_*' "$made/$member" "$made/wurstlinen.o" || exit
    ar rcs "$made/archive" "$made/wurstlinen.o" && put "$made/archive" "$2"
)
