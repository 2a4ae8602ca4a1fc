# How files and folders are put into place: in one step each, with the modes of installed files, whatever the umask is.
# For the scripts here and in the folder above.
# shellcheck shell=bash

# Makes a folder and those above it, if they don't exist, so that everyone can read it.
make_folder() {
    (umask 022 && mkdir -p -- "$1")
}

# Removes files and folders when a script ends. A signal that comes meanwhile doesn't stop that.
remove_at_end() {
    trap '' HUP INT PIPE TERM
    rm -rf -- "$@"
}

# Puts a copy of the file $1 in the place of $2, with the mode $3, or 644. A file there is replaced and never written
# into, so programs that run it, or have it mapped, aren't disturbed. The copy's name is new, so links and other calls
# can't interfere.
put() (
    new="$(mktemp -u -- "$(dirname -- "$2")/.${2##*/}.XXXXXX")" || exit
    # The trap is set before the file is there, which is made only if nothing has its name.
    trap 'remove_at_end "$new"' EXIT
    (umask 077 && set -C && : > "$new") || { trap - EXIT && exit 1; }
    cp -- "$1" "$new" && chmod "${3-644}" -- "$new" && mv -fT -- "$new" "$2"
)

# Puts a link to $1 in the place of $2, in one step.
put_link() (
    new="$(mktemp -u -- "$(dirname -- "$2")/.${2##*/}.XXXXXX")" || exit
    trap 'remove_at_end "$new"' EXIT
    ln -s -- "$1" "$new" && mv -fT -- "$new" "$2"
)

# Puts a copy of a folder of Python files in the place of $2.
put_package() {
    put_folder copy_package "$1" "$2"
}

# Puts a folder in the place of $3, which the function $1 makes of the folder $2. The old folder is moved away before
# the new one takes its name, and moved back if that fails.
put_folder() (
    folder="$(mktemp -u -- "$(dirname -- "$3")/.${3##*/}.XXXXXX")" || exit
    trap 'end_put_folder "$3" "$folder"' EXIT
    mkdir -m 700 -- "$folder" || { trap - EXIT && exit 1; }
    # With these, the shell waits for a mv that is under way.
    trap 'exit 129' HUP
    # The shell above goes on after an interrupt by which this one doesn't end itself.
    trap 'trap - INT; kill -s INT "$BASHPID"' INT
    trap 'exit 143' TERM
    "$1" "$2" "$folder/new" || exit
    chmod -R u=rwX,go=rX -- "$folder/new" || exit
    # Another call may put its own folder there between the two steps.
    for ((tries = 0; tries < 10; tries++)); do
        if [ -e "$3" ] || [ -L "$3" ]; then
            rm -rf -- "$folder/old"
            mv -T -- "$3" "$folder/old" 2> /dev/null || continue
        fi
        mv -T -- "$folder/new" "$3" 2> /dev/null && exit
    done
    echo "the folder $3 can't be replaced" >&2
    exit 1
)

# Removes the folder $2 of a call of put_folder. If there is no folder $1, the old one gets its name again.
end_put_folder() {
    trap '' HUP INT TERM
    [ -e "$1" ] || [ -L "$1" ] || mv -T -- "$2/old" "$1" 2> /dev/null
    rm -rf -- "$2"
}

# Copies a folder of Python files with the scripts and texts of pages, without others: a library among them isn't the
# proved one.
copy_package() {
    cp -R -- "$1" "$2" && find "$2" -name __pycache__ -prune -exec rm -r {} + \
        && find "$2" ! -type d ! -name '*.py' ! -name '*.js' ! -name '*.css' ! -name '*.html' ! -name py.typed -delete
}
