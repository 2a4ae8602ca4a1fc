# The library for OLA: how a daemon gets it, and whether a running one has it. For the script wurstlinen, which has the
# function `say`, and reads tools/library.bash too.
# shellcheck shell=bash disable=SC2154

no_process=3

# Prints the first of a folder and those above it, up to the root, that others than root can write, if there is one.
# Links are checked as well as what they lead to.
writable_by_others() {
    local folder owner mode
    for folder in "$1" "$(readlink -f -- "$1")"; do
        while true; do
            read -r owner mode < <(stat -L -c '%u %a' -- "$folder/")
            if [ "$owner" != 0 ] || ((0$mode & 022)); then
                printf '%s\n' "${folder:-/}"
                return
            fi
            [ -n "$folder" ] || break
            folder="${folder%/*}"
        done
    done
}

# The lines for a service. Debian's olad is started by a shell script, so a variable of the whole service would preload
# the library into programs that root runs. This starts olad alone with it, as its own user.
print_ola_service() {
    cat << END_OF_LINES
[Service]
Type=simple
RemainAfterExit=no
User=olad
UMask=0002
Environment="DAEMON_ARGS=--syslog --log-level 3 --config-dir /etc/ola"
EnvironmentFile=-/etc/default/ola
ExecStart=
ExecStart=/usr/bin/env LD_PRELOAD=$1 /usr/bin/olad \$DAEMON_ARGS
ExecReload=
ExecReload=/bin/kill -HUP \$MAINPID
ExecStop=
END_OF_LINES
}

# Says how an installed library is used, and prints the lines for a service.
show_ola_use() {
    local others
    say "installed as $1. How it is used:"
    say "  by hand: LD_PRELOAD=$1 olad"
    say "  whether a daemon has it: ./wurstlinen --check-ola"
    others="$(writable_by_others "${1%/*}")"
    if [ -n "$others" ]; then
        say "  as a service: not from this folder, since others than root can write to $others"
        return
    fi
    say "  as a service: put the lines that follow on standard output into"
    say "  /etc/systemd/system/olad.service.d/wurstlinen.conf, and then call 'systemctl daemon-reload' and"
    say "  'systemctl restart olad'"
    print_ola_service "$1"
}

# The numbers of all processes that are called olad, without those that have ended.
find_ola_daemons() {
    local folder
    for folder in /proc/[0-9]*; do
        if [ "$(cat "$folder/comm" 2> /dev/null)" = olad ] && ! grep -q '^State:[[:space:]]*Z' "$folder/status"; then
            echo "${folder##*/}"
        fi
    done 2> /dev/null
}

# For which OLA a process's library was built: in the file that it has mapped, which may no longer have a name.
built_for() {
    local pid="$1" range="$2" path="$3" file found
    for file in "/proc/$pid/map_files/$range" "/proc/$pid/root$path"; do
        found="$(grep -aoE 'built for OLA [0-9]+\.[0-9]+\.[0-9]+' "$file" 2> /dev/null | head -n 1)"
        [ -z "$found" ] || break
    done
    echo "${found:-built for an unknown OLA}"
}

# Says whether a process has the library. Status 0: it has; 1: it hasn't, or not the file that is there now, or OLA's
# own controllers are used; 125: it can't be examined; no_process: there is none.
check_ola_daemon() {
    local pid="$1" maps found path own
    if ! maps="$(LC_ALL=C cat "/proc/$pid/maps" 2>&1)" || [ -z "$maps" ]; then
        # One that is about to end has no memory any more.
        [[ -e "/proc/$pid" && -n "$maps" && "$maps" != *": No such process" ]] || return "$no_process"
        say "process $pid can't be examined: call this as root, or as the user that runs it"
        return 125
    fi
    if ! found="$(grep -m 1 "/${ola_library//./\\.}\( (deleted)\)\?\$" <<< "$maps")"; then
        echo "process $pid runs without the library"
        return 1
    fi
    path="/${found#*/}"
    if [[ "$path" = *" (deleted)" ]]; then
        found="$(built_for "$pid" "${found%% *}" "")"
        echo "process $pid has ${path% (deleted)}, $found, but the file was replaced or removed: restart it"
        return 1
    fi
    found="$(built_for "$pid" "${found%% *}" "$path")"
    # The library shows this by the name of a mapping.
    if own="$(grep -m 1 '/memfd:wurstlinen-ola: ' <<< "$maps")"; then
        own="${own#*/memfd:wurstlinen-ola: }"
        echo "process $pid has $path, $found, but ${own% (deleted)}: OLA's own controllers are used"
        return 1
    fi
    echo "process $pid has $path, $found"
}

# The same for this process, or for all that are called olad. The status is the greatest of theirs.
check_ola_daemons() {
    local pid one status=0 count=0 pids=("$@")
    [ $# -gt 0 ] || mapfile -t pids < <(find_ola_daemons)
    for pid in "${pids[@]}"; do
        check_ola_daemon "$pid"
        one=$?
        # It has ended meanwhile, or never was.
        [ "$one" -ne "$no_process" ] || continue
        count=$((count + 1))
        [ "$one" -le "$status" ] || status="$one"
    done
    if [ "$count" -eq 0 ]; then
        say "there is no process ${1-olad}"
        return 125
    fi
    return "$status"
}
