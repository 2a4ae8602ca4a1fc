#!/usr/bin/env bash
# Runs the proved program on a line of the Python package, such as a USB adapter.
#
# usage: adapter.sh LINE ARGUMENT ..
#   LINE       as --line of python3 -m wurstlinen: enttec:/dev/ttyUSB0, rig:FILE ..
#   ARGUMENT   the program's command and its arguments, without --line and --replies
#
#   adapter.sh enttec:/dev/ttyUSB0 discover --source 7ff0:00000001
#   adapter.sh rig:five_fixtures.json discover --source 7ff0:00000001 --quick
#
# The bridge talks to the adapter, and two FIFOs carry its text: frames one way, replies the other. Both ends stop when
# one does, and when a signal ends the script. WURSTLINEN is the program, if it isn't `wurstlinen` on the PATH. The
# status is the program's, or the bridge's if only that failed.
set -uo pipefail
# With it, cd would go elsewhere, and print where.
unset CDPATH

program="${WURSTLINEN:-wurstlinen}"
package="$(cd -- "$(dirname -- "${BASH_SOURCE[0]}")/../python" && pwd)"

if [ "$#" -lt 2 ]; then
    echo "usage: adapter.sh LINE ARGUMENT .." >&2
    exit 2
fi
if ! command -v -- "$program" > /dev/null; then
    echo "adapter.sh: there is no program $program: name it by WURSTLINEN" >&2
    exit 127
fi
line="$1"
shift

folder="$(mktemp -d)" || exit
# Ends what still runs, with all that it started, after a second by force.
end() {
    local each left
    for each in $(jobs -p); do
        # It may not have its own session yet.
        kill -- "-$each" 2> /dev/null || kill "$each" 2> /dev/null
    done
    for _ in {1..20}; do
        left="$(jobs -pr)"
        [ -n "$left" ] || break
        sleep 0.05
    done
    for each in $left; do
        kill -KILL -- "-$each" 2> /dev/null
    done
    rm -rf "$folder"
}
# On a busy machine bash may complain in a trap that it has no record of a process that has just ended.
trap 'end 2> /dev/null' EXIT
trap 'exit 129' HUP
trap 'exit 130' INT
trap 'exit 131' QUIT
trap 'exit 143' TERM

mkfifo "$folder/frames" "$folder/replies" || exit
# Both run in the background, so that a signal needn't wait for them, and each in a session, which can be ended as a
# whole.
# The caller's folder may have files with the names of modules, and isn't searched.
PYTHONPATH="$package${PYTHONPATH:+:$PYTHONPATH}" setsid python3 -c '
import sys
sys.path[:] = filter(None, sys.path)
import runpy
runpy.run_module("wurstlinen", run_name="__main__", alter_sys=True)' bridge --line "$line" \
    < "$folder/frames" > "$folder/replies" &
bridge=$!
setsid "$program" "$@" --line "$folder/frames" --replies "$folder/replies" <&0 &
wait $!
status=$?
# The bridge ends when its frames do. If the program ended before it opened the FIFOs, the bridge still waits for it.
for _ in {1..40}; do
    kill -0 "$bridge" 2> /dev/null || break
    sleep 0.05
done
# A bridge that has to be ended here hasn't failed.
ended_here=false
kill "$bridge" 2> /dev/null && ended_here=true
wait "$bridge"
bridged=$?
[ "$ended_here" = false ] || bridged=0
exit $((status != 0 ? status : bridged))
