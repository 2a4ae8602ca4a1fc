# Counts what passes and fails, for scripts whose last line is 'N passed, M failed'. They print $passed and $failed.
# shellcheck shell=bash
passed=0
failed=0

# Where ./check --tap wants each test in TAP (the Test Anything Protocol), and the part of the gate. What a test starts
# doesn't get them, since it may call parts of the gate that have to fail.
tap_file="${TAP_FILE-}"
tap_part="${TAP_PART-}"
unset TAP_FILE TAP_PART

# Notes a test with this status and this name, and why it was skipped, if it was.
note() {
    local result="ok" name="$tap_part: $2"
    [ -n "$tap_file" ] || return 0
    [ "$1" -eq 0 ] || result="not ok"
    printf '%s - %s%s\n' "$result" "${name//#/\\#}" "${3:+ # SKIP $3}" >> "$tap_file"
}

# Says what is skipped, and why.
skip() {
    echo "skipped: $1, $2"
    note 0 "$1" "$2"
}

# Begins to measure the steps of a part, in a file of its own.
begin_laps() {
    times_file="$1"
    began=$SECONDS
    spent=0
}

# Says how long a step took, with the processor seconds of all that it started.
lap() {
    local now
    # A subshell would have times of its own. The second line is that of what this shell has started.
    times > "$times_file"
    now="$(awk -F '[ms ]+' 'NR == 2 { print int(60 * ($1 + $3) + $2 + $4) }' "$times_file")"
    echo "$1: $((now - spent)) processor seconds, in $((SECONDS - began)) seconds"
    began=$SECONDS
    spent="$now"
}

# Runs a part of this part, which notes its own tests. They are named below $1.
part_of() {
    [ -z "$tap_file" ] || local -x TAP_FILE="$tap_file" TAP_PART="$tap_part: $1"
    "${@:2}"
}

# Adds the counts of a part that ended with the status $1: those in the last line of its output, the file $2. Without
# such a line, or with a status that its counts don't explain, the part counts as one that failed. The status is 1 if
# anything failed. A name is noted as a test.
add_counts() {
    local status=0
    add_last_line "$1" "$2" || status=1
    [ -z "${3-}" ] || note "$status" "$3"
    return "$status"
}

add_last_line() {
    local status="$1" last
    last="$(tail -n 1 "$2")"
    if ! [[ "$last" =~ ^([0-9]+)\ passed,\ ([0-9]+)\ failed$ ]]; then
        failed=$((failed + 1))
        return 1
    fi
    passed=$((passed + BASH_REMATCH[1]))
    failed=$((failed + BASH_REMATCH[2]))
    [ "$status" -ne 0 ] || [ "${BASH_REMATCH[2]}" -ne 0 ] || return 0
    [ "${BASH_REMATCH[2]}" -ne 0 ] || failed=$((failed + 1))
    return 1
}
