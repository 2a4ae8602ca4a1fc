# What ./check --tap notes of a part, beside what the part notes itself. For ./check, which has the name `part`.
# shellcheck shell=bash disable=SC2154

# How many lines that begin like this the file for TAP has.
tests_noted() {
    [ -z "$tap_file" ] || grep -cE "^($1) " "$tap_file"
}

# Notes what rt ci says of each crate and mutation.
note_proofs() {
    local line
    while IFS= read -r line; do
        case "$line" in
            *" NOT PROVED") note 1 "${line% NOT PROVED}" ;;
            *" proved") note 0 "${line% proved}" ;;
            *" is kept: "*) note 0 "${line%% is kept: *}" ;;
            "must-fail "*": refused"*) note 0 "${line%%: refused*}" ;;
            "FAILED: "*) note 1 "${line#FAILED: }" ;;
        esac
    done < <(sed -n 's/^rt: //p' "$part")
}

# Notes a part with this status as one test if it has noted none, or, though it failed, none that did. Before it there
# were so many tests, of which so many had failed. What it printed last shows what failed.
note_part() {
    local status="$1" before="$2" failed_before="$3" last
    last="$(tail -n 1 "$part")"
    [ "$tap_part" != rt ] || note_proofs
    if [ "$(tests_noted 'ok|not ok')" = "$before" ]; then
        note "$status" "$last"
    elif [ "$status" -ne 0 ] && [ "$(tests_noted 'not ok')" = "$failed_before" ]; then
        note 1 "$last"
    fi
    [ "$status" -eq 0 ] || tail -n 40 "$part" | sed 's/^/# /' >> "$tap_file"
}

# Notes how many tests there were, without which they aren't complete.
end_tap() {
    [ -z "$tap_file" ] || echo "1..$(tests_noted 'ok|not ok')" >> "$tap_file"
}
