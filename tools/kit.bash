# Which kit is there, and which one has proved the text. For the script wurstlinen and the gate, which have the name
# `root`.
# shellcheck shell=bash disable=SC2154

# The kit that is there. Its file says so at once.
kit() {
    local found
    found="$(readlink -f "$(command -v rt)" 2> /dev/null)"
    cat "${found%/bin/*}/KIT-ID" 2> /dev/null || rt --version 2> /dev/null | head -n 1
}

# The kit that this text was proved with.
pinned_kit() {
    cat "$root/KIT" 2> /dev/null
}

# Names the kit that is there, and the other one that this text was proved with. Fails if it is the same, or unknown.
other_kit() {
    local pinned found
    pinned="$(pinned_kit)"
    found="$(kit)"
    [ -n "$pinned" ] && [ -n "$found" ] && [ "$pinned" != "$found" ] || return
    echo "'$found', and this text was proved with '$pinned': all of it is proved anew"
}
