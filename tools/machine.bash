# How many processors and how much memory may be used, for the scripts in the folder above.
# shellcheck shell=bash

# How many processors there are, or fewer if the control group has a lower quota.
processors() {
    local found quota period
    found="$(nproc)"
    if read -r quota period 2> /dev/null < /sys/fs/cgroup/cpu.max && [ "$quota" != max ]; then
        quota=$((quota / period))
        [ "$quota" -ge "$found" ] || found=$((quota > 1 ? quota : 1))
    fi
    echo "$found"
}

# How much memory is free, in kB; also within the limit of the control group.
free_memory_kb() {
    local free limit held
    free="$(awk '$1 == "MemAvailable:" { print $2 }' /proc/meminfo)"
    if limit="$(cat /sys/fs/cgroup/memory.max 2> /dev/null)" && [ "$limit" != max ]; then
        held="$(cat /sys/fs/cgroup/memory.current)"
        limit=$(((limit - held) / 1024))
        [ "$limit" -ge "$free" ] || free="$limit"
    fi
    echo "$free"
}
