# shellcheck shell=bash
# For the scripts of this folder that source it.

# How many checks are made side by side: as RT_JOBS says, or else one a processor, as far as each has 5 GiB of memory: the
# largest takes 6 GB, and where memory is short a check takes many times as long, or is killed and made again.
lanes() {
    local processors memory limit fit
    if [[ ${RT_JOBS-} =~ ^[1-9][0-9]*$ ]]; then
        echo "$RT_JOBS"
        return
    fi
    processors=$(nproc)
    memory=$(awk '/^MemAvailable:/ { print $2 }' /proc/meminfo)
    limit=$(cat /sys/fs/cgroup/memory.max 2> /dev/null)
    if [[ $limit =~ ^[0-9]+$ ]] && [ $((limit / 1024)) -lt "$memory" ]; then
        memory=$((limit / 1024))
    fi
    fit=$((memory / 5242880))
    echo $((fit < 1 ? 1 : fit < processors ? fit : processors))
}
