# shellcheck shell=bash
# choose_jobs sets `jobs`: how many crates are to be proved side by side. There are as many as processors, or fewer where
# memory is short; RT_JOBS sets another number. Where there is no memory for one, it says so and ends the script. The script
# that reads this file has `fail`, which writes to standard error.

# What one job takes of memory, in MB.
job_memory=3000

# The first number of a file, or nothing.
number_in() { sed -n 's/^\([0-9][0-9]*\).*/\1/p;q' "$1" 2>/dev/null || true; }

# The memory in MB that is free here, under the limit of a control group too; files that are cached in it and not in use
# count as free. (PC_MEMINFO, PC_CGROUP: what checks/set-up has it read.)
free_memory() {
    local free limit used cached folder=${PC_CGROUP:-/sys/fs/cgroup}
    free=$(awk '/^(MemAvailable|SwapFree):/ { sum += $2 } END { print int(sum / 1024) }' "${PC_MEMINFO:-/proc/meminfo}")
    limit=$(number_in "$folder/memory.max") used=$(number_in "$folder/memory.current")
    if [ -z "$limit" ]; then
        folder+=/memory
        limit=$(number_in "$folder/memory.limit_in_bytes") used=$(number_in "$folder/memory.usage_in_bytes")
    fi
    cached=$(awk '/^(total_)?inactive_file / { found = $2 } END { printf "%.0f", found }' "$folder/memory.stat" 2>/dev/null) || cached=0
    if [ -n "$limit" ] && [ -n "$used" ] && ((${#limit} < 16 && (limit - used + cached) >> 20 < free)); then
        free=$(((limit - used + cached) >> 20))
    fi
    echo "$free"
}

# The processors that may be used: those of the process, or fewer by the quota of its control group.
processors() {
    local count quota period
    count=$(nproc)
    if read -r quota period 2>/dev/null </sys/fs/cgroup/cpu.max && [ "$quota" != max ] && ((quota / period < count)); then
        count=$((quota / period > 0 ? quota / period : 1))
    fi
    echo "$count"
}

choose_jobs() {
    local free
    free=$(free_memory)
    ((free >= job_memory)) || fail "proving takes $job_memory MB of memory, and $free MB are free"
    jobs=$(processors)
    ((jobs * job_memory <= free)) || jobs=$((free / job_memory))
    [[ ! ${RT_JOBS-} =~ ^[1-9][0-9]?$ ]] || jobs=$RT_JOBS
}
