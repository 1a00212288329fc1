# shellcheck shell=bash
# build_if_needed proves and builds the program, where that has not been done yet, or where a source or the kit has changed
# since. Where that fails, it says why and ends the script, with status 1. The script that reads this file sets `here`, the
# top of the repository, and has `say` and `fail`, which write to standard error.
#
# The crates that the program is made of are proved side by side, and a crate that is proved stays so: an interrupted
# build goes on where it stopped. Two builds in one copy of the repository wait for each other.
# shellcheck source=scripts/jobs.sh
. "${here:?}/scripts/jobs.sh"
program=$here/crates/pc_cli/out/pc_cli
built=$program.built
log=$here/out/build.log
begun=$here/out/build.begun

# What the whole build takes of disk, in MB.
whole_disk=6000

# The crates that the program is made of, itself included, a line each.
crates() {
    awk -F: '
        /^ *(#|$)/ { next }
        { split($1, head, " "); uses[head[1]] = $2 }
        END { add("pc_cli"); for (name in seen) print name }
        function add(name,   list, count, i) {
            if (name in seen || !(name in uses)) return
            seen[name] = 1
            count = split(uses[name], list, " ")
            for (i = 1; i <= count; i++) add(list[i])
        }' "$here/crates.txt" | LC_ALL=C sort
}

names=()

# Looks by `find` through the files and folders that the program is made from.
find_sources() {
    local name part places=(crates.txt)
    ((${#names[@]})) || mapfile -t names < <(crates)
    for name in "${names[@]}"; do
        for part in src specs proofs; do
            [ ! -d "$here/crates/$name/$part" ] || places+=("crates/$name/$part")
        done
    done
    (cd "$here" && find "${places[@]}" "$@")
}

sum_of_sources() {
    find_sources -type f -print0 | LC_ALL=C sort -z | (cd "$here" && xargs -0 sha256sum) | sha256sum | cut -c 1-64
}

# The line that names the kit on the path; nothing where there is none.
kit() {
    local rt
    rt=$(command -v rt 2>/dev/null) || return 0
    rt=$(readlink -f "$rt")
    cat "${rt%/bin/*}/KIT-ID" 2>/dev/null || rt version 2>/dev/null || true
}

# Why the program has to be built; nothing where it is what the sources and the kit give.
reason() {
    local was now changed
    if [ ! -x "$program" ] || [ ! -s "$built" ]; then
        echo "the program is not built yet"
        return
    fi
    was=$(sed -n 's/^kit //p' "$built")
    now=$(kit)
    if [ -n "$now" ] && [ "$now" != "$was" ]; then
        echo "the kit is now ${now%% *}, and the program was proved with ${was%% *}"
        return
    fi
    changed=$(find_sources -newer "$built" -print -quit)
    if [ -z "$changed" ]; then
        return
    elif [ "$(sum_of_sources)" = "$(sed -n 's/^sources //p' "$built")" ]; then
        # (a source that changes in this very moment must still be newer; a file's time is counted in steps of milliseconds)
        touch -d '1 second ago' "$built" 2>/dev/null || true
    else
        echo "$changed has changed since the program was built"
    fi
}

# Ends where something is missing without which the build would fail after minutes.
look_around() {
    local said free left
    command -v rt >/dev/null 2>&1 || fail "the toolchain's command rt is not on the path (README.md, 'Set-up')"
    said=$(rt version 2>&1) || fail "rt does not start: ${said##*$'\n'}"
    if ! mkdir -p "$here/crates/pc_cli/out" 2>/dev/null || ! : 2>/dev/null >"$begun"; then
        fail "$here cannot be written: the program is built inside the repository"
    fi
    choose_jobs
    # A crate that is proved has taken its share of the disk.
    left=$(whole_left)
    free=$(df -Pm "$here/out" | awk 'NR == 2 { print $4 }')
    ((free >= left)) || fail "proving takes $left MB of disk under $here, and $free MB are free"
}

# Whether a crate's library is built: with its statements by scripts/prove, or with its proofs by rt.
is_proved() { [ -e "$here/crates/$1/out/rlib/proved" ] || [ -e "$here/crates/$1/out/rlib/stamp" ]; }

whole_left() {
    local name count=0
    for name in "${names[@]}"; do
        is_proved "$name" || count=$((count + 1))
    done
    echo $((whole_disk * count / ${#names[@]} + 100))
}

# One line of progress: on a terminal it is written over and over, elsewhere a line follows where a crate is done and half
# a minute has gone.
shown=-30
told=
progress() {
    local name rlib ended proving=() line
    ended=$(awk '/^== [a-z_]+$/ && $2 != "summary" && !seen[$2]++ { count++ } END { print count + 0 }' "$log")
    for name in "${names[@]}"; do
        rlib=$here/crates/$name/out/rlib
        if [ -d "$rlib" ] && [ "$rlib" -nt "$begun" ] && ! is_proved "$name"; then
            proving+=("$name")
        fi
    done
    line="$ended of ${#names[@]} crates proved, $(((SECONDS - start) / 60)) min"
    if grep -q '^rt: waiting for another rt' "$log" && ((ended == 0)); then
        line+="; waiting for another rt to end"
    elif ((ended == 0 && ${#proving[@]} == 0)); then
        line+="; reading the sources"
    elif ((ended >= ${#names[@]} - 1)); then
        line+="; at work: the program"
    elif ((${#proving[@]})); then
        line+="; at work: ${proving[*]}"
    fi
    if [ -t 2 ]; then
        printf '\r\033[K%.*s' "$((${COLUMNS:-80} - 1))" "pc: $line" >&2
    elif [ "$ended" != "$told" ] && ((SECONDS - shown >= 30)); then
        say "$line"
        shown=$SECONDS
        told=$ended
    fi
}

# Removes the line of progress.
end_progress() { [ ! -t 2 ] || printf '\r\033[K' >&2; }

# Runs a command of the toolchain in the program's crate, with its output in the log, and shows how far it is.
child=
watched() {
    local status=0
    (cd "$here/crates/pc_cli" && exec "$@") >>"$log" 2>&1 </dev/null &
    child=$!
    while kill -0 "$child" 2>/dev/null; do
        progress
        sleep 1
    done
    wait "$child" || status=$?
    child=
    return "$status"
}

# A signal ends the toolchain too, and then this script as if it had not been caught.
interrupted() {
    trap '' INT TERM HUP
    if [ -n "$child" ]; then
        kill "$child" 2>/dev/null || true
        wait "$child" 2>/dev/null || true
    fi
    end_progress
    say "interrupted; what is proved stays so, and the next ./pc goes on from there"
    trap - "$1"
    kill -s "$1" $$
}

# Says which crate failed, with its last lines.
tell_failure() {
    local name
    end_progress
    name=$(sed -n '/^== summary$/,$ { s/^\([a-z_]*\): failed.*/\1/p; }' "$log" | head -n 1)
    if [ -n "$name" ]; then
        say "$name is not proved; its last lines:"
        awk -v head="== $name" '$0 == head { on = 1; next } /^== / { on = 0 } on' "$log" | tail -n 8 | cut -c 1-300 >&2
    else
        say "the program was not built; the toolchain's last lines:"
        tail -n 8 "$log" | cut -c 1-300 >&2
    fi
    if (($(df -Pm "$here/out" | awk 'NR == 2 { print $4 }') < 100)); then
        say "the disk under $here is full"
    fi
    say "the whole log is $log"
}

# The question that the built program is asked first.
question=(path --rows XXXXXX____ --clear-line 1 --patterns I)

# Proves the program and the libraries below it, and builds it; where scripts/prove leaves that to rt, rt does it. (rt builds
# a program in order to run it, and proves it before.)
prove() {
    local status=0
    watched "$here/scripts/prove" "$jobs" || status=$?
    if ((status == 3)); then
        watched rt all check --jobs "$jobs" && watched rt run -- "${question[@]}"
    elif ((status)); then
        return "$status"
    else
        watched "$program" "${question[@]}"
    fi
}

build() {
    look_around
    local sum signal minutes=$((32 / jobs > 8 ? 32 / jobs : 8))
    start=$SECONDS
    say "$1: proving and building it, $jobs at a time"
    say "from nothing this takes $minutes to $((2 * minutes)) minutes; when it is stopped, the next ./pc goes on from there"
    sum=$(sum_of_sources)
    : >"$log"
    for signal in INT TERM HUP; do
        # shellcheck disable=SC2064
        trap "interrupted $signal" "$signal"
    done
    if ! prove || [ ! -x "$program" ]; then
        tell_failure
        exit 1
    fi
    trap - INT TERM HUP
    end_progress
    note_built "$sum"
    # (a source that was changed meanwhile is newer)
    touch -r "$begun" "$built"
    say "proved and built in $(((SECONDS - start) / 60)) min $(((SECONDS - start) % 60)) s"
}

# Makes the C library in a folder. Where a tool that this takes is missing, it says so, and the folder stays empty.
make_library() {
    local status=0 signal
    for signal in INT TERM HUP; do
        # shellcheck disable=SC2064
        trap "interrupted $signal" "$signal"
    done
    "$here/scripts/library" "$1" &
    child=$!
    wait "$child" || status=$?
    child=
    trap - INT TERM HUP
    ((status != 3)) || say "so the C library is left out"
    ((status == 0 || status == 3))
}

# Notes that the program was proved and built, from sources with this sum.
note_built() { printf 'kit %s\nsources %s\n' "$(kit)" "$1" >"$built"; }

# Whether the lock is ours, or cannot be had on this file system.
is_ours() { flock -n -E 75 "$1" 2>/dev/null || (($? != 75)); }

build_if_needed() {
    local why lock
    mapfile -t names < <(crates)
    why=$(reason)
    [ -n "$why" ] || return 0
    if ! mkdir -p "$here/out" 2>/dev/null || ! : 2>/dev/null >>"$here/out/build.lock"; then
        fail "$here cannot be written: the program is built inside the repository"
    fi
    exec {lock}>"$here/out/build.lock"
    if ! is_ours "$lock"; then
        say "another ./pc builds the program here; waiting for it to end"
        until is_ours "$lock"; do sleep 1; done
        why=$(reason)
    fi
    [ -z "$why" ] || build "$why"
    # (the lock goes with the file)
    exec {lock}>&-
}
