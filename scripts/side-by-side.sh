# shellcheck shell=bash
# What percent-parts, path-parts and study share: the words, the program, and questions that are asked side by side.
# The folder of answers has numbered files of records, in which each question stands before its answer (answer.sh).
#
# A script sets `name` and `command`. Here are set: `words` of the program, `options` of GNU parallel, `program`, the
# `scratch` folder with the folder of `answers` in it, and `engine`, the group of the processes that ask.
: "${name:?}" "${command:?}"

here=$(cd "$(dirname "$(readlink -f "${BASH_SOURCE[0]}")")/.." && pwd)
options=()
kept=
there=
engine=
writer=
batch=
resumes=
tidies=

# A write whose reader is gone fails, and ends no script.
trap '' PIPE

say() { printf '%s: %s\n' "$name" "$*" >&2; }

# Ends with status 2, as the program does where the words have a fault.
refuse() {
    say "$* (see $name --help)"
    exit 2
}

# The comment at the head of the script.
usage() {
    sed -n '2,/^[^#]/s/^# \{0,1\}//p' "$0"
}

# Reads the options of the script and of GNU parallel, and behind -- the words of the program.
read_words() {
    while (($#)) && [ "$1" != -- ]; do
        case $1 in
        --help | -h)
            usage
            exit
            ;;
        --answers | --program | --batch)
            [ -n "${2-}" ] || refuse "$1 has no value"
            case $1 in
            --answers) kept=$2 ;;
            --program) there=$2 ;;
            *) batch=$2 ;;
            esac
            shift 2
            ;;
        --resume | --resume-failed)
            # What the answers are for; GNU parallel goes by the numbers of jobs, which are others then.
            resumes=$1
            shift
            ;;
        *)
            options+=("$1")
            shift
            ;;
        esac
    done
    (($#)) || refuse "-- and the words of the program are missing"
    shift
    words=("$@")
    [ -z "$resumes" ] || [ -n "$kept" ] || refuse "$resumes needs --answers"
    [ -z "$batch" ] || [ "$name" = study ] || refuse "--batch is for studies"
    [[ "${batch:-1}" =~ ^[1-9][0-9]{0,8}$ ]] || refuse "--batch $batch is no number"
}

# Sets `program`, which is built first where that has not been done, and makes the folders. It is PC where that is set.
prepare() {
    if [ -z "${PC-}" ]; then
        "$here/pc" kicks >/dev/null || exit
        program=$here/crates/pc_cli/out/pc_cli
    elif ! program=$(command -v -- "$PC"); then
        refuse "PC names no program: $PC"
    fi
    case $program in
    /*) ;;
    */*) program=$PWD/$program ;;
    *) refuse "PC names no program: $PC" ;;
    esac
    jobs=
    [[ $(parallel --version 2>/dev/null) == 'GNU parallel'* ]] || count_jobs
    scratch=$(mktemp -d) || exit 4
    trap 'stop; [ -z "$writer" ] || kill "$writer" 2>/dev/null; tidy; rm -rf "$scratch"' EXIT
    trap 'exit 129' HUP
    trap 'exit 130' INT
    trap 'exit 143' TERM
    if [ -z "$kept" ]; then
        mkdir "$scratch/answers" || exit 4
    else
        mkdir -p -- "$kept" && ln -s "$(readlink -f -- "$kept")" "$scratch/answers" || exit 4
        if command -v flock >/dev/null 2>&1; then
            exec {lock}>"$kept/lock" || exit 4
            flock -n "$lock" || refuse "another run uses the answers in $kept"
        fi
        tidies=yes
    fi
}

# Sets `encoded`: a word in which bytes that aren't plain are % and two digits, and the empty word is %00.
encode_word() {
    local LC_ALL=C rest=$1 plain byte
    encoded=
    [ -n "$rest" ] || encoded=%00
    while [ -n "$rest" ]; do
        plain=${rest%%[!A-Za-z0-9_./:@+=-]*}
        rest=${rest#"$plain"}
        encoded+=$plain
        if [ -n "$rest" ]; then
            printf -v byte '%%%02X' "'${rest:0:1}"
            encoded+=$byte
            rest=${rest:1}
        fi
    done
}

# Sets `question`, that of the words given.
make_question() {
    local word
    question=
    for word; do
        encode_word "$word"
        question+=${question:+,}$encoded
    done
}

# Sets `rest`, the words without the pairs of these names.
words_without() {
    local place name
    rest=()
    for ((place = 0; place + 1 < ${#words[@]}; place += 2)); do
        for name; do [ "${words[place]}" != "$name" ] || continue 2; done
        rest+=("${words[place]}" "${words[place + 1]}")
    done
}

# Sets `value`, that of the option, and `place`, where it stands among the words, or the default and nothing.
find_option() {
    value=$2
    place=
    local at
    for ((at = 0; at + 1 < ${#words[@]}; at += 2)); do
        if [ "${words[at]}" = "$1" ]; then
            value=${words[at + 1]}
            place=$((at + 1))
        fi
    done
}

# The one run, in place of this script.
run_whole() {
    if [ -e "$scratch/source" ]; then exec <"$scratch/source"; fi
    rm -rf "$scratch"
    exec "$program" "$command" "${words[@]}"
}

# Asks for a fault, which comes at once, and gives status 0 where it is this one. The program gives no other status.
has_fault() {
    local wanted=$1 fault status
    shift
    fault=$("$program" "$@" 2>&1)
    status=$?
    if ((status < 2 || status > 6)); then
        say "$program isn't the program: it ends with status $status"
        exit 1
    fi
    [ "$status $fault" = "2 input: $wanted" ]
}

# Goes on where the program doesn't refuse the question; else the one run says why. Words without a fault have their
# first one at an empty name that is put behind them; a bad --after is the last fault of a field and a pattern.
answer_refusals() {
    ((${#words[@]} % 2 == 0)) || run_whole
    has_fault "Words.UnknownOption $((${#words[@]} + 1))" "$command" "${words[@]}" '' </dev/null || run_whole
    find_option --tetfu ''
    local source=/dev/null
    if [ "$value" = - ]; then
        source=$scratch/source
        head -c 4194305 2>/dev/null >"$source" || { rm -f "$source" && run_whole; }
    fi
    words_without --failed --after
    has_fault 'BadAfter 0' path "${rest[@]}" --after '!' <"$source" || run_whole
}

# Puts the rows of the field in the place of a fumen text, so that no part reads it again.
use_rows() {
    local text place value number
    find_option --page 1
    number=$((10#$value))
    find_option --tetfu ''
    [ -n "$place" ] || return 0
    if [ "$value" = - ]; then text=$scratch/source; else text=$scratch/text && printf %s "$value" >"$text"; fi
    words[place - 1]=--rows
    words[place]=$("$program" decode <"$text" | awk -F'|' -v number="$number" 'NR == number { print $1 }') || exit 4
}

# All records, those that were asked later behind the others.
records() {
    (cd "$scratch/answers" && find . -maxdepth 1 -type f | sed -n 's|^./\([0-9]*\)$|\1|p' | sort -n | xargs -r awk 1)
}

# Of the questions in a file, a line each, those that no record answers with status 0.
open_questions() {
    records | awk -v list="$1" '
        FILENAME == list { if (!($0 in answered)) print; next }
        $1 == "question" { asked = $2 }
        $0 == "status 0" { answered[asked] }' - "$1"
}

# The questions of standard input in lines for `ask`, so many in each line.
batches() {
    local last
    last=$(find "$scratch/answers/" -maxdepth 1 -type f | sed -n 's|.*/\([0-9]*\)$|\1|p' | sort -n | tail -n 1)
    awk -v most="$1" -v last="${last:-0}" '
        function written() { if (count) print ++last "\t" line; count = 0 }
        count && (count == most || length(line) + length($0) > 20000) { written() }
        { line = count++ ? line " " $0 : $0 }
        END { written() }'
}

# How many questions xargs asks at once, which knows no other option.
count_jobs() {
    local said=${options[*]-}
    case ${#options[@]},$said in
    0,) jobs=$(nproc) ;;
    '2,--jobs '* | '2,-j '*) jobs=${options[1]} ;;
    1,--jobs=*) jobs=${said#--jobs=} ;;
    1,-j*) jobs=${said#-j} ;;
    *) jobs= ;;
    esac
    if ! [[ $jobs =~ ^[1-9][0-9]*$ ]]; then
        refuse "without GNU parallel there is no option but --jobs N"
    fi
}

# Asks the questions of standard input, lines with a number, a tab and questions divided by blanks, and writes their
# records into the file of the number. The first word says what a failure does: `stop` ends the others, which are the
# group of `start`, and `go-on` doesn't. The second one is for answer.sh.
ask() {
    local failing=$1 at=${2-}
    encode_word "${there:-$program}"
    if [ -n "$jobs" ]; then
        # shellcheck disable=SC2016
        xargs -r -d '\n' -n 1 -P "$jobs" bash -c '
            bash "$1" "$2" "${6#*[[:blank:]]}" "$4" >"$3/answers/${6%%[[:blank:]]*}"
            status=$?
            if [ "$status" = 4 ]; then : >"$3/full"; fi
            if [ "$status" != 0 ] && [ "$5" = stop ]; then kill 0; fi' \
            bash "$here/scripts/answer.sh" "$encoded" "$scratch" "$at" "$failing"
        return
    fi
    # In the environment, so that a log of the jobs has the questions alone.
    answer_script=$(base64 -w 0 "$here/scripts/answer.sh")
    export answer_script
    local asked=(parallel --colsep '\t' --results "$scratch/answers/{1}" --env answer_script) said status
    local asking="echo \$answer_script | base64 -d | bash -s -- $encoded {2} $at"
    if [ "$failing" = go-on ]; then
        "${asked[@]}" "${options[@]}" "$asking" >/dev/null
        return
    fi
    said=$(LC_ALL=C "${asked[@]}" --halt 'now,fail=1' "${options[@]}" "$asking" 2>&1 >/dev/null)
    status=$?
    case $status/$said in
    4/* | *'No space left'* | *'disk full'*) : >"$scratch/full" ;;
    esac
    [ -z "$said" ] || printf '%s\n' "$said" >"$scratch/said"
}

# Runs a function behind the script, in a group of its own with all that it starts.
start() {
    set -m
    "$@" &
    engine=$!
    set +m
}

# Whether what was started still runs.
runs() {
    kill -0 -- "-$engine" 2>/dev/null
}

# Ends all that was started. GNU parallel takes a while for its jobs, and takes no signal before they start.
stop() {
    local tries
    [ -n "$engine" ] || return 0
    for ((tries = 0; tries < 100; tries++)); do
        runs || break
        if ((tries % 20 == 0)); then kill -TERM -- "-$engine" 2>/dev/null; fi
        sleep 0.05
    done
    kill -KILL -- "-$engine" 2>/dev/null
    wait "$engine" 2>/dev/null
    engine=
}

# Writes what a function gives. A write that fails is seen by cat; what awk says of it depends on which awk it is.
write_out() {
    "$@" | cat 2>/dev/null &
    writer=$!
    wait "$writer" || exit 4
    writer=
}

# Takes away what GNU parallel leaves beside the records: their places in the list, and errors where there are none. The
# folder may have files of others, and other runs' answers until this one has its lock.
tidy() {
    [ -z "$tidies" ] ||
        find "$scratch/answers/" -maxdepth 1 \( -regex '.*/[0-9]+\.seq' -o -regex '.*/[0-9]+\.err' -empty \) -delete
}

# The status of the record in a file, nothing where it has none.
status_of() {
    local last
    last=$(tail -n 1 "$1" 2>/dev/null)
    case $last in "status "*) printf '%s\n' "${last#status }" ;; esac
}

# Ends where the part whose record is the first file has no whole answer. Another of the parts may have failed, and
# this one may have been ended for it. Hands on a status of the program; a record without one was cut off, or its disk
# is full.
fail() {
    local part=$1 file status
    stop
    for file; do
        status=$(status_of "$file")
        if [ "${status:-0}" != 0 ]; then
            part=$file
            break
        fi
    done
    status=$(status_of "$part")
    if [ -z "$status" ]; then
        if [ -e "$scratch/full" ] || ! head -c 65536 /dev/zero 2>/dev/null >"$scratch/room"; then status=4; fi
    fi
    say "part ${part##*[!0-9]} has no whole answer${status:+, but status $status}"
    { head -n 4 "$part"; cat "$scratch/said"; } >&2 2>/dev/null
    case $status in
    [345]) exit "$status" ;;
    esac
    exit 1
}
