# shellcheck shell=bash
# What ./pc and the installed voidosier have in common: help, explanations, and the run of the program. They set
#   called    how they are called (./pc or voidosier)
#   shared    the folder of this file
#   program   the proved program
: "${called:?}" "${shared:?}" "${program:?}"

say() { printf '%s: %s\n' "${called#./}" "$*" >&2; }

fail() {
    say "$*"
    exit 1
}

# The words that ask for help of a command: `--help` or `-h` in the place of an option's name.
asks_for_help() {
    local at
    for ((at = 2; at <= $#; at += 2)); do
        case "${!at}" in
        --help | -h) return 0 ;;
        esac
    done
    return 1
}

# A word between quotes, as it is safe to show.
shown() (
    LC_ALL=C
    # shellcheck source=scripts/explain.d/shown.sh
    . "$shared/explain.d/shown.sh"
    quote "$1"
    printf '%s\n' "${quoted:?}"
)

help() {
    local status=0
    "$shared/help" "$called" "$@" 2>/dev/null || status=$?
    case $status in
    0) ;;
    1)
        say "there is no command $(shown "$1"); $called help lists them"
        exit 2
        ;;
    *) exit 4 ;;
    esac
}

# One line that says what a fault line means after these words; status 1 where there is none to say.
explained() { EXPLAIN_NAME=$called "$shared/explain" "$@" 2>/dev/null; }

explain() {
    if (($# == 0)); then
        say "give the fault line, as in: $called explain 'input: Words.MissingOption 3' path --rows XXXXXX____"
        exit 2
    fi
    local status=0
    explained "$@" || status=$?
    ((status != 1)) || say "this is no fault line of the program: $(shown "$1")"
    exit "$status"
}

# Whether the words give a fumen text to a command that reads it from standard input.
gives_text() {
    case "${1-}" in
    show | decode | encode) [ -n "${2-}" ] && [ "${2#-}" = "$2" ] ;;
    *) false ;;
    esac
}

# Runs the program with the words given, as if this were the program. Where a person reads standard error, a line behind a
# fault says what it means, and one behind a text that is to be read says where it goes.
run() {
    local pipe child status=0 signal fault=
    if { [ ! -t 2 ] && ! gives_text "$@"; } || ! { true <&0; } 2>/dev/null || ! exec {pipe}<> <(:); then
        exec "$program" "$@"
    fi
    # The program is in the background so that a signal to this script can be handed on; its faults are shorter than a pipe.
    (
        trap - INT QUIT
        exec "$program" "$@" 2>&"$pipe" {pipe}>&-
    ) <&0 &
    child=$!
    for signal in HUP INT QUIT TERM; do
        # shellcheck disable=SC2064
        trap "kill -s $signal $child 2>/dev/null || true" "$signal"
    done
    while :; do
        status=0
        wait "$child" || status=$?
        # (a signal that is handed on ends the wait, but not always the program)
        if ((status <= 128)) || ! kill -0 "$child" 2>/dev/null; then break; fi
    done
    while read -t 0 -u "$pipe" && IFS= read -r -u "$pipe" fault; do
        printf '%s\n' "$fault" >&2 || true
    done
    if ((status == 2)) && gives_text "$@"; then
        say "$1 reads its text from standard input: echo 'TEXT' | $called $1"
    elif ((status == 2)) && fault=$(explained "$fault" "$@"); then
        say "$fault"
    elif ((status > 128)); then
        # (as the program ended, so ends this script)
        ulimit -c 0
        signal=$(kill -l "$status")
        trap - "$signal" 2>/dev/null || true
        kill -s "$signal" $$
    fi
    exit "$status"
}
