# shellcheck shell=bash disable=SC2034,SC2154  # (variables of scripts/explain)
# The faults of the pattern, and of its queues.

pattern_unexpected() {
    local front
    if ! value_of --patterns; then
        say "The pattern goes wrong at byte $at. A pattern is written like TIO, *p4, [SZ]p2 or *p7,*p4, with the pieces I L O Z T J S."
        return
    fi
    find_spot "$value" "$at"
    take_end "${value:0:at}"
    front=$ending
    quote "$value"
    if ((at == 0)) && [ -e "$value" ]; then
        say "$quoted is the name of a file: the shell puts the names of files in place of a *, so write the pattern between quotes, as '*p4'."
        return
    fi
    expect_in_pattern "$front" "${value:at:1}" "${value:at:3}"
    say "The pattern $spot: $expected."
}

# expected: what a pattern may have behind this front, for somebody who wrote this byte, or these three bytes, there.
expect_in_pattern() {
    local front=$1 next=$2
    if [[ $next =~ [\'\"\`] || $3 == $'\xe2\x80'[$'\x98'-$'\x9f'] ]]; then
        expected="quotes are for the shell and no part of a pattern, so type plain ones, as '*p4', and none within them"
        return
    fi
    if [ "$next" = "$cr" ]; then
        expected="it comes from a file made on Windows, so take it out by: tr -d '\\r'"
    elif [[ $front =~ \[[^]]*$ ]]; then
        expect_in_brackets "$front" "$next"
    elif [[ $front =~ []*][pP]$ ]]; then
        expected="after p comes how many pieces are chosen, a digit from 1 to 9"
    elif [ "$next" = ';' ]; then
        expected="one run takes one pattern, so ask once for each"
    elif [ "$next" = ']' ]; then
        expected="there is no [ before it"
    elif [[ $next =~ [pP!] ]]; then
        expected="it must follow a * or a ] directly, as in *p4"
    elif [[ $next =~ [0-9] ]]; then
        expected="a number comes after p alone, as in *p4"
    else
        expected="the pieces are I L O Z T J S, and * or [SZ] chooses among them"
    fi
}

expect_in_brackets() {
    case "$2" in
    '') expected="its [ has no ]" ;;
    ']') expected="the brackets list no piece" ;;
    *) expected="between [ and ] stand only the letters of pieces (I L O Z T J S), with ^ before them or not" ;;
    esac
}

pattern_repeated() {
    if value_of --patterns; then
        find_spot "$value" "$at"
        say "The pattern $spot a second time between the same brackets: list each piece once there."
    else
        say "The pattern lists a piece twice between brackets, at byte $at: list each piece once there."
    fi
}

pattern_chosen() {
    local element=
    if value_of --patterns; then
        element=${value:at:60}
        case "$element" in
        \[*) element=${element%%]*}]${element#*]} ;;
        esac
        [[ $element =~ ^(\*|\[[^]]*\])([pP][0-9]|!)? ]] && element=${BASH_REMATCH[0]}
    fi
    quote "$element"
    case "$element" in
    '[^'*) say "$quoted in the pattern chooses more different pieces than are left beside those that it excludes: choose fewer, or exclude fewer." ;;
    '') say "An element of the pattern, at byte $at, chooses more different pieces than its set has: choose fewer, or list more pieces." ;;
    *) say "$quoted in the pattern chooses more different pieces than its set has: choose fewer, or list more pieces." ;;
    esac
}

pattern_too_long() {
    say "The queues of the pattern have more than 22 pieces, which is the most: leave elements out at its end."
}

too_many_queues() {
    say "The pattern has more than 10,000,000 queues, which is the most: ask in parts, by their first piece, as I[LOZTJS]p6,*p7 for those of *p7,*p7 that begin with I."
}

not_one_queue() {
    say "The pattern has $at queues, and combo takes one: write its pieces in their order, as --patterns TIOSZ."
}

too_few_pieces() {
    local note=
    if value_of --held; then
        note=", the held one among them"
        ! value_of --hold || [ "$value" != avoid ] || note=", since beside --hold avoid the held one does not count"
    fi
    say "The empty cells need $other pieces, but there are only $at$note: make the queues of --patterns longer by $((other - at)), or fill cells of the field."
}

pattern_fault() {
    case "$1" in
    Pattern.Unexpected:1) pattern_unexpected ;;
    Pattern.RepeatedPiece:1) pattern_repeated ;;
    Pattern.TooManyChosen:1) pattern_chosen ;;
    Pattern.PatternTooLong:0) pattern_too_long ;;
    Pattern.TooManyQueues:0) too_many_queues ;;
    NotOneQueue:1) not_one_queue ;;
    TooFewPieces:2) too_few_pieces ;;
    *) return 1 ;;
    esac
}
