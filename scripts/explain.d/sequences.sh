# shellcheck shell=bash disable=SC2034,SC2154  # (variables of scripts/explain)
# The faults of sequences.

bad_after() {
    local hint="give a whole line as path listed it, with placements as T0:4,0 and one blank between them"
    if ! value_of --after; then
        say "The value of --after goes wrong at byte $at: $hint."
        return
    fi
    find_spot "$value" "$at"
    case "$value" in
    'end '* | 'limit '*)
        quote "$value"
        say "$quoted is the last line of a list and no sequence: give --after the line before it."
        return
        ;;
    esac
    case "${value:at:1}" in
    '') hint="it is too short, so $hint" ;;
    "$cr" | "$newline") hint="leave that out at the end" ;;
    ' ') hint_at_blank ;;
    esac
    say "The value of --after $spot: $hint."
}

# hint: what is wrong with a blank. After a whole placement, there are too many placements.
hint_at_blank() {
    if ((at + 1 == ${#value})); then
        hint="leave that out at the end"
        return
    elif [ "${value:at-1:1}" = ' ' ]; then
        hint="write one blank between placements"
        return
    fi
    take_end "${value:0:at}"
    [[ $ending =~ ,[0-9]+(:[LRDCA]*H)?$ ]] || return
    hint="the field needs no more placements than stand before it, so $hint"
}

cover_line() {
    say "Line $at of standard input is no sequence of as many placements as the field needs: write it as path does, like TR:4,1 O0:5,0 I0:5,0, or leave the line out."
}

cover_many() {
    say "Line $at of standard input is one sequence too many: at most 100,000 are read, so ask in parts."
}

sequences_fault() {
    case "$1" in
    BadAfter:1) bad_after ;;
    Cover.BadSequence:1) cover_line ;;
    Cover.TooManySequences:1) cover_many ;;
    *) return 1 ;;
    esac
}
