# shellcheck shell=bash disable=SC2034,SC2154  # (variables of scripts/explain)
# The faults of the field.

rows_bad_char() {
    local hint="write _ or . for an empty cell, X or a piece letter for a filled one, and / between rows"
    if ! value_of --rows; then
        say "The rows text has at byte $at a character that stands for no cell: $hint."
        return
    fi
    case "${value:at:1}" in
    "$cr") hint="it comes from a file made on Windows, so take it out by: tr -d '\\r'" ;;
    "$newline") hint="write / between rows, not a line break" ;;
    ' ') hint="write _ for an empty cell, and nothing around the /" ;;
    "'" | '"') hint="quotes are for the shell, so type them once and none within them" ;;
    esac
    find_spot "$value" "$at"
    say "The value of --rows $spot, which stands for no cell: $hint."
}

rows_bad_length() {
    local rest
    if ! value_of --rows || ((at < 1 || at > 24)); then
        say "Row $at of the rows text, counted from 1 at the top, has not ten cells: each row has exactly ten."
        return
    fi
    rest=${value:(at - 1) * 11:60}
    rest=${rest%%/*}
    quote "$rest"
    if ((at > 1 && (at - 1) * 11 == ${#value})); then
        say "The / at the end of --rows begins one more row, which is empty: leave that / out."
    elif ((${#rest} > 10)); then
        say "Row $at of --rows, counted from 1 at the top, is $quoted and has more than ten cells: each row has exactly ten, with / between rows."
    else
        say "Row $at of --rows, counted from 1 at the top, is $quoted and has ${#rest} cells: each row has exactly ten, with / between rows."
    fi
}

rows_too_many() {
    say "The value of --rows has more than 23 rows, which is the height of the well: leave rows out at the top."
}

field_too_high() {
    local height=4
    ! value_of --clear-line || [[ ! $value =~ ^0*[1-8]$ ]] || height=${value: -1}
    if ((at >= 8)); then
        say "Row $at, counted from 0 at the bottom, has a filled cell, but only --clear-line $height rows are cleared, 8 at most: empty row $at and all above it."
    else
        say "Row $at, counted from 0 at the bottom, has a filled cell above the $height rows that are to be cleared: give --clear-line $((at + 1)) or more (8 at most), or empty that row."
    fi
}

full_row() {
    say "Row $at, counted from 0 at the bottom, is full already: a full row is removed when it is filled, so take it out of the field."
}

field_fault() {
    case "$1" in
    Rows.BadRowChar:1) rows_bad_char ;;
    Rows.BadRowLength:1) rows_bad_length ;;
    Rows.TooManyRows:0) rows_too_many ;;
    FieldTooHigh:1) field_too_high ;;
    FullRow:1) full_row ;;
    *) return 1 ;;
    esac
}
