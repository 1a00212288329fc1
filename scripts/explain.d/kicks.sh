# shellcheck shell=bash disable=SC2034,SC2154  # (variables of scripts/explain)
# The faults of the table of offsets.

kicks_unexpected() {
    local form="An entry is written like TR:0,0/1,0/1,-1/0,2/1,2, with a ; between entries."
    if ! value_of --kicks; then
        say "The text of --kicks leaves the form of a table of offsets at byte $at. $form"
        return
    fi
    find_spot "$value" "$at"
    take_end "${value:0:at}"
    expect_in_entry "$ending"
    say "The text of --kicks $spot; expected: $expected. $form"
}

# expected: how the text of a table of offsets may go on.
expect_in_entry() {
    local entry=${1##*;} offsets last separators
    offsets=${entry:3}
    last=${offsets##*[,/]}
    separators=${offsets//[^,\/]/}
    case "${#entry}" in
    0) expected="the letter of a piece (I, L, O, Z, T, J or S)" ;;
    1) expected="a rotation (0, R, 2 or L)" ;;
    2) expected="a colon" ;;
    *)
        if [ -z "$last" ]; then
            expected="a number from -3 to 3"
        elif [ "$last" = - ]; then
            expected="a digit from 1 to 3"
        elif ((${#separators} % 2 == 0)); then
            expected="a comma"
        elif ((${#separators} < 9)); then
            expected="a / and the next of five offsets"
        else
            expected="a ; or the end"
        fi
        ;;
    esac
}

kicks_repeated() {
    value_of --kicks
    show_from "${value:at:2}" 0 2
    say "The text of --kicks gives the offsets of ${shown:-a piece and rotation} a second time, in the entry at byte $at: leave one of the two entries out."
}

kicks_fault() {
    case "$1" in
    Kicks.Unexpected:1) kicks_unexpected ;;
    Kicks.RepeatedEntry:1) kicks_repeated ;;
    *) return 1 ;;
    esac
}
