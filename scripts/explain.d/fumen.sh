# shellcheck shell=bash disable=SC2034,SC2154  # (variables of scripts/explain)
# The faults of fumen texts, and of standard input.

# digits: the digits of the fumen text among the words; false if the text was on standard input.
fumen_digits() {
    local front
    case "$command" in decode | encode | show) return 1 ;; esac
    value_of --tetfu || return 1
    [ "$value" != - ] || [ "$command" = cover ] || return 1
    front=${value%%[vmd]11[05]@*}
    digits=${value:${#front}+5}
    digits=${digits%%&*}
    digits=${digits//[$' \t\n\v\f\r'?]/}
}

no_fumen() {
    local form="A fumen text begins with v115@ or v110@ (or with m or d in place of v)"
    if ! fumen_digits; then
        say "Standard input holds no fumen text. $form: copy it whole from the editor."
        return
    fi
    quote "$value"
    if [ -z "$value" ]; then
        say "The value of --tetfu is empty. $form."
    elif [ "$value" = - ]; then
        say "cover reads its sequences from standard input, so --tetfu takes the text itself here, and not -."
    elif [ -f "$value" ] && [ "$command" = cover ]; then
        say "$quoted is the name of a file, and --tetfu takes the text itself: write --tetfu \"\$(cat $quoted)\""
    elif [ -f "$value" ]; then
        say "$quoted is the name of a file, and --tetfu takes the text itself: write --tetfu - and read the file by < ${quoted}"
    elif [[ $value =~ [VMD]11[05]@ ]]; then
        say "$quoted has the prefix of a fumen text in capitals. $form: write it in small letters."
    elif [[ $value =~ [vmd]1[0-9][0-9]@ ]]; then
        say "$quoted is a fumen text of a version that isn't read. $form: copy it again from a current editor."
    else
        say "$quoted holds no fumen text. $form: copy it whole from the editor, and put it between quotes."
    fi
}

# A fault at a place among the digits: what stands there.
fumen_damaged() {
    if fumen_digits; then
        find_spot "$digits" "$at"
        say "The fumen text of --tetfu is damaged: after its @ it $spot, $1. Copy the whole text again from the editor, and put it between quotes."
    else
        say "The fumen text on standard input is damaged: its character $at after the @, counted from 0, is $1. Copy the whole text again from the editor."
    fi
}

fumen_truncated() {
    local where="on standard input"
    ! fumen_digits || where="of --tetfu"
    say "The fumen text $where is cut off: it ends within a number that begins at character $at after its @, counted from 0. Copy the whole text again, and put it between quotes."
}

piece_outside() {
    say "The piece on page $at lies partly outside of the well (columns 0 to 9, rows 0 to 22, or to 20 in a v110 text): move it inside, or take it away."
}

fumen_pages() {
    say "The fumen text has more than 10,000 pages, which is the most: divide it into several."
}

no_page() {
    if ((other == 0)); then
        say "Page $at is asked for, but the fumen text has no pages: copy the whole text again from the editor."
    elif ((other == 1)); then
        say "Page $at is asked for, but the fumen text has one page only: leave --page out."
    else
        say "Page $at is asked for, but the fumen text has $other pages: give --page a number from 1 to $other."
    fi
}

source_too_long() {
    local hint="divide it into several"
    case "$command" in
    encode | decode | show) hint="divide it into several, each with fewer pages" ;;
    cover) hint="give fewer sequences at once" ;;
    esac
    say "Standard input has more than 4,194,304 bytes (4 MiB), which is the most: $hint."
}

fumen_fault() {
    case "$1" in
    SourceTooLong:0) source_too_long ;;
    NoPage:2) no_page ;;
    Fumen.NoFumen:0) no_fumen ;;
    Fumen.BadDigit:1) fumen_damaged "a character that no fumen text has" ;;
    Fumen.Truncated:1) fumen_truncated ;;
    Fumen.RunPastEnd:1) fumen_damaged "the start of a run of cells that goes past the end of its page" ;;
    Fumen.BadCell:1) fumen_damaged "the start of a run that gives cells a colour that there is not" ;;
    Fumen.BadAction:1) fumen_damaged "the start of a page's action, whose number is too large" ;;
    Fumen.PieceOutside:1) piece_outside ;;
    Fumen.BadComment:1) fumen_damaged "the start of a part of a comment that stands for no characters" ;;
    Fumen.TooManyPages:0) fumen_pages ;;
    *) return 1 ;;
    esac
}
