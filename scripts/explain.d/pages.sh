# shellcheck shell=bash disable=SC2034,SC2154  # (variables of scripts/explain)
# The faults of lines of pages, and of pages that can't be written.

list_fault() {
    say "Line $at of standard input $1"
}

encode_fault() {
    say "Page $at $1"
}

pages_fault() {
    case "$1" in
    List.TooManyPages:1) list_fault "is one page too many: at most 10,000 are encoded, so divide the lines into several texts." ;;
    List.BadLine:1) list_fault "has not four fields with one blank between them, as: ____T_____/___TTT____| T0:4,0 --cl -" ;;
    List.BadCells:1) list_fault "has a first field that gives no cells: write rows of ten cells with / between them, a |, and the garbage row or nothing." ;;
    List.BadOperation:1) list_fault "has a second field that is neither - nor a placement, such as T0:4,0." ;;
    List.BadFlags:1) list_fault "has a third field that is no flags: write r, m, c and l in this order, with - for each that is not set, as --cl." ;;
    List.BadComment:1) list_fault "has a fourth field that is neither - nor # and a comment without blanks, as decode writes it." ;;
    Encode.TooManyPages:0) say "There are more than 10,000 pages, which is the most: divide them into several texts." ;;
    Encode.BadCell:1) encode_fault "has a cell of a colour that there is not: write _, X or a piece letter." ;;
    Encode.RowTooHigh:1) encode_fault "has a cell in row 21 or 22, which a v110 text has not: use --dialect 115, or empty these rows." ;;
    Encode.PieceOutside:1) piece_outside ;;
    Encode.CommentTooLong:1) encode_fault "has a comment of more than 4,095 characters in escaped form: make it shorter." ;;
    *) return 1 ;;
    esac
}
