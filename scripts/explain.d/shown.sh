# shellcheck shell=bash disable=SC2034,SC2154  # (variables of scripts/explain)
# Text that is safe to show. Each function leaves its answer in the variable that its comment names.

# byte: the number of the byte of a text at a place.
byte_at() {
    printf -v byte %d "'${1:$2:1}"
    byte=$((byte & 255))
}

# size: how many bytes the character at a place has, or 0 if a terminal should not get it.
size_at() {
    local text=$1 at=$2 code least next
    byte_at "$text" "$at"
    size=1
    if ((byte < 128)); then
        ((byte >= 32 && byte != 127)) || size=0
        return
    elif ((byte >= 0xC2 && byte < 0xE0)); then
        size=2 code=$((byte & 31)) least=160
    elif ((byte >= 0xE0 && byte < 0xF0)); then
        size=3 code=$((byte & 15)) least=2048
    elif ((byte >= 0xF0 && byte < 0xF5)); then
        size=4 code=$((byte & 7)) least=65536
    else
        size=0
        return
    fi
    for ((next = at + 1; next < at + size; next++)); do
        byte_at "$text" "$next"
        ((next < ${#text} && (byte & 192) == 128)) || { size=0; return; }
        code=$(((code << 6) | (byte & 63)))
    done
    is_shown "$code" "$least" || size=0
}

# Whether a code point may be shown: it is no surrogate, and no character that is invisible or changes the direction of a line.
is_shown() {
    local code=$1
    ((code >= $2 && code < 0x110000 && code != 0xFEFF)) || return 1
    ((code < 0xD800 || code > 0xDFFF)) || return 1
    ((code < 0x200B || code > 0x200F)) || return 1
    ((code < 0x2028 || code > 0x202E)) || return 1
    ((code < 0x2060 || code > 0x206F)) || return 1
    ((code < 0xE0000))
}

# shown, end: at most this many characters of a text from a place on, and the place behind them.
show_from() {
    local text=$1 most=$3 count=0 escaped
    end=$2
    shown=
    while ((end < ${#text} && count < most)); do
        size_at "$text" "$end"
        if ((size == 0)); then
            byte_at "$text" "$end"
            printf -v escaped '\\x%02x' "$byte"
            shown+=$escaped
            size=1
        else
            shown+=${text:end:size}
        fi
        end=$((end + size)) count=$((count + 1))
    done
}

# quoted: a text between quotes, cut if it is long.
quote() {
    show_from "$1" 0 "${2:-50}"
    ((end == ${#1})) || shown+=...
    quoted="\"$shown\""
}

# ending: the last bytes of a text, enough for what is looked for there. To search all of a long text takes bash minutes.
take_end() {
    ending=$1
    ((${#ending} <= 200)) || ending=${ending: -200}
}

# named: the character at a place of a text.
name_at() {
    case "${1:$2:1}" in
    "$cr") named='a carriage return (the \r of a Windows line end)' ;;
    "$newline") named="a line break" ;;
    "$tab") named="a tab" ;;
    ' ') named="a blank" ;;
    "'" | '"') named="a quote (${1:$2:1})" ;;
    *)
        show_from "$1" "$2" 1
        named="\"$shown\""
        ;;
    esac
}

# spot: what a text has at a place, and what stands before it there.
find_spot() {
    local text=$1 at=$2 first
    if ((${#text} == 0)); then
        spot="is empty"
        return
    elif ((at > ${#text})); then
        spot="goes wrong at byte $at"
        return
    elif ((at == ${#text})); then
        spot="ends"
    else
        name_at "$text" "$at"
        spot="has $named"
    fi
    if ((at == 0)); then
        spot+=" at the start"
        return
    fi
    first=$((at > 24 ? at - 24 : 0))
    while byte_at "$text" "$first" && ((first > 0 && (byte & 192) == 128)); do first=$((first - 1)); done
    show_from "${text:0:at}" "$first" 30
    ((first == 0)) || shown="...$shown"
    spot+=" after \"$shown\""
}
