# shellcheck shell=bash disable=SC2034,SC2154  # (variables of scripts/explain)
# The table of options, whose file is `table`. Its columns: command, option, values, what it is, default; '-' for the command itself.

# rows: the lines of the table, or only those of one command.
read_table() {
    local line
    rows=()
    [ -r "$table" ] || return 0
    while IFS= read -r line; do
        case "$line" in
        '#'* | '') ;;
        "${1:-${line%%"$tab"*}}$tab"*) rows+=("$line") ;;
        esac
    done <"$table"
}

# commands: the names of all commands, separated by commas.
list_commands() {
    local row command option rest
    commands=
    read_table
    for row in ${rows[@]+"${rows[@]}"}; do
        IFS=$tab read -r command option rest <<<"$row"
        [ "$option" != - ] || commands+="${commands:+, }$command"
    done
}

# options: the options of a command, separated by blanks.
list_options() {
    local row command option rest
    options=
    read_table "$1"
    for row in ${rows[@]+"${rows[@]}"}; do
        IFS=$tab read -r command option rest <<<"$row"
        [ "${option:0:2}" != -- ] || options+="${options:+ }$option"
    done
}

# owners: the commands that have an option, separated by commas.
list_owners() {
    local row command option rest
    owners=
    read_table
    for row in ${rows[@]+"${rows[@]}"}; do
        IFS=$tab read -r command option rest <<<"$row"
        [ "$option" != "$1" ] || owners+="${owners:+, }$command"
    done
}

# values, preset: the values of an option of a command, and its default, as the table has them.
look_up() {
    local row command option values_there preset_there rest
    values=- preset=
    read_table "$1"
    for row in ${rows[@]+"${rows[@]}"}; do
        IFS=$tab read -r command option values_there rest preset_there _ <<<"$row"
        [ "$option" = "$2" ] || continue
        values=$values_there preset=$preset_there
    done
}

# takes: what may follow an option.
say_values() {
    look_up "$1" "$2"
    case "$values" in
    - | '') say_form "$2" ;;
    *..*) takes="a number from ${values%%..*} to ${values##*..}" ;;
    '1 2 3 '*) takes="a number from 1 to ${values##* }" ;;
    *' '*)
        takes=${values% *}
        takes="${takes// /, } or ${values##* }"
        ;;
    *) takes=$values ;;
    esac
}

# takes: the form of a value that the table has no list for.
say_form() {
    case "$1" in
    --rows) takes="rows from the top down, as XXXXXX____/XXXXXX____" ;;
    --tetfu)
        takes="a fumen text, as v115@vhAVQJ"
        [ "$command" = cover ] || takes+=", or - for standard input"
        ;;
    --patterns) takes="the queues, as TIO or '*p4'" ;;
    --kicks) takes="a table of offsets, as \"$tool kicks\" writes it" ;;
    --after) takes="a line that path listed, between quotes" ;;
    *) takes="a value" ;;
    esac
}
