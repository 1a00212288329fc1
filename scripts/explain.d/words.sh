# shellcheck shell=bash disable=SC2034,SC2154  # (variables of scripts/explain)
# The faults of the words.

no_command() {
    list_commands
    say "No command was given. The commands are $commands; \"$tool help\" shows what each of them does."
}

unknown_command() {
    local hint=.
    list_commands
    if ((${#words[@]} == 0)); then
        say "The first word is no command. The commands are $commands."
        return
    fi
    quote "${words[0]}"
    if [ "${words[0]:0:1}" = - ]; then
        say "$quoted stands where the command must stand: write the command first, and its options after it. The commands are $commands."
        return
    fi
    options=
    find_near "${words[0]}" "${commands//,/}"
    [ -z "$near" ] || hint="; did you mean $near?"
    say "$quoted is no command$hint The commands are $commands."
}

unknown_option() {
    local word=${words[at]-}
    word=${word:0:200}
    list_options "$command"
    if ((at < 1 || at >= ${#words[@]})); then
        say "A word that stands where the name of an option must stand is no option of the command; \"$tool help\" shows all options."
        return
    fi
    quote "$word"
    if [ "${word:0:1}" != - ] || [ "${#word}" -eq 1 ]; then
        plain_word "$word"
        return
    fi
    if [ -z "$options" ]; then
        say "$command takes no options: leave $quoted out. It reads standard input."
        return
    fi
    case "$word" in
    --*=*)
        find_near "${word%%=*}" "$options"
        show_from "${word#*=}" 0 50
        say "$quoted is one word, but the name and the value of an option are two: write ${near:---name} $shown"
        return
        ;;
    esac
    find_near "$word" "$options"
    list_owners "$word"
    if [ -n "$near" ]; then
        say "$quoted is no option of $command; did you mean $near?"
    elif [ -n "$owners" ]; then
        say "$quoted is an option of $owners, and not of $command, which has $options."
    else
        say "$quoted is no option of $command, which has $options."
    fi
}

# A word in the place of an option's name that doesn't look like one.
plain_word() {
    case "$command" in
    decode | encode | show | cover)
        if ((at == 1)); then
            say "$quoted stands where the name of an option must stand: $command reads its text from standard input, as in: $tool $command < FILE"
            return
        fi
        ;;
    esac
    if ((at == 1)); then
        case "$1" in
        *[vmd]11[05]@*) say "$quoted stands where the name of an option must stand: for a fumen text write --tetfu before it." ;;
        *[_.X/]*) say "$quoted stands where the name of an option must stand: for a field in rows write --rows before it." ;;
        *) say "$quoted stands where the name of an option must stand: after $command come options, each a name and a value, as --patterns TIO." ;;
        esac
        return
    fi
    show_from "${words[at - 2]}" 0 30
    say "$quoted stands where the name of an option must stand: $shown takes one word, so put a value with blanks, *, [, ; or & between quotes."
}

repeated_option() {
    local index first
    for ((index = 1; index < at && at < ${#words[@]}; index += 2)); do
        [ "${words[index]}" != "${words[at]}" ] || break
    done
    if ((index >= at || at >= ${#words[@]})); then
        say "An option stands twice: leave one of the two out."
        return
    fi
    show_from "${words[at]}" 0 30
    first="$shown stands twice"
    quote "${words[index + 1]}" 30
    say "$first: leave one of the two out. Its first value is $quoted."
}

both_fields() {
    say "--rows and --tetfu both give the field: leave one of the two out."
}

missing_value() {
    if ((at < 1 || at >= ${#words[@]})); then
        say "The last word is the name of an option without its value: write the value after it."
        return
    fi
    say_values "$command" "${words[at]}"
    show_from "${words[at]}" 0 30
    say "$shown is the last word and has no value: write $takes after it."
}

bad_value() {
    local option hint=
    if ((at < 1 || at >= ${#words[@]})); then
        say "The value of an option is not one that it takes; \"$tool help\" shows the values of each."
        return
    fi
    say_values "$command" "${words[at - 1]}"
    show_from "${words[at - 1]}" 0 30
    option=$shown
    quote "${words[at]}"
    case "${words[at]}" in
    --*) hint=" The word after $option is always its value, so the value seems to be missing." ;;
    *[0-9][,._\'][0-9]*) hint=" Write the number in digits alone." ;;
    *)
        find_near_value "${words[at]}"
        [ -z "$near" ] || hint=" Did you mean $near?"
        ;;
    esac
    say "$quoted is no value of $option, which takes $takes.$hint"
}

# near: the value in the table that is nearest to a word.
find_near_value() {
    near=
    case "$values" in
    *[a-z]*)
        options=
        find_near "$1" "$values"
        ;;
    esac
}

missing_option() {
    local option lacking='' fields=''
    options=
    [ -z "$command" ] || list_options "$command"
    for option in $options; do
        look_up "$command" "$option"
        say_values "$command" "$option"
        case "$preset" in
        field) fields+="${fields:+ or }$option" ;;
        required) value_of "$option" || lacking+="${lacking:+; and }$option: $takes" ;;
        esac
    done
    if [ -n "$fields" ] && ! value_of --rows && ! value_of --tetfu; then
        lacking="a field, by $fields${lacking:+; and $lacking}"
    fi
    if [ -z "$lacking" ]; then
        say "An option that the command needs is missing: \"$tool help\" says which ones each command needs."
        return
    fi
    say "$command needs $lacking."
}

# Which fault it is: its name and how many numbers it has.
words_fault() {
    case "$1" in
    Words.NoCommand:1) no_command ;;
    Words.UnknownCommand:1) unknown_command ;;
    Words.UnknownOption:1) unknown_option ;;
    Words.RepeatedOption:1) repeated_option ;;
    Words.BothFields:1) both_fields ;;
    Words.MissingValue:1) missing_value ;;
    Words.BadValue:1) bad_value ;;
    Words.MissingOption:1) missing_option ;;
    *) return 1 ;;
    esac
}
