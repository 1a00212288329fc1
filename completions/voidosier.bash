# Completion of ./pc, voidosier and pc_cli for bash: source this file. Written by scripts/make-options.
_voidosier() {
    local word=${COMP_WORDS[COMP_CWORD]} last=${COMP_WORDS[COMP_CWORD-1]} first=1 own given
    local commands='path percent cover combo kicks selfrun decode encode show'
    case ${COMP_WORDS[0]##*/} in
    pc) own='explain help --version try install uninstall' ;;
    voidosier) own='explain help --version' ;;
    esac
    COMPREPLY=()
    [ "$COMP_CWORD" -gt 1 ] && case "$own ${COMP_WORDS[1]}" in
    *try*\ try) first=2 own= ;;
    *help*\ help) first=2 ;;
    *explain*\ explain) first=3 own= ;;
    *install*\ install | *install*\ uninstall)
        if [ "$last" = --prefix ]; then
            compopt -o filenames 2>/dev/null
            mapfile -t COMPREPLY < <(compgen -d -- "$word")
        else
            COMPREPLY=($(compgen -W --prefix -- "$word"))
        fi
        return
        ;;
    esac
    if [ "$COMP_CWORD" -eq "$first" ]; then
        COMPREPLY=($(compgen -W "$commands $own" -- "$word"))
        return
    elif [ "$COMP_CWORD" -lt "$first" ] || [ "${COMP_WORDS[1]}" = help ]; then
        return
    fi
    case "${COMP_WORDS[first]} $last" in
    "path --rows") given="" ;;
    "path --tetfu") given="" ;;
    "path --page") given="" ;;
    "path --clear-line") given="" ;;
    "path --patterns") given="" ;;
    "path --hold") given="use avoid" ;;
    "path --held") given="I L O Z T J S" ;;
    "path --drop") given="soft hard" ;;
    "path --kicks") given="" ;;
    "path --keys") given="yes no" ;;
    "path --format") given="text fumen grid" ;;
    "path --limit") given="" ;;
    "path --after") given="" ;;
    "path --stats") given="yes no" ;;
    "percent --rows") given="" ;;
    "percent --tetfu") given="" ;;
    "percent --page") given="" ;;
    "percent --clear-line") given="" ;;
    "percent --patterns") given="" ;;
    "percent --hold") given="use avoid" ;;
    "percent --held") given="I L O Z T J S" ;;
    "percent --drop") given="soft hard" ;;
    "percent --kicks") given="" ;;
    "percent --failed") given="" ;;
    "cover --rows") given="" ;;
    "cover --tetfu") given="" ;;
    "cover --page") given="" ;;
    "cover --clear-line") given="" ;;
    "cover --patterns") given="" ;;
    "cover --hold") given="use avoid" ;;
    "cover --held") given="I L O Z T J S" ;;
    "cover --drop") given="soft hard" ;;
    "cover --kicks") given="" ;;
    "combo --rows") given="" ;;
    "combo --tetfu") given="" ;;
    "combo --page") given="" ;;
    "combo --patterns") given="" ;;
    "combo --hold") given="use avoid" ;;
    "combo --held") given="I L O Z T J S" ;;
    "combo --drop") given="soft hard" ;;
    "combo --kicks") given="" ;;
    "combo --keys") given="yes no" ;;
    "kicks --kicks") given="" ;;
    "selfrun --number") given="" ;;
    "selfrun --pages") given="" ;;
    "encode --dialect") given="110 115" ;;
    "show --page") given="" ;;
    *)
        case "${COMP_WORDS[first]}" in
        path) given="--rows --tetfu --page --clear-line --patterns --hold --held --drop --kicks --keys --format --limit --after --stats" ;;
        percent) given="--rows --tetfu --page --clear-line --patterns --hold --held --drop --kicks --failed" ;;
        cover) given="--rows --tetfu --page --clear-line --patterns --hold --held --drop --kicks" ;;
        combo) given="--rows --tetfu --page --patterns --hold --held --drop --kicks --keys" ;;
        kicks) given="--kicks" ;;
        selfrun) given="--number --pages" ;;
        decode) given="" ;;
        encode) given="--dialect" ;;
        show) given="--page" ;;
        esac
        ;;
    esac
    COMPREPLY=($(compgen -W "$given" -- "$word"))
}
complete -F _voidosier pc ./pc voidosier pc_cli
