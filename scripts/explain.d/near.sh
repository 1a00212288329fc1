# shellcheck shell=bash disable=SC2034,SC2154  # (variables of scripts/explain)
# A name that is near to a word.

# distance: how many letters have to change between two words.
measure() {
    local one=$1 other=$2 i j cost best above=() row=()
    for ((j = 0; j <= ${#other}; j++)); do above[j]=$j; done
    for ((i = 1; i <= ${#one}; i++)); do
        row=("$i")
        for ((j = 1; j <= ${#other}; j++)); do
            cost=1
            [ "${one:i-1:1}" != "${other:j-1:1}" ] || cost=0
            best=$((above[j - 1] + cost))
            ((above[j] + 1 >= best)) || best=$((above[j] + 1))
            ((row[j - 1] + 1 >= best)) || best=$((row[j - 1] + 1))
            row[j]=$best
        done
        above=("${row[@]}")
    done
    distance=${above[${#other}]}
}

# small: a word without the dashes before it, in small letters.
make_small() {
    small=$1
    while [ "${small:0:1}" = - ]; do small=${small:1}; done
    small=${small//_/-}
    small=${small,,}
}

# near: of some names, separated by blanks, the one that is nearest to a word, if any is near.
find_near() {
    local word=$1 name bare least=99 most
    near=
    ((${#word} <= 20)) || return 0
    make_small "$word"
    word=$small
    ((${#word} > 0)) || return 0
    for name in $2; do
        bare=${name#--}
        most=$((${#bare} < 5 ? 1 : 2))
        measure "$word" "$bare"
        case "$bare" in "$word"*) ((${#word} < 3)) || distance=$((distance > 2 ? 2 : distance)) most=2 ;; esac
        ((distance > most || distance >= least)) || least=$distance near=$name
    done
    [ -n "$near" ] || near_elsewhere "$word"
}

# near: the option for a name that other finders have.
near_elsewhere() {
    case "$1" in
    t | fumen) near=--tetfu ;;
    p | pattern | queue | queues | sequence) near=--patterns ;;
    c | height | line | lines) near=--clear-line ;;
    f | field) near=--rows ;;
    kick) near=--kicks ;;
    fail | fails) near=--failed ;;
    max | count) near=--limit ;;
    seed) near=--number ;;
    esac
    case " $options " in *" $near "*) ;; *) near= ;; esac
}
