# shellcheck shell=bash disable=SC2034  # (`folder` is for the script that reads this file)
# choose_folder takes the words of a script that writes files into a folder, and sets `folder`: the word, or out/ with the
# script's name. --help writes the head of the script. The script that reads this file has `self`, `here` and `fail`.
choose_folder() {
    local name=${self:?}
    name=${name##*/}
    case "$#,${1-}" in
    0,) folder=${here:?}/out/$name ;;
    1,--help | 1,-h)
        sed -n '2,/^[^#]/s/^# \{0,1\}//p' "$self"
        exit
        ;;
    1,[!-]*) folder=$1 ;;
    *) fail "it is: scripts/$name [FOLDER]" ;;
    esac
}
