#!/usr/bin/env bash
# Asks questions and writes their records: a line with the question, what the program writes, and a line with its
# status.
#
#     answer.sh PROGRAM QUESTIONS [AT]
#
# A question is the words behind the program, divided by commas. In them and in PROGRAM a byte that isn't plain is %
# and two digits, so that no shell or list takes it for anything else; questions are divided by blanks. With AT the
# program lists sequences, and those with the first placement of the first one are written, and then `more n` where
# others follow these n. AT is where the first placement stands in a fumen text, 0 in the other forms. The status is
# that of a question that failed, or 0. This text is sent to other machines as it stands.
set -u

printf -v program %b "${1//%/\\x}"
at=${3-}
failed=0

# The sequences with the first placement of the first one; status 1 where the list has no tail.
range() {
    awk -v at="$at" '
        function first(line) {
            if (at > 0) { gsub(/[?]/, "", line); return substr(line, at, 3) }
            match(line, /^..:[0-9]+,[0-9]+/)
            return substr(line, 1, RLENGTH)
        }
        /^(end|limit) [0-9]+$/ { print; whole = 1; exit }
        /^([ILOZTJS][0R2L]:|v115@)/ {
            placed = first($0)
            if (listed > 0 && placed != last) { print "more " listed; whole = 1; exit }
            last = placed
            listed++
        }
        { print }
        END { exit !whole }'
}

# No question has a blank or what a shell takes for a pattern, and no process is needed to divide it.
set -f
for question in $2; do
    IFS=,
    # shellcheck disable=SC2206
    words=($question)
    unset IFS
    for place in "${!words[@]}"; do printf -v "words[place]" %b "${words[place]//%/\\x}"; done
    printf 'question %s\n' "$question" || exit 4
    if [ -z "$at" ]; then
        "$program" "${words[@]}" </dev/null 2>&1
        status=$?
    else
        # The program can't write where the range was left, which is no failure. A failed write is seen by cat.
        "$program" "${words[@]}" </dev/null 2>&1 | range | cat
        ended=("${PIPESTATUS[@]}")
        if ((ended[2] != 0)); then
            status=4
        elif ((ended[1] == 0)); then
            status=0
        else
            status=$((ended[0] ? ended[0] : 1))
        fi
    fi
    printf 'status %s\n' "$status" || exit 4
    ((status == 0)) || failed=$status
done
exit "$failed"
