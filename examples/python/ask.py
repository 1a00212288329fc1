#!/usr/bin/env python3
"""Asks the library five questions and for a list as numbers, and prints each answer.

    examples/python/ask.py [LIBRARY]

LIBRARY is the file of the library: libvoidosier.so, as the loader finds it, if none is named. Before an answer stands
a line with its status, the bytes of the answer and of the line of a fault, and the floods.
"""
import sys

from voidosier import InputFault, NO_ROOM, Voidosier

OPENER = ["--tetfu", "v115@9gD8DeF8CeG8BeH8CeC8JeAgH"]
QUESTIONS = [
    ("path", ["path", *OPENER, "--patterns", "TOI", "--hold", "avoid", "--keys", "yes"], ""),
    ("percent", ["percent", *OPENER, "--patterns", "*p4", "--failed", "2"], ""),
    ("decode", ["decode"], "v115@vhBVQJAAA\n"),
    ("wrong field", ["path", "--rows", "XXX?XX____", "--patterns", "I"], ""),
]
LONG_LIST = ["path", *OPENER, "--patterns", "*p4"]


def shown(name, answer):
    sizes = f"{len(answer.output)} bytes, fault of {len(answer.fault)} bytes"
    print(f"{name}: status {answer.status}, {sizes}, floods {answer.floods}")
    print(answer.text + answer.fault.decode("ascii"), end="\n" if answer.status == NO_ROOM else "")
    return answer.status


def main(words):
    finder = Voidosier(*words)
    for name, question, given in QUESTIONS:
        shown(name, finder.call(question, given))

    # Where the answer doesn't fit, what is there is a front of it, and twice the room may do.
    room = 256
    while shown("long list", finder.call(LONG_LIST, room=room)) == NO_ROOM:
        room *= 2

    try:
        finder.run(*QUESTIONS[3][1])
    except InputFault as fault:
        print(f"{fault.name} at {fault.values[0]}")

    for solution in finder.solutions(*LONG_LIST[1:], room=1000):
        print(*solution)


if __name__ == "__main__":
    main(sys.argv[1:])
