#!/usr/bin/env python3
"""Asks which queues of `*p4` have a perfect clear, and prints the failed ones and the numbers as `percent` does.

    examples/python/good_queues.py [LIBRARY]

LIBRARY is the file of the library: libvoidosier.so, as the loader finds it, if none is named.
"""
import itertools
import sys

from voidosier import Voidosier


def main(words):
    found = Voidosier(*words).good_queues("--tetfu", "v115@9gD8DeF8CeG8BeH8CeC8JeAgH", "--patterns", "*p4")
    # The queues in rising order: the choices of four pieces, in the order of these letters.
    for number, queue in enumerate(itertools.permutations("ILOZTJS", 4)):
        if not found.is_good(number):
            print("failed", "".join(queue))
    print(f"queues {found.queues}\ngood {found.good}\nrate {10000 * found.good // found.queues}")


if __name__ == "__main__":
    main(sys.argv[1:])
