"""Voidosier from Python: the calls of include/voidosier.h by ctypes.

    import voidosier
    finder = voidosier.Voidosier()
    print(finder.run("path", "--rows", "XXXXXX____", "--clear-line", "1", "--patterns", "I").text)
    for solution in finder.solutions("--rows", "", "--clear-line", "2", "--patterns", "OOOOO"): print(*solution)
    print(finder.good_queues("--rows", "XXXXXX____", "--clear-line", "1", "--patterns", "*p2").good)

An object may be used from several threads at once.
"""
import ctypes
from typing import NamedTuple

DONE, FAULT, NO_ROOM, NO_MEMORY, NO_WORDS, OTHER_COMMAND, NO_SEQUENCE = 0, 2, 4, 5, 6, 7, 8
FAULT_ROOM = 128
SOLUTION_ROOM = 80


class Answer(NamedTuple):
    """What a call did: its status, the bytes of the answer and of the line of a fault, and how many floods were made."""

    status: int
    output: bytes
    fault: bytes
    floods: int

    @property
    def text(self):
        """The answer as text."""
        return self.output.decode("ascii")


class GoodQueues(NamedTuple):
    """Which queues of a pattern have a perfect clear: one bit for each, and the numbers that the call tells."""

    status: int
    bits: bytes
    queues: int
    good: int
    fault: bytes
    floods: int

    def is_good(self, number):
        """Whether the queue with this number, counted from 0 in rising order, has a perfect clear."""
        return 0 <= number < self.queues and self.bits[number // 8] >> number % 8 & 1 == 1


class Placement(NamedTuple):
    """A piece (1 to 7) in a rotation (0 to 3) with its pivot in a column and a row; its text is as in `I0:7,0`."""

    piece: int
    rotation: int
    column: int
    row: int

    def __str__(self):
        return f"{'ILOZTJS'[self.piece - 1]}{'0R2L'[self.rotation]}:{self.column},{self.row}"


class Solutions(NamedTuple):
    """Solutions as numbers: the status, their bytes, how many they are, whether none is left behind them, the line of a
    fault, and how many floods were made."""

    status: int
    placements: bytes
    count: int
    ended: bool
    fault: bytes
    floods: int

    @property
    def sequences(self):
        """The bytes of each solution."""
        size = len(self.placements) // max(self.count, 1)
        return [self.placements[place * size:(place + 1) * size] for place in range(self.count)]


class InputFault(ValueError):
    """The words or the input have a fault: `name` is its name, `values` are its numbers."""

    def __init__(self, line):
        super().__init__(line.decode("ascii").strip())
        self.name, *values = str(self).removeprefix("input: ").split()
        self.values = [int(value) for value in values]


def spell(words):
    """The text of words, each with a NUL byte behind it; None if a word has one itself."""
    plain = [word.encode() if isinstance(word, str) else bytes(word) for word in words]
    return None if any(b"\0" in word for word in plain) else b"".join(word + b"\0" for word in plain)


def refuse(answer):
    """Raises what an answer without a result stands for."""
    if answer.status == FAULT:
        raise InputFault(answer.fault)
    if answer.status == NO_MEMORY:
        raise MemoryError("voidosier")
    if answer.status == NO_WORDS:
        raise ValueError("a word is not in UTF-8, or has a NUL byte")
    if answer.status == OTHER_COMMAND:
        raise ValueError("the words ask for another command")
    if answer.status == NO_SEQUENCE:
        raise ValueError("the numbers are those of no sequence")


class Voidosier:
    """The library, from the file that is named."""

    def __init__(self, library="libvoidosier.so"):
        size, number = ctypes.c_size_t, ctypes.POINTER(ctypes.c_size_t)
        calls = ctypes.CDLL(library)
        self._run = calls.voidosier_run
        self._run.argtypes = [ctypes.c_char_p, size, ctypes.c_char_p, size, ctypes.c_void_p, size, number,
                              ctypes.c_void_p, size, number, ctypes.POINTER(ctypes.c_uint64)]
        self._run.restype = ctypes.c_uint8
        self._good_queues = calls.voidosier_good_queues
        few = ctypes.POINTER(ctypes.c_uint32)
        self._good_queues.argtypes = [ctypes.c_char_p, size, ctypes.c_char_p, size, ctypes.c_void_p, size, number,
                                      few, few, ctypes.c_void_p, size, number, ctypes.POINTER(ctypes.c_uint64)]
        self._good_queues.restype = ctypes.c_uint8
        self._solutions = calls.voidosier_solutions
        self._solutions.argtypes = [ctypes.c_char_p, size, ctypes.c_char_p, size, ctypes.c_char_p, size,
                                    ctypes.c_void_p, size, number, ctypes.POINTER(ctypes.c_uint32),
                                    ctypes.POINTER(ctypes.c_uint8), ctypes.c_void_p, size, number,
                                    ctypes.POINTER(ctypes.c_uint64)]
        self._solutions.restype = ctypes.c_uint8

    def call(self, words, given=b"", room=65536):
        """The answer of one call, whatever its status. Words are text or bytes, and room counts bytes."""
        spelled = spell(words)
        if spelled is None:
            return Answer(NO_WORDS, b"", b"", 0)
        given = given.encode() if isinstance(given, str) else bytes(given)
        output, fault = ctypes.create_string_buffer(max(room, 1)), ctypes.create_string_buffer(FAULT_ROOM)
        length, fault_length, floods = ctypes.c_size_t(), ctypes.c_size_t(), ctypes.c_uint64()
        status = self._run(spelled, len(spelled), given, len(given), output, room, length,
                           fault, FAULT_ROOM, fault_length, floods)
        written = ctypes.string_at(output, length.value), ctypes.string_at(fault, fault_length.value)
        return Answer(status, *written, floods.value)

    def run(self, *words, given=b""):
        """The whole answer. A fault raises InputFault."""
        room = 65536
        answer = self.call(words, given, room)
        while answer.status == NO_ROOM:
            room *= 4
            answer = self.call(words, given, room)
        refuse(answer)
        return answer

    def solutions_call(self, words, given=b"", after=b"", room=80000):
        """The answer of one call for solutions as numbers, whatever its status. Room counts bytes."""
        spelled = spell(words)
        if spelled is None:
            return Solutions(NO_WORDS, b"", 0, False, b"", 0)
        given = given.encode() if isinstance(given, str) else bytes(given)
        placements, fault = ctypes.create_string_buffer(max(room, 1)), ctypes.create_string_buffer(FAULT_ROOM)
        length, fault_length, floods = ctypes.c_size_t(), ctypes.c_size_t(), ctypes.c_uint64()
        count, ended = ctypes.c_uint32(), ctypes.c_uint8()
        status = self._solutions(spelled, len(spelled), given, len(given), after, len(after), placements, room, length,
                                 count, ended, fault, FAULT_ROOM, fault_length, floods)
        written = ctypes.string_at(placements, length.value), count.value, ended.value == 1
        return Solutions(status, *written, ctypes.string_at(fault, fault_length.value), floods.value)

    def solutions(self, *words, given=b"", room=80000):
        """The sequences that clear a field, one after the other, each a list of placements.

        The words are options of `path`. A call asks for as many solutions as the room holds, counted in bytes, or as
        --limit allows. A fault raises InputFault.
        """
        after, ended = b"", False
        while not ended:
            answer = self.solutions_call(("path", *words), given, after, max(room, SOLUTION_ROOM))
            refuse(answer)
            for after in answer.sequences:
                yield [Placement(*after[place:place + 4]) for place in range(0, len(after), 4)]
            ended = answer.ended

    def queues_call(self, words, given=b"", room=0):
        """The answer of one call for good queues, whatever its status. Room counts bytes of bits."""
        spelled = spell(words)
        if spelled is None:
            return GoodQueues(NO_WORDS, b"", 0, 0, b"", 0)
        given = given.encode() if isinstance(given, str) else bytes(given)
        bits, fault = ctypes.create_string_buffer(max(room, 1)), ctypes.create_string_buffer(FAULT_ROOM)
        length, fault_length, floods = ctypes.c_size_t(), ctypes.c_size_t(), ctypes.c_uint64()
        queues, good = ctypes.c_uint32(), ctypes.c_uint32()
        status = self._good_queues(spelled, len(spelled), given, len(given), bits, room, length, queues, good,
                                   fault, FAULT_ROOM, fault_length, floods)
        written = ctypes.string_at(bits, length.value), queues.value, good.value
        return GoodQueues(status, *written, ctypes.string_at(fault, fault_length.value), floods.value)

    def good_queues(self, *words, given=b""):
        """Which queues of a pattern have a perfect clear. The words are options of `percent`. A fault raises InputFault.

        A first call with no room tells how many queues there are, and makes no floods.
        """
        answer = self.queues_call(("percent", *words), given)
        if answer.status == NO_ROOM:
            answer = self.queues_call(("percent", *words), given, (answer.queues + 7) // 8)
        refuse(answer)
        return answer
