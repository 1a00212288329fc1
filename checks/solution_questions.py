"""Questions about solutions as numbers: the C library's beside what the program writes by `path`; for checks/embed."""
import collections
import ctypes

from library_questions import DONE, FAULT, FAULT_ROOM, NO_ROOM, NO_WORDS, OF_WORDS, OTHER_COMMAND, Library
from library_questions import Family, of_path, program, same, written_by

NO_SEQUENCE = 8

Numbers = collections.namedtuple("Numbers", "status placements count ended fault floods")
NOTHING = (b"", 0, 0)


class SolutionLibrary(Library):
    """The library with its call for solutions, and what the contract says of the bytes that it leaves alone."""

    def __init__(self, path):
        super().__init__(path)
        size, number, floods = ctypes.c_size_t, ctypes.POINTER(ctypes.c_size_t), ctypes.POINTER(ctypes.c_uint64)
        self.solutions = ctypes.CDLL(path).voidosier_solutions
        self.solutions.argtypes = [ctypes.c_void_p, size, ctypes.c_void_p, size, ctypes.c_void_p, size, ctypes.c_void_p,
                                   size, number, ctypes.POINTER(ctypes.c_uint32), ctypes.POINTER(ctypes.c_uint8),
                                   ctypes.c_void_p, size, number, floods]
        self.solutions.restype = ctypes.c_uint8

    def solutions_of(self, text, given, after, room, fault_room=FAULT_ROOM, filling=b"\xa5"):
        edge = 32
        buffers = [ctypes.create_string_buffer(filling * (room + 2 * edge)) for room in (room, fault_room)]
        length, fault_length, floods = ctypes.c_size_t(2 ** 60), ctypes.c_size_t(2 ** 60), ctypes.c_uint64(2 ** 60)
        count, ended = ctypes.c_uint32(2 ** 30), ctypes.c_uint8(99)
        status = self.solutions(text, len(text), given, len(given), after, len(after), ctypes.byref(buffers[0], edge),
                                room, length, count, ended, ctypes.byref(buffers[1], edge), fault_room, fault_length,
                                floods)
        placements, fault = written_by(buffers, edge, (length, fault_length), filling)
        return Numbers(status, placements, count.value, ended.value, fault, floods.value)


def numbers_of(line):
    """The numbers of a line of `path`, as `I0:7,0 O0:8,0`."""
    placements = [placement.decode() for placement in line.split()]
    parts = [(text[0], text[1], *text[3:].split(",")) for text in placements]
    return bytes(number for piece, rotation, column, row in parts
                 for number in ("?ILOZTJS".index(piece), "0R2L".index(rotation), int(column), int(row)))


def without(words, *options):
    """The words without these options and their values."""
    taken = {at + step for at, word in enumerate(words) if word in options for step in (0, 1)}
    return [word for at, word in enumerate(words) if at not in taken]


def value(words, option, default):
    return words[words.index(option) + 1] if option in words else default


def listed(words, given):
    """All solutions behind the sequence of --after, and whether they end there, as the program lists them."""
    plain = without(words, b"--limit", b"--keys", b"--format", b"--stats")
    *lines, tail = program([*plain, b"--limit", b"5000"], given)[1].split(b"\n")[:-1]
    return [numbers_of(line) for line in lines], tail.startswith(b"end ")


def compare_page(library, words, given, draw, after):
    """Asks the library once, in a room that is drawn, and the program; gives what the library answers."""
    text = b"".join(word + b"\0" for word in words)
    whole, ends = listed(words if not after else [*without(words, b"--after"), b"--after", after], given)
    size = len(whole[0]) if whole else 0
    much = 5000 * 80
    room = draw.choice([much] * 4 + [draw.randint(size, 12 * max(size, 1))] * 3 + [size, max(size - 1, 0)])
    found = library.solutions_of(text, given, numbers_of(after), room)
    if found.status == NO_ROOM:
        same(found, (NO_ROOM, *NOTHING, b"", 0), f"a room of {room}")
        same(room < (size or 80), True, f"a room of {room} for solutions of {size} bytes")
        return found
    most = int(value(words, b"--limit", b"1000000000"))
    if size:
        most = min(most, room // size)
    count = min(most, len(whole))
    ended = len(whole) < most
    if len(whole) < 5000:
        same(found[:5], (DONE, b"".join(whole[:count]), count, int(ended and ends), b""), f"a room of {room}")
    if room == much and not after and len(whole) < 5000:
        output = program([*without(words, b"--stats", b"--keys", b"--format"), b"--stats", b"yes"], given)[1]
        same(found.floods, int(output.split()[-1]), "floods")
    return found


def compare_solutions(library, words, given, draw):
    """Asks the library and the program, and then goes on a step behind a solution."""
    status, _, fault = program(words, given)
    text = b"".join(word + b"\0" for word in words)
    if status != NO_WORDS and words[:1] != [b"path"] and not fault.startswith(OF_WORDS):
        found = library.solutions_of(text, given, b"", 80)
        same(found, (OTHER_COMMAND, *NOTHING, b"", 0), "another command")
        return found
    if status != DONE:
        fault_room = draw.choice([FAULT_ROOM, draw.randint(0, FAULT_ROOM)])
        found = library.solutions_of(text, given, draw.choice([b"", b"\1\2\3\4"]), 80, fault_room)
        same(found, (status, *NOTHING, fault[:fault_room], 0), f"a fault in a room of {fault_room}")
        return found
    found = compare_page(library, words, given, draw, b"")
    if found.status != DONE or not found.placements:
        return found
    size = len(found.placements) // found.count
    wrong = bytearray(found.placements[:size])
    wrong[draw.randrange(size)] = draw.randint(23, 255)
    for after in (bytes(wrong), found.placements[:size - 1], found.placements[:size] + b"\0"):
        same(library.solutions_of(text, given, after, 80), (NO_SEQUENCE, *NOTHING, b"", 0), f"after {after!r}")
    lines = program(without(words, b"--keys", b"--format", b"--stats"), given)[1].split(b"\n")
    return compare_page(library, words, given, draw, lines[draw.randrange(found.count)])


SOLUTIONS = Family("solution", SolutionLibrary, of_path, 15, compare_solutions,
                   (DONE, FAULT, NO_ROOM, NO_WORDS, OTHER_COMMAND), 400)
