"""Questions about good queues: the C library's bits beside what the program writes by `percent`; for checks/embed."""
import collections
import ctypes

from library_questions import DONE, FAULT, FAULT_ROOM, NO_ROOM, NO_WORDS, OF_WORDS, OTHER_COMMAND, Library
from library_questions import Family, of_percent, program, same, written_by

# A field that no queue clears, so that `percent` lists all queues of a pattern as failed.
NEVER = ["--rows", "XXXXXXXXX_", "--clear-line", "1"]

Bits = collections.namedtuple("Bits", "status bits queues good fault floods")


class QueueLibrary(Library):
    """The library with its call for good queues, and what the contract says of the bytes that it leaves alone."""

    def __init__(self, path):
        super().__init__(path)
        size, number, few = ctypes.c_size_t, ctypes.POINTER(ctypes.c_size_t), ctypes.POINTER(ctypes.c_uint32)
        self.good_queues = ctypes.CDLL(path).voidosier_good_queues
        self.good_queues.argtypes = [ctypes.c_void_p, size, ctypes.c_void_p, size, ctypes.c_void_p, size, number, few,
                                     few, ctypes.c_void_p, size, number, ctypes.POINTER(ctypes.c_uint64)]
        self.good_queues.restype = ctypes.c_uint8

    def queues_of(self, text, given, room, fault_room=FAULT_ROOM, filling=b"\xa5"):
        edge = 32
        buffers = [ctypes.create_string_buffer(filling * (room + 2 * edge)) for room in (room, fault_room)]
        length, fault_length, floods = ctypes.c_size_t(2 ** 60), ctypes.c_size_t(2 ** 60), ctypes.c_uint64(2 ** 60)
        queues, good = ctypes.c_uint32(2 ** 30), ctypes.c_uint32(2 ** 30)
        status = self.good_queues(text, len(text), given, len(given), ctypes.byref(buffers[0], edge), room, length,
                                  queues, good, ctypes.byref(buffers[1], edge), fault_room, fault_length, floods)
        bits, fault = written_by(buffers, edge, (length, fault_length), filling)
        return Bits(status, bits, queues.value, good.value, fault, floods.value)


def all_queues(words):
    """The queues of the pattern that the words name, in rising order, as the program lists them."""
    pattern = words[words.index(b"--patterns") + 1]
    listed = program([b"percent", *map(str.encode, NEVER), b"--patterns", pattern, b"--failed", b"10000000"])[1]
    return [line.split()[1] for line in listed.splitlines() if line.startswith(b"failed ")]


def bits_of(flags):
    """The bytes of these bits, from the lowest bit of each byte up."""
    size = (len(flags) + 7) // 8
    return sum(1 << at for at, flag in enumerate(flags) if flag).to_bytes(size, "little")


def wanted_bits(words, given):
    """What the library is to answer in enough room, by what the program writes for the same words."""
    status, _, fault = program(words, given)
    if status != NO_WORDS and words[:1] != [b"percent"] and not fault.startswith(OF_WORDS):
        return OTHER_COMMAND, b"", 0, 0, b""
    if status != DONE:
        return status, b"", 0, 0, fault
    everything = [word for at, word in enumerate(words) if b"--failed" not in (word, words[at - 1] if at else b"")]
    lines = program([*everything, b"--failed", b"10000000"], given)[1].splitlines()
    failed = {line.split()[1] for line in lines if line.startswith(b"failed ")}
    flags = [queue not in failed for queue in all_queues(words)]
    same([f"queues {len(flags)}".encode(), f"good {sum(flags)}".encode()], lines[-3:-1], "the program's numbers")
    return status, bits_of(flags), len(flags), sum(flags), b""


def compare_queues(library, words, given, draw):
    """Asks the library, in a room that is drawn, and the program."""
    status, bits, queues, good, fault = wanted_bits(words, given)
    room = draw.choice([len(bits), len(bits) + 9, max(len(bits) - 1, 0), 0])
    fault_room = draw.choice([FAULT_ROOM, draw.randint(0, FAULT_ROOM)])
    text = b"".join(word + b"\0" for word in words)
    found = library.queues_of(text, given, room, fault_room)
    if status == DONE and room < len(bits):
        same(found, (NO_ROOM, b"", queues, 0, b"", 0), f"a room of {room} for {queues} queues")
        return found
    same(found[:5], (status, bits, queues, good, fault[:fault_room]), f"rooms of {room} and {fault_room}")
    same(found.floods, library.call(text, given, 10000).floods if status == DONE else 0, "floods")
    return found


QUEUES = Family("queue", QueueLibrary, of_percent, 20, compare_queues,
                (DONE, FAULT, NO_ROOM, NO_WORDS, OTHER_COMMAND), 400)
