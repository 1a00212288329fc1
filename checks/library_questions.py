"""Questions that the C library and the program are both asked, and what must agree; for checks/embed."""
import collections
import ctypes
import os
import random
import subprocess
from concurrent.futures import ProcessPoolExecutor

from agree_questions import PIECES, Differs, Question, page_line, same, table_entry

TOP = os.path.dirname(os.path.dirname(os.path.realpath(__file__)))
PROGRAM = os.environ.get("PC_PROGRAM", os.path.join(TOP, "crates", "pc_cli", "out", "pc_cli"))
DONE, FAULT, NO_ROOM, NO_WORDS, OTHER_COMMAND = 0, 2, 4, 6, 7
FAULT_ROOM = 128
# The faults of words, which are those of each command.
OF_WORDS = (b"input: Words.", b"input: Kicks.")


def program(words, given=b""):
    """The status of the program, and what it writes."""
    streams = {"stdout": subprocess.PIPE, "stderr": subprocess.PIPE, "close_fds": False}
    done = subprocess.run([PROGRAM.encode(), *words], input=given, timeout=120, **streams)
    return done.returncode, done.stdout, done.stderr


def wrote(words, given=""):
    """What the program writes to standard output, as text."""
    return program([word.encode() for word in words], given.encode())[1].decode()


def written_by(buffers, edge, counts, filling):
    """What a call wrote to buffers, each with so much beside its room on either side. No other byte may change."""
    written = []
    for buffer, count in zip(buffers, counts):
        seen, room = buffer.raw[:-1], len(buffer) - 1 - 2 * edge
        if count.value > room:
            raise Differs(f"{count.value} bytes are told of a room of {room}")
        kept = seen[:edge], seen[edge + count.value:].strip(filling)
        same(kept, (filling * edge, b""), "bytes that are left alone")
        written.append(seen[edge:edge + count.value])
    return written


Call = collections.namedtuple("Call", "status output fault floods")


class Library:
    """The library as it is, and what its contract says of the bytes that a call leaves alone."""

    def __init__(self, path):
        size, number = ctypes.c_size_t, ctypes.POINTER(ctypes.c_size_t)
        self.run = ctypes.CDLL(path).voidosier_run
        self.run.argtypes = [ctypes.c_void_p, size, ctypes.c_void_p, size, ctypes.c_void_p, size, number,
                             ctypes.c_void_p, size, number, ctypes.POINTER(ctypes.c_uint64)]
        self.run.restype = ctypes.c_uint8

    def call(self, text, given, room, fault_room=FAULT_ROOM, filling=b"\xa5"):
        edge = 32
        buffers = [ctypes.create_string_buffer(filling * (room + 2 * edge)) for room in (room, fault_room)]
        texts = [ctypes.create_string_buffer(text), ctypes.create_string_buffer(given)]
        length, fault_length, floods = ctypes.c_size_t(2 ** 60), ctypes.c_size_t(2 ** 60), ctypes.c_uint64(2 ** 60)
        status = self.run(texts[0], len(text), texts[1], len(given), ctypes.byref(buffers[0], edge), room, length,
                          ctypes.byref(buffers[1], edge), fault_room, fault_length, floods)
        written = written_by(buffers, edge, (length, fault_length), filling)
        same((texts[0].raw[:-1], texts[1].raw[:-1]), (text, given), "the words and the input behind a call")
        return Call(status, *written, floods.value)


def compare(library, words, given=b"", draw=None):
    """Asks the library and the program, and gives the library's answer. By draw the rooms of the buffers are drawn."""
    status, output, fault = program(words, given)
    room, fault_room = len(output) + 64, FAULT_ROOM
    if draw and draw.random() < 0.5:
        room = draw.choice([len(output), draw.randint(0, len(output) + 8)])
        fault_room = draw.choice([FAULT_ROOM, len(fault), draw.randint(0, FAULT_ROOM)])
    found = library.call(b"".join(word + b"\0" for word in words), given, room, fault_room)
    if status == DONE and room < len(output):
        same(found[:3], (NO_ROOM, output[:room], b""), f"a room of {room}")
        return found
    same(found[:3], (status, output, fault[:fault_room]), f"rooms of {room} and {fault_room}")
    if status != DONE:
        same(found.floods, 0, "floods")
    elif output.splitlines()[-1:] and output.splitlines()[-1].startswith(b"floods "):
        same(found.floods, int(output.split()[-1]), "floods")
    return found


# Random questions: each gives the words and the input.

def lines_by(library, *words, given=""):
    """The lines of the library's answer."""
    text = "".join(f"{word}\0" for word in words).encode()
    return library.call(text, given.encode(), 10000).output.decode().splitlines()


def of_path(draw, library):
    words = Question(draw).words()
    if draw.random() < 0.15:
        words += ["--after", draw.choice(lines_by(library, *words, "--limit", "3")[:-1] or ["I0:5,3 O0:4,0"])]
    for option, values in (("--limit", ["1", "7", "40"]), ("--keys", ["yes", "no"]), ("--held", PIECES),
                           ("--format", ["text", "fumen", "grid"]), ("--stats", ["yes"])):
        if draw.random() < 0.3:
            words += [option, draw.choice(values)]
    return words, ""


def of_percent(draw, library):
    return Question(draw).words("percent") + ["--failed", str(draw.choice([0, 3, 1000]))], ""


def of_cover(draw, library):
    question = Question(draw)
    listed = lines_by(library, *question.words())
    draw.shuffle(listed)
    return question.words("cover"), "\n".join(listed[:8])


def of_combo(draw, library):
    widths = [draw.randint(0, 4) for _ in range(draw.randint(1, 6))]
    rows = ["X" * 3 + "_" * width + "X" * (7 - width) for width in widths]
    queue = "".join(draw.choice(PIECES) for _ in range(draw.randint(1, 6)))
    return ["combo", "--rows", "/".join(rows), "--patterns", queue], ""


def of_encode(draw, library):
    lines = "".join(page_line(draw) + draw.choice(["\n", "\r\n"]) for _ in range(draw.randint(0, 9)))
    return ["encode", "--dialect", draw.choice(["110", "115"])], lines


def of_fumen(draw, library):
    words, lines = of_encode(draw, library)
    text = "\n".join(lines_by(library, *words, given=lines))
    if text and draw.random() < 0.3:
        at = draw.randrange(len(text))
        text = text[:at] + draw.choice(["", "A", "-", "\0", "ä", "?"]) + text[at + draw.randint(0, 2):]
    return draw.choice([["decode"], ["show"], ["show", "--page", str(draw.randint(1, 9))]]), text


def of_kicks(draw, library):
    pieces = draw.sample(PIECES, draw.randint(0, 3))
    return ["kicks", "--kicks", ";".join(table_entry(draw, piece) for piece in pieces)], ""


def of_selfrun(draw, library):
    return ["selfrun", "--number", str(draw.randrange(2 ** 32)), "--pages", str(draw.randint(1, 9))], ""


KINDS = [of_path] * 8 + [of_percent] * 4 + [of_cover] * 3 + [of_combo, of_encode, of_fumen, of_kicks] * 2 + [of_selfrun]
ODD = [b"", b"-", b"0", b"3", b"path", b"--rows", b"--limit", b"TIO", "ä".encode(), b"\xff", b"\xed\xa0\x80", b"\xc3"]


def spoiled(draw, words):
    """The words with one of them missing, twice, at another place, or another one."""
    at, to = draw.randrange(len(words)), draw.randrange(len(words))
    changed = draw.randrange(4)
    if changed == 0:
        return words[:at] + words[at + 1:]
    if changed == 1:
        return words[:to] + [words[at]] + words[to:]
    words = list(words)
    words[to] = words[at] if changed == 2 else draw.choice(ODD)
    return words


# A family of random questions: its name, the class of the library that has the call, the kind of most of its questions
# (None: of all kinds), how many of a hundred have spoiled words, what asks the library and the program, and the
# statuses that must come up once there are this many questions.
Family = collections.namedtuple("Family", "name library mostly spoiled compare statuses many")


def ask_some(family, path, first, count):
    """Asks so many random questions. Gives how often each status was answered, and what differs."""
    library, seen, failed = family.library(path), collections.Counter(), []
    for seed in range(first, first + count):
        draw = random.Random(f"{family.name} {seed}")
        kind = family.mostly if family.mostly and draw.random() < 0.85 else draw.choice(KINDS)
        words, given = kind(draw, library)
        words = [word.encode() for word in words]
        if draw.randrange(100) < family.spoiled:
            words = spoiled(draw, words)
        try:
            seen[family.compare(library, words, given.encode(), draw).status] += 1
        except (Differs, subprocess.TimeoutExpired) as why:
            failed.append(f"{family.name} question {seed}: {why}\n    {words} {given!r}")
    return seen, failed


def ask_family(family, path, count):
    """Asks so many random questions, side by side. Gives what differs."""
    step = 50
    seen, failed = collections.Counter(), []
    with ProcessPoolExecutor(os.cpu_count()) as pool:
        parts = [(family, path, first, min(step, count - first)) for first in range(0, count, step)]
        for some, differ in pool.map(ask_some, *zip(*parts)):
            seen += some
            failed += differ
    ends = ", ".join(f"status {it}: {seen[it]}" for it in sorted(seen))
    print(f"embed: the {family.name} questions end with {ends}")
    lacking = [status for status in family.statuses if count >= family.many and not seen[status]]
    return failed[:20] + [f"no {family.name} question ends with status {status}" for status in lacking]


RUNS = Family("random", Library, None, 15, compare, (DONE, FAULT, NO_ROOM, NO_WORDS), 1000)
