"""Random questions, for checks/agree and checks/embed: a field that pieces can fill, a pattern that is about as long as is needed,
and options; lines of pages, entries of a table of offsets, and what is raised where answers differ."""
import itertools

PIECES = "ILOZTJS"
SHAPES = {  # the cells of each piece in rotation 0, from its pivot
    "I": [(-1, 0), (0, 0), (1, 0), (2, 0)], "L": [(-1, 0), (0, 0), (1, 0), (1, 1)], "O": [(0, 0), (1, 0), (0, 1), (1, 1)],
    "Z": [(-1, 1), (0, 1), (0, 0), (1, 0)], "T": [(-1, 0), (0, 0), (1, 0), (0, 1)], "J": [(-1, 1), (-1, 0), (0, 0), (1, 0)],
    "S": [(-1, 0), (0, 0), (0, 1), (1, 1)]}


class Differs(Exception):
    pass


def same(found, wanted, of):
    if found != wanted:
        raise Differs(f"{of}: {found!r} beside {wanted!r}")


def cells_of(placement):
    """The cells of a placement as the program writes it, of whatever rotation."""
    piece, rotation = placement[0], "0R2L".index(placement[1])
    x, y = map(int, placement[3:].split(","))
    cells = SHAPES[piece]
    for _ in range(rotation):
        cells = [(dy, -dx) for dx, dy in cells]
    return frozenset((x + dx, y + dy) for dx, dy in cells)


def field_of(draw, height, needed):
    """Rows, the highest first, of which so many fours of cells are empty and none is full."""
    while True:
        width = draw.randint(2, 5)
        first = draw.randint(0, 10 - width)
        block = [(x, y) for y in range(height) for x in range(first, first + width)]
        if len(block) < 4 * needed:
            continue
        empty = set(block)
        while len(empty) > 4 * needed:
            empty.discard(draw.choice(sorted(empty)))
        rows = ["".join("_" if (x, y) in empty else "X" for x in range(10)) for y in reversed(range(height))]
        if all("_" in row for row in rows):
            return rows


def pattern_of(draw, needed):
    """The elements of a pattern that is long enough, and at most one piece longer."""
    left = needed + draw.randint(0, 1)
    elements = []
    while left > 0:
        count = draw.randint(1, min(left, 4))
        kind = draw.randint(0, 3)
        if kind == 0 or count == 1 and kind == 1:
            elements.append(draw.choice(PIECES))
            count = 1
        elif kind == 1:
            pieces = draw.sample(PIECES, draw.randint(count, 7))
            elements.append("[" + "".join(pieces) + "]" + f"p{count}")
        else:
            elements.append("*" if count == 1 else f"*p{count}")
        left -= count
    return elements


def queues_of(elements):
    """The queues of a pattern, in order."""
    choices = []
    for element in elements:
        pieces, _, count = element.partition("p")
        named = [piece for piece in PIECES if pieces == "*" or piece in pieces]
        choices.append(["".join(choice) for choice in itertools.permutations(named, int(count or 1))])
    return ["".join(queue) for queue in itertools.product(*choices)]


class Question:
    def __init__(self, draw, highest=4):
        self.height = draw.randint(1, highest)
        # each row has an empty cell
        self.needed = draw.randint((self.height + 3) // 4, min(4, self.height * 5 // 4))
        self.rows = field_of(draw, self.height, self.needed)
        self.elements = pattern_of(draw, self.needed)
        self.hold = draw.choice(["use", "avoid"])
        self.drop = draw.choice(["soft", "hard"])

    def words(self, command="path", rows=None, elements=None, drop=None):
        return [command, "--rows", "/".join(rows or self.rows), "--clear-line", str(self.height), "--patterns",
                ",".join(elements or self.elements), "--hold", self.hold, "--drop", drop or self.drop]


def page_line(draw):
    """A line of a page, as decode writes it."""
    rows = ["".join(draw.choice("_____ILOZTJSX") for _ in range(10)) for _ in range(draw.randint(0, 23))]
    while rows and rows[0] == "_" * 10:
        rows.pop(0)
    garbage = draw.choice(["", "".join(draw.choice("_X") for _ in range(9)) + "X"])
    operation = "-" if draw.random() < 0.4 else f"{draw.choice('LZTJS')}{draw.choice('0R2L')}:{draw.randint(1, 8)},{draw.randint(1, 21)}"
    flags = "".join(letter if draw.random() < 0.5 else "-" for letter in "rmcl")
    comment = draw.choice(["-", "#", "#hello", "#%u3042%20x", "#" + "a" * draw.randint(1, 200)])
    return f"{'/'.join(rows)}|{garbage} {operation} {flags} {comment}"


def table_entry(draw, piece):
    """An entry of a table of offsets."""
    offsets = "/".join(f"{draw.randint(-3, 3)},{draw.randint(-3, 3)}" for _ in range(5))
    return f"{piece}{draw.choice('0R2L')}:{offsets}"
