"""Calls of up, down and walks, as a stored file tells them, and all that they answer.

A file: U32 lengths of the face table, the position table and the step table; U32 sizes of the
declaration's data, the continuation's data and the climb text; these three parts; and to the end
calls of three U32: operation, a, b. The mesh is read first, then the text into the step table,
then the calls are made. Words of the tables are FILL before. A refused mesh has no counts and no
shadings; of a refused text no words are lent. A walk is told request by request, and answers
after each what it has come to.
"""

import re
from typing import NamedTuple

from u3d import blocks, climb, mesh
from u3d.blocks import PROGRAM_LIMIT
from u3d.climb import COUNT_LIMIT, Counts, Tally

FILL = 0xA5A5A5A5

# Operations; a store outside of its table does nothing, a length above a table's is the table's.
UP = (0, 0, 0)
DOWN = (1, 0, 0)
SET_FACE = 2  # word a of the face table is b
SET_POSITION = 3
SET_STEP = 4
SET_COUNTS = 5  # a positions, b faces
SET_SHADINGS = 6
LEND_STEPS = 7  # the first a words
BREATHE = 8  # a times up to a refusal and down to one, at most b steps each way
LEND_TABLES = 9  # the first a words of the face table, b of the position table
FILL_STEPS = 10  # the step table from a on
WALK = 11  # a request, direction a and count b, that begins a walk
WALK_ON = 12  # one more request of the same walk, right after the one before

# The rooms of the program: 65,537 records, and 4,097 steps.
ROOMS = (65537 * climb.FACE_SIZE, 65537 * climb.POSITION_SIZE,
         climb.HEAD_SIZE + 4097 * climb.STEP_SIZE)
POOL_ROOM = 4096
# Tables that breathe are compared with copies.
COPY_ROOM = 8192


class Case(NamedTuple):
    """`answer` is the text's number and place, `numbers` those of each up and down, and for a
    request the number and the granted steps of its walk so far; by hand, or None. `lengths` are those of
    faces, positions and steps."""

    name: str
    declaration: bytes
    continuation: bytes
    text: bytes
    lengths: tuple
    calls: tuple = ()
    answer: tuple = None
    numbers: tuple = None


class Differs(Exception):
    """An answer that is not the one by hand, or not the tally's."""


def stored(case):
    """The file that the program reads."""
    parts = case.declaration, case.continuation, case.text
    head = mesh.words([*case.lengths, *map(len, parts)])
    data = head + b"".join(parts) + b"".join(mesh.words(call) for call in case.calls)
    if len(data) > PROGRAM_LIMIT or any(map(int.__gt__, case.lengths, ROOMS)):
        raise ValueError("%s: %d bytes" % (case.name, len(data)))
    return data


def checksum(table):
    total = 2166136261
    for word in table:
        total = (total * 16777619 + word) % 2 ** 32
    return "%08x" % total


class Walked(NamedTuple):
    """A walk: the tally's k where it began, its requests, and its number and granted steps so far."""

    k: int
    requests: tuple = ()
    number: int = climb.DONE
    granted: int = 0


class Session:
    """The tables, the counts and what is lent of the tables, before the first call."""

    def __init__(self, case):
        faces, positions, steps = ([FILL] * length for length in case.lengths)
        others = [[0] * POOL_ROOM for _ in range(4)]
        self.read = mesh.read_mesh(case.declaration, case.continuation, [faces, positions, *others])
        self.faces, self.positions = self.read.tables[:2]
        self.counts = Counts(self.read.counts[mesh.POSITIONS], self.read.counts[mesh.FACES])
        self.shadings = self.read.shading_count
        self.steps = steps
        self.answer = climb.read_climb(case.text, steps)
        self.lent = [len(faces), len(positions), self.answer[2]]
        self.words = tuple(steps[:self.lent[2]])
        self.tally = self.new_tally()
        self.walked = None

    def new_tally(self):
        """Where both are read, and the list states the base's counts."""
        if self.read.number or self.answer[0] or self.words[:2] != self.counts:
            return None
        records = [records_of(table, count, size) for table, count, size in (
            (self.faces, self.counts.faces, climb.FACE_SIZE),
            (self.positions, self.counts.positions, climb.POSITION_SIZE))]
        return Tally(*records, self.shadings, self.words, self.lent[:2])

    def step(self, is_up):
        """The number of an up or a down."""
        self.walked = None
        number = self.take(is_up)
        self.compare(lambda tally: tally.call(is_up), number)
        return number

    def take(self, is_up):
        """One step, on the parts that are lent."""
        faces, positions = self.faces[:self.lent[0]], self.positions[:self.lent[1]]
        move = climb.up if is_up else climb.down
        number, self.counts = move(self.words, self.shadings, faces, positions, self.counts)
        self.faces[:self.lent[0]], self.positions[:self.lent[1]] = faces, positions
        return number

    def request(self, request, begins):
        """What a walk has come to, number and granted steps, after one more request."""
        if begins:
            self.walked = Walked(self.tally and self.tally.k)
        k, requests, number, granted = self.walked
        if number == climb.DONE:
            number, more = climb.walk([request], self.take)
            granted += more
        self.walked = Walked(k, (*requests, request), number, granted)
        self.compare(self.tally_walk, (number, granted))
        return number, granted

    def tally_walk(self, tally):
        """The tally takes the walk whole, from where it began."""
        tally.k = self.walked.k
        return tally.walk(self.walked.requests)

    def compare(self, ask, answer):
        """The tally must agree, as long as nothing but calls has happened."""
        if self.tally is None:
            return
        counted = ask(self.tally), self.tally.counts(), self.tally.tables()
        if counted != (answer, self.counts, (self.faces, self.positions)):
            raise Differs("%s, by the tally %s" % (answer, counted[0]))

    def change(self, operation, a, b):
        """An operation that prints nothing."""
        self.tally = self.walked = None
        tables = {SET_FACE: self.faces, SET_POSITION: self.positions, SET_STEP: self.steps}
        if operation in tables and a < len(tables[operation]):
            tables[operation][a] = b
        elif operation == SET_COUNTS:
            self.counts = Counts(a, b)
        elif operation == SET_SHADINGS:
            self.shadings = a
        elif operation == LEND_STEPS:
            self.lent[2] = min(a, len(self.steps))
        elif operation == LEND_TABLES:
            self.lent[:2] = min(a, len(self.faces)), min(b, len(self.positions))
        elif operation == FILL_STEPS:
            self.steps[a:] = [b] * len(self.steps[a:])
        self.words = tuple(self.steps[:self.lent[2]])

    def breath(self, limit):
        """How many steps a breath takes."""
        return sum(self.run(is_up, limit) for is_up in (True, False))

    def run(self, is_up, limit):
        """Steps that way up to a refusal, at most so many."""
        taken = 0
        while taken < limit and self.step(is_up) == climb.DONE:
            taken += 1
        return taken

    def breathe(self, times, limit):
        """Steps in all, and whether all is as before. A breath that ends where it began would be
        the same again."""
        if max(len(self.faces), len(self.positions)) > COPY_ROOM:
            raise ValueError("tables too long to breathe")
        before, taken = self.tables(), 0
        for done in range(times):
            begun, steps = self.tables(), self.breath(limit)
            if self.tables() == begun:
                taken += (times - done) * steps
                break
            taken += steps
        return taken, "same" if self.tables() == before else "different"

    def tables(self):
        return self.counts, list(self.faces), list(self.positions)


def records_of(table, count, size):
    return [table[size * index:size * (index + 1)] for index in range(count)]


def output(case):
    """The lines of a file, as fields; what is by hand must agree."""
    session = Session(case)
    if case.answer is not None and session.answer[:2] != case.answer:
        raise Differs("text: %s, by hand %s" % (session.answer[:2], case.answer))
    yield "file", case.name
    yield "mesh", session.read.number, session.read.part, session.read.place
    yield "climb", *session.answer, checksum(session.steps)
    numbers = []
    for call in case.calls:
        yield from call_fields(session, call, numbers)
    if case.numbers is not None and tuple(numbers) != case.numbers:
        raise Differs("calls: %s, by hand %s" % (numbers, case.numbers))


def call_fields(session, call, numbers):
    """The line of a call, if it has one; `numbers` grows by its answer."""
    operation, a, b = call
    if call in (UP, DOWN):
        number = session.step(call == UP)
        numbers.append(number)
        yield "up" if call == UP else "down", number, 0, *session.counts, *table_fields(session)
    elif operation in (WALK, WALK_ON):
        answer = session.request((a, b), operation == WALK)
        numbers.append(answer)
        yield "walk" if operation == WALK else "on", *answer, *session.counts, *table_fields(session)
    elif operation == BREATHE:
        yield "breathed", *session.breathe(a, b)
    else:
        session.change(operation, a, b)


def table_fields(session):
    return checksum(session.faces), checksum(session.positions)


# The program climb_mesh.

# Lengths of its tables: all faces and positions, and more than a file of 64 KiB can hold of the
# other pools and of a climb list.
LISTING_ROOM = (COUNT_LIMIT * climb.FACE_SIZE, COUNT_LIMIT * climb.POSITION_SIZE, *(PROGRAM_LIMIT // 4,) * 4)
STEP_ROOM = 20480


def listing(data, text, calls):
    """The program's whole output, for a file that has a base mesh."""
    return "".join("\t".join(map(str, fields)) + "\n"
                   for fields in listing_fields(data, text, calls)).encode("ascii")


def listing_fields(data, text, calls):
    number, place, rows = blocks.walk(data, PROGRAM_LIMIT)
    yield "steps", 1
    yield "file", number, place
    made = 0
    if number == mesh.DONE:
        read = mesh.read_base(data, rows, mesh.base_meshes(rows)[0], LISTING_ROOM)
        part = "none" if read.number == mesh.DONE else mesh.PARTS[read.part]
        yield "mesh", read.number, part, read.place, read.counts[mesh.POSITIONS], read.counts[mesh.FACES]
        if read.number == mesh.DONE:
            made = yield from climb_fields(read, text, calls)
    yield "end", made


def climb_fields(read, text, calls):
    """The lines of the climb text and of the calls; answers how many were made."""
    steps = [0] * STEP_ROOM
    number, place, words = climb.read_climb(text, steps)
    if len(text) > PROGRAM_LIMIT:
        number, place, words = mesh.TOO_LARGE, 0, 0
    yield "climb", number, place, steps[2] if words else 0
    if number != climb.DONE:
        return 0
    counts = Counts(read.counts[mesh.POSITIONS], read.counts[mesh.FACES])

    def step(is_up):
        nonlocal counts
        move = climb.up if is_up else climb.down
        number, counts = move(tuple(steps[:words]), read.shading_count, *read.tables[:2], counts)
        return number

    made = calls_in(calls)
    for call in made:
        if call in "ud":
            yield call, step(call == "u"), *counts
        else:
            yield "walk", *climb.walk(requests_in(call), step), *counts
    return len(made)


def calls_in(word):
    """Letters that have a count after them stand together in a walk; any other is a call."""
    return re.findall("(?:[ud][0-9]+)+|[ud]", word)


def requests_in(call):
    return [("ud".index(letter), int(count)) for letter, count in re.findall("(.)([0-9]+)", call)]
