"""Climb lists and their steps: builders for tests, a reader of climb text, up and down on
tables, walks, and the tally of demand 3.

Written from document 01, section "Climbing", and 02, Ask 6, whose sentences the comments quote.
Shares nothing with the proved code; the tally shares nothing with up, down and walks.
"""

import re
from functools import lru_cache
from typing import NamedTuple

# 01, "Numbers given back".
DONE = 0
OVER_LIMIT = 9
NO_ROOM = 12
NOT_OF_FORM = 13
NOT_ALLOWED = 14
DISAGREES = 15
NO_STEP = 16
NOT_AS_NEEDED = 18

# 01, "Sizes".
COUNT_LIMIT = 65536
STEP_LIMIT = 4096
MOVE_LIMIT = 64
FACE_LIMIT = 64

# 02, Ask 6: a request of a walk (a "wish") is a direction and a count, refused "above 4,096".
REQUEST_UP = 0
REQUEST_DOWN = 1
REQUEST_LIMIT = 4096

# Records of the tables, in numbers.
POSITION_SIZE = 3
CORNERS = 3
CORNER_SIZE = 6
FACE_SIZE = 1 + CORNERS * CORNER_SIZE
ABSENT = 0xFFFFFFFF

# The step table: base positions, base faces, step count; of a step, all before its moves.
HEAD_SIZE = 3
STEP_SIZE = 6


class Step(NamedTuple):
    """`place` is x, y, z as bit patterns; a move is (face, corner); a new face its shading and
    three positions."""

    split: int
    place: tuple = (0, 0, 0)
    moves: tuple = ()
    faces: tuple = ()


class ClimbList(NamedTuple):
    positions: int
    faces: int
    steps: tuple = ()


# Builders.

def climb_text(climb):
    """The text of a list."""
    lines = ["climb\t1\t%d\t%d" % (climb.positions, climb.faces)]
    for step in climb.steps:
        lines.append("split\t%d\t%08x\t%08x\t%08x" % (step.split, *step.place))
        lines += ["move\t%d\t%d" % move for move in step.moves]
        lines += ["face\t%d\t%d\t%d\t%d" % face for face in step.faces]
    lines.append("end\t%d" % len(climb.steps))
    return "".join(line + "\n" for line in lines).encode("ascii")


def step_table(climb):
    """01: "base positions, base faces, step count, then per step: split, x, y, z, m, n, m pairs,
    n fours, and nothing after"."""
    table = [climb.positions, climb.faces, len(climb.steps)]
    for step in climb.steps:
        table += [step.split, *step.place, len(step.moves), len(step.faces)]
        table += [number for record in step.moves + step.faces for number in record]
    return table


# The reader of climb text.

class _Refused(Exception):
    """The number given back."""


def read_climb(text, table):
    """Answers (number, place, words). A refusal leaves the table as it is."""
    reader = _Text(text)
    try:
        words = step_table(reader.climb())
    except _Refused:
        return NOT_OF_FORM, reader.number, 0
    if len(words) > len(table):
        return NO_ROOM, 0, 0  # 01: the climb text judges 12 last
    table[:len(words)] = words
    return DONE, 0, len(words)


class _Text:
    """The line that is judged: its number from 1, and its fields. What no line feed ends is no
    line."""

    def __init__(self, text):
        *self.lines, self.unended = text.split(b"\n")
        self.number = 0
        self.fields = []

    def need(self, condition):
        if not condition:
            raise _Refused(NOT_OF_FORM)

    def next(self):
        self.number += 1
        self.need(self.number <= len(self.lines))
        self.fields = self.lines[self.number - 1].split(b"\t")

    def word(self):
        return self.fields[0]

    def count(self, fields):
        """The line has so many fields after its word."""
        self.need(len(self.fields) == 1 + fields)

    def decimal(self, field, limit=2 ** 32 - 1):
        """01: "decimals without leading zeros", "every number below 2^32"."""
        text = self.fields[field]
        self.need(re.fullmatch(b"0|[1-9][0-9]{0,9}", text))
        self.need(int(text) <= limit)
        return int(text)

    def pattern(self, field):
        """01: "bit patterns as 8 lower-case hexadecimal digits"."""
        self.need(re.fullmatch(b"[0-9a-f]{8}", self.fields[field]))
        return int(self.fields[field], 16)

    def climb(self):
        self.next()
        self.need(self.word() == b"climb")
        self.count(3)
        self.need(self.fields[1] == b"1")
        base = self.decimal(2, COUNT_LIMIT), self.decimal(3, COUNT_LIMIT)
        self.next()
        steps = self.records(b"split", STEP_LIMIT, self.step)
        self.end(len(steps))
        return ClimbList(*base, steps)

    def records(self, word, limit, record):
        """As many of a kind as follow; one past the limit is refused at its line."""
        found = []
        while self.word() == word:
            self.need(len(found) < limit)
            found.append(record())
        return tuple(found)

    def step(self):
        self.count(4)
        split, place = self.decimal(1), tuple([self.pattern(field) for field in (2, 3, 4)])
        self.next()
        moves = self.records(b"move", MOVE_LIMIT, self.move)
        return Step(split, place, moves, self.records(b"face", FACE_LIMIT, self.face))

    def move(self):
        self.count(2)
        move = self.decimal(1), self.decimal(2, CORNERS - 1)
        self.next()
        return move

    def face(self):
        self.count(4)
        face = tuple([self.decimal(field) for field in (1, 2, 3, 4)])
        self.next()
        return face

    def end(self, steps):
        """The last line; one that follows, ended or not, is refused by its own number."""
        self.need(self.word() == b"end")
        self.count(1)
        self.need(self.decimal(1) == steps)
        self.number += 1
        self.need(self.number > len(self.lines) and not self.unended)


# Up and down.

class Counts(NamedTuple):
    """The present counts: "state, by value, in and out"."""

    positions: int
    faces: int


@lru_cache(maxsize=4)
def list_of(words):
    """The list of a step table (a tuple: a long one is read once for many steps), None where it is
    not of the form."""
    try:
        return _Words(words).climb()
    except _Refused:
        return None


class _Words:
    """A step table, and how much of it is read."""

    def __init__(self, words):
        self.words = words
        self.at = 0

    def take(self, count):
        self.at += count
        if self.at > len(self.words):
            raise _Refused(NOT_OF_FORM)
        return tuple(self.words[self.at - count:self.at])

    def climb(self):
        positions, faces, count = self.take(HEAD_SIZE)
        if max(positions, faces) > COUNT_LIMIT or count > STEP_LIMIT:
            raise _Refused(NOT_OF_FORM)
        steps = tuple([self.step() for _ in range(count)])
        if self.at != len(self.words):
            raise _Refused(NOT_OF_FORM)
        return ClimbList(positions, faces, steps)

    def step(self):
        split, *place, moves, faces = self.take(STEP_SIZE)
        if moves > MOVE_LIMIT or faces > FACE_LIMIT:
            raise _Refused(NOT_OF_FORM)
        pairs = tuple([self.take(2) for _ in range(moves)])
        if any(corner >= CORNERS for _, corner in pairs):
            raise _Refused(NOT_OF_FORM)
        return Step(split, tuple(place), pairs, tuple([self.take(4) for _ in range(faces)]))


def up(words, shadings, faces, positions, counts):
    """Answers (number, counts). A refusal leaves the tables and the counts as they are."""
    climb = list_of(words)
    number, at = _judge_counts(climb, counts)
    if number == DONE and at == len(climb.steps):
        number = NO_STEP
    if number != DONE:
        return number, counts
    step = climb.steps[at]
    after = Counts(counts.positions + 1, counts.faces + len(step.faces))
    number = _judge_up(step, shadings, faces, positions, counts, after)
    if number != DONE:
        return number, counts
    _write_corners(faces, step.moves, counts.positions)
    _write_new(faces, positions, counts, _new_faces(step), step.place)
    return DONE, after


def down(words, shadings, faces, positions, counts):
    """Answers as `up`; "takes the step before"."""
    climb = list_of(words)
    number, at = _judge_counts(climb, counts)
    if number == DONE and at == 0:
        number = NO_STEP
    if number != DONE:
        return number, counts
    step = climb.steps[at - 1]
    after = Counts(counts.positions - 1, counts.faces - len(step.faces))
    number = _judge_down(step, shadings, faces, positions, counts, after)
    if number != DONE:
        return number, counts
    _write_corners(faces, step.moves, step.split)
    _write_new(faces, positions, after, [0] * FACE_SIZE * len(step.faces), (0,) * POSITION_SIZE)
    return DONE, after


def _judge_counts(climb, counts):
    """13, then 15: "positions below base, or faces unlike base plus new faces so far; too many
    steps counts as 15". Answers the number, and k."""
    if climb is None:
        return NOT_OF_FORM, 0
    at = counts.positions - climb.positions
    if not 0 <= at <= len(climb.steps):
        return DISAGREES, 0
    if counts.faces != climb.faces + sum(len(step.faces) for step in climb.steps[:at]):
        return DISAGREES, 0
    return DONE, at


def _fits(counts, faces, positions):
    return (max(counts) <= COUNT_LIMIT and counts.positions * POSITION_SIZE <= len(positions)
            and counts.faces * FACE_SIZE <= len(faces))


def _judge_up(step, shadings, faces, positions, counts, after):
    """12, 14, 18."""
    if not (_fits(counts, faces, positions) and _fits(after, faces, positions)):
        return NO_ROOM
    if not _numbers_allowed(step, shadings, counts):
        return NOT_ALLOWED
    if any(faces[_corner_at(*move)] != step.split for move in step.moves):
        return NOT_ALLOWED
    new = _new_parts(faces, positions, counts, after)
    return NOT_AS_NEEDED if any(map(any, new)) else DONE


def _judge_down(step, shadings, faces, positions, counts, after):
    """12, 14, 18. 01: "its number rules are those at r-1 positions; the tables must show all that
    up wrote (18)"."""
    if not (_fits(counts, faces, positions) and _fits(after, faces, positions)):
        return NO_ROOM
    if not _numbers_allowed(step, shadings, after):
        return NOT_ALLOWED
    shown = all(faces[_corner_at(*move)] == after.positions for move in step.moves)
    new = _new_parts(faces, positions, after, counts)
    if not shown or new != (list(step.place), _new_faces(step)):
        return NOT_AS_NEEDED
    return DONE


def _numbers_allowed(step, shadings, lower):
    """The rules on the step's numbers, at the counts that are the lower ones."""
    return (step.split < lower.positions
            and all(face < lower.faces for face, _ in step.moves)
            and len(set(step.moves)) == len(step.moves)
            and all(_face_allowed(face, step.split, shadings, lower.positions) for face in step.faces))


def _face_allowed(face, split, shadings, new):
    """01: "shading below the shading count and its positions are r, s and some t < r, t not s, in
    any order"."""
    shading, *corners = face
    others = [corner for corner in corners if corner not in (new, split)]
    return (shading < shadings and new in corners and split in corners
            and len(others) == 1 and others[0] < new)


def _corner_at(face, corner):
    return face * FACE_SIZE + 1 + corner * CORNER_SIZE


def _new_parts(faces, positions, lower, upper):
    """What the tables hold between two counts."""
    return (positions[lower.positions * POSITION_SIZE:upper.positions * POSITION_SIZE],
            faces[lower.faces * FACE_SIZE:upper.faces * FACE_SIZE])


def _new_faces(step):
    """01: "other corner fields 0xFFFFFFFF"."""
    words = []
    for shading, *corners in step.faces:
        words.append(shading)
        for corner in corners:
            words += [corner] + [ABSENT] * (CORNER_SIZE - 1)
    return words


def _write_corners(faces, moves, value):
    for move in moves:
        faces[_corner_at(*move)] = value


def _write_new(faces, positions, lower, new_faces, place):
    at = lower.faces * FACE_SIZE
    faces[at:at + len(new_faces)] = new_faces
    at = lower.positions * POSITION_SIZE
    positions[at:at + POSITION_SIZE] = place


def walk(requests, step):
    """The number and the granted steps of a walk. `step` asks for one step, up (True) or down, and
    answers its number: 02 has "asking one step at a time up to and including that refusal"."""
    granted = 0
    for direction, count in requests:
        if count > REQUEST_LIMIT or direction not in (REQUEST_UP, REQUEST_DOWN):
            return OVER_LIMIT, granted
        for _ in range(count):
            number = step(direction == REQUEST_UP)
            if number != DONE:
                return number, granted
            granted += 1
    return DONE, granted


# The tally.

class Tally:
    """01: "knows only base mesh, shading count, climb list, table lengths and the calls". Faces are
    records of 19 numbers, positions of 3; `lengths` are those of faces and positions."""

    def __init__(self, faces, positions, shadings, words, lengths):
        self.base = [list(face) for face in faces], [list(position) for position in positions]
        self.shadings = shadings
        self.words = list(words)
        self.lengths = lengths
        self.k = 0

    def call(self, is_up):
        """The answer's number. 01: "A refusal leaves k"."""
        steps = _tally_steps(self.words)
        if steps is None:
            return 13
        if not is_up:
            if self.k == 0:
                return 16
            self.k -= 1
            return 0
        number = self.judge(steps)
        if number == 0:
            self.k += 1
        return number

    def walk(self, requests):
        """02: "takes a walk as those single steps, and a refused wish as a 9 that leaves k; it
        answers the walk with the first refusal's number, or 0 if there is none". Answers the number,
        and how many steps were granted."""
        for granted, is_up in enumerate(_tally_asks(requests)):
            number = 9 if is_up is None else self.call(is_up)
            if number != 0:
                return number, granted
        return 0, sum(count for _, count in requests)

    def judge(self, steps):
        """Up, after 13."""
        if self.k == len(steps):
            return 16
        faces, positions = self.mesh(self.k)
        step = steps[self.k]
        after = len(faces) + len(step["faces"]), len(positions) + 1
        fits = 19 * after[0] <= self.lengths[0] and 3 * after[1] <= self.lengths[1]
        if not fits or max(after) > 65536:
            return 12
        return 0 if self.allowed(step, faces, len(positions)) else 14

    def allowed(self, step, faces, r):
        """Up's rules for a step on a mesh."""
        s, seen = step["split"], []
        if not s < r:
            return False
        for face, corner in step["moves"]:
            if (face, corner) in seen or not face < len(faces) or faces[face][1 + 6 * corner] != s:
                return False
            seen.append((face, corner))
        for shading, *corners in step["faces"]:
            t = sum(corners) - r - s
            if not shading < self.shadings or sorted(corners) != sorted([r, s, t]):
                return False
            if not 0 <= t < r or t == s:
                return False
        return True

    def mesh(self, k):
        """01: "mesh k+1 is mesh k with step k laid on it, by the writes stated above for up"."""
        faces = [list(face) for face in self.base[0]]
        positions = [list(position) for position in self.base[1]]
        for step in _tally_steps(self.words)[:k] if k else ():
            for face, corner in step["moves"]:
                faces[face][1 + 6 * corner] = len(positions)
            for shading, *corners in step["faces"]:
                faces.append([shading] + [field for corner in corners
                                          for field in (corner, *[0xFFFFFFFF] * 5)])
            positions.append(step["place"])
        return faces, positions

    def tables(self):
        """Mesh k as tables of faces and positions, "all room past it 0"."""
        parts = [[number for record in records for number in record] for records in self.mesh(self.k)]
        return tuple(part + [0] * (length - len(part)) for part, length in zip(parts, self.lengths))

    def counts(self):
        """Positions, faces."""
        faces, positions = self.mesh(self.k)
        return len(positions), len(faces)


def _tally_asks(requests):
    """For each single step whether it is up, and None for a request that is refused."""
    for direction, count in requests:
        yield from [None] if count > 4096 or direction > 1 else [direction == 0] * count


def _tally_steps(words):
    """The steps of a list, None where it is not of the form."""
    rest = iter(words)
    steps = []
    try:
        base, count = (next(rest), next(rest)), next(rest)
        good = max(base) <= 65536 and count <= 4096
        while good and len(steps) < count:
            step = {"split": next(rest), "place": [next(rest), next(rest), next(rest)]}
            m, n = next(rest), next(rest)
            good = m <= 64 and n <= 64
            step["moves"] = [(next(rest), next(rest)) for _ in range(m if good else 0)]
            step["faces"] = [tuple([next(rest) for _ in range(4)]) for _ in range(n if good else 0)]
            good = good and all(corner <= 2 for _, corner in step["moves"])
            steps.append(step)
    except StopIteration:
        return None
    return steps if good and not list(rest) else None
