"""Climb texts, step tables and calls that show how a mesh is refined and coarsened.

Each named case gives the answers that document 01 asks for, worked out by hand: number and place
of the text, and the number of each up and down. Most use 01's example. Its words: 0 base
positions, 1 base faces, 2 step count, 3 split, 4 to 6 x, y and z, 7 moves, 8 new faces, 9 and 10
the move, 11 to 14 the new face. Its tables after up: the new position at 9 to 11, the moved
corner at 13, the new face from 19 to 37.

The 4,097th split can't be stored: 4,096 of them take 143,360 bytes. A step table of 4,097 steps
is made by a call.
"""

from u3d import blocks
from u3d.block_files import Dice
from u3d.climb import (
    ABSENT, CORNER_SIZE, FACE_SIZE, ClimbList, Step, climb_text, read_climb, step_table)
from u3d.climb_calls import (
    BREATHE, DOWN, FILL_STEPS, LEND_STEPS, LEND_TABLES, SET_COUNTS, SET_FACE, SET_POSITION,
    SET_SHADINGS, SET_STEP, UP, Case, Session)
from u3d.mesh import COUNT_LIMIT, FACES, Shading, base_meshes, declaration_data, face_record, read_base
from u3d.mesh_files import base_of, declared, many_faces, random_faces
from u3d.mesh_files import sample as mesh_sample

HUGE = 0xFFFFFFFF
# Room for the example and a few numbers more.
ROOM = (3 * FACE_SIZE + 7, 17, 40)
EXACT = (2 * FACE_SIZE, 12, 15)


# Meshes: (declaration's data, continuation's data).

def mesh_of(positions, corners, shadings=2):
    """Faces of shading 0 with these positions."""
    counts = (len(corners), positions, 0, 0, 0, 0)
    declaration = declared(counts, (Shading(),) * shadings)
    records = [face_record(declaration, 0, *[(corner,) for corner in face]) for face in corners]
    return declaration_data(declaration), base_of(declaration, counts, records)


TRIANGLE = mesh_of(3, [(0, 1, 2)])
EMPTY = mesh_of(0, [])
POINT = mesh_of(1, [])
# Position 0 is at six corners.
FAN_CORNERS = [(0, 1, 2), (0, 2, 3), (3, 0, 1), (0, 0, 1), (2, 3, 0)]
FAN = mesh_of(4, FAN_CORNERS)
FAN_ROOM = (12 * FACE_SIZE + 3, 3 * 9 + 1, 400)

# Lists.
EXAMPLE_LINES = ["climb\t1\t3\t1", "split\t2\t3f800000\t00000000\tbf800000", "move\t0\t2",
                 "face\t1\t1\t2\t3", "end\t1"]
EXAMPLE = ClimbList(3, 1, (Step(2, (0x3F800000, 0, 0xBF800000), ((0, 2),), ((1, 1, 2, 3),)),))
ONE, TWO, THREE = (0x3F800000, 0x40000000, 0x40400000), (1, 2, 3), (HUGE, 0x80000000, 0)


def text_of(lines):
    return "".join(line + "\n" for line in lines).encode("latin-1")


def with_line(number, line):
    """The example with another line of this number."""
    return text_of(EXAMPLE_LINES[:number - 1] + [line] + EXAMPLE_LINES[number:])


def text_case(name, number, place, text, length=ROOM[2], calls=None, numbers=None):
    """A text for the triangle; a refused one lends no words, so up is 13."""
    if calls is None:
        calls, numbers = (UP,), (13,) if number else None
    return Case("text-%02d-%s.climb" % (number, name), *TRIANGLE, text, (*ROOM[:2], length), calls,
                (number, place), numbers)


def calls_case(name, numbers, calls, climb=EXAMPLE, mesh=TRIANGLE, lengths=ROOM):
    return Case(name + ".climb", *mesh, climb_text(climb), lengths, tuple(calls), (0, 0),
                tuple(numbers))


def up_case(name, number, *changes, **fields):
    """One up after changes."""
    return calls_case("up-%02d-%s" % (number, name), (number,), (*changes, UP), **fields)


def down_case(name, number, *changes, **fields):
    """Up, changes, and down."""
    return calls_case("down-%02d-%s" % (number, name), (0, number), (UP, *changes, DOWN), **fields)


def steps_case(name, number, *steps, mesh=FAN, lengths=FAN_ROOM):
    """One up of a list for the fan."""
    return up_case(name, number, climb=ClimbList(4, 5, steps), mesh=mesh, lengths=lengths)


# Texts.

def good_texts():
    none, plain = ClimbList(3, 1), ClimbList(3, 1, (Step(0),) * 3)
    wide = ClimbList(3, 1, (Step(HUGE, THREE, ((HUGE, 0), (0, 1)), ((HUGE, HUGE, HUGE, HUGE),)),))
    both = UP, UP, DOWN, DOWN
    return [
        text_case("example", 0, 0, text_of(EXAMPLE_LINES), 40, both, (0, 16, 0, 16)),
        text_case("exact-table", 0, 0, text_of(EXAMPLE_LINES), 15, both, (0, 16, 0, 16)),
        text_case("no-steps", 0, 0, climb_text(none), 3, (UP, DOWN), (16, 16)),
        text_case("empty-steps", 0, 0, climb_text(plain), 21, (UP, UP, DOWN), (0, 0, 0)),
        text_case("widest-numbers", 0, 0, climb_text(wide), 40, (UP,), (14,)),
        text_case("base-limits", 0, 0, climb_text(ClimbList(COUNT_LIMIT, COUNT_LIMIT)), 3, (UP,), (15,)),
        text_case("base-0", 0, 0, climb_text(ClimbList(0, 0)), 3, (UP,), (15,)),
        text_case("no-room", 12, 0, text_of(EXAMPLE_LINES), 14),
        text_case("no-table", 12, 0, text_of(EXAMPLE_LINES), 0),
        text_case("no-room-no-steps", 12, 0, climb_text(none), 2),
        text_case("before-12", 13, 5, with_line(5, "end\t2"), 0),
    ]


BAD_NUMBERS = {"zero-before": "01", "empty": "", "plus": "+1", "minus": "-1", "space-before": " 1",
               "space-after": "1 ", "letter": "1a", "point": "1.0", "return": "1\r", "high": "1\xb2",
               "32-bits": "4294967296", "ten-digits": "9999999999", "long": "1" + "0" * 40}
BAD_PATTERNS = {"short": "3f80000", "long": "03f800000", "upper": "3F800000", "letter": "3f80000g",
                "prefix": "0x3f8000", "empty": "", "space": " f800000", "decimal": "1.000000"}


def bad_words(line):
    """A line whose word or whose parting of fields is wrong."""
    word, *fields = line.split("\t")
    rest = "\t".join(fields)
    return {"upper": word.upper() + "\t" + rest, "short-word": word[:-1] + "\t" + rest,
            "long-word": word + "s\t" + rest, "word-only": word, "field-less": line.rpartition("\t")[0],
            "field-more": line + "\t0", "tab-after": line + "\t", "tab-before": "\t" + line,
            "two-tabs": word + "\t\t" + rest, "space": word + " " + rest, "nothing": "",
            "space-before": " " + line, "return": line + "\r", "nul": line + "\0"}


def bad_lines():
    """Each line of the example, wrong in its word and in each of its numbers."""
    cases = []
    for number, line in enumerate(EXAMPLE_LINES, 1):
        for name, bad in bad_words(line).items():
            cases.append(text_case("line-%d-%s" % (number, name), 13, number, with_line(number, bad)))
    return cases + bad_fields()


def bad_fields():
    """Each form of a bad number in one field, and a few of them in every other."""
    cases = []
    for number, line in enumerate(EXAMPLE_LINES, 1):
        fields = line.split("\t")
        for at in range(1, len(fields)):
            whole = (number, at) in ((1, 2), (2, 1), (2, 3), (3, 1), (4, 4))
            forms = BAD_PATTERNS if number == 2 and at > 1 else BAD_NUMBERS
            for name in forms if whole else ("empty", "space-before", "upper", "zero-before"):
                if name in forms:
                    bad = "\t".join(fields[:at] + [forms[name]] + fields[at + 1:])
                    cases.append(text_case("field-%d-%d-%s" % (number, at, name), 13, number,
                                           with_line(number, bad)))
    return cases


def bad_limits():
    """Numbers of the form, past their limits."""
    lines = {"version-0": (1, "climb\t0\t3\t1"), "version-2": (1, "climb\t2\t3\t1"),
             "version-11": (1, "climb\t11\t3\t1"), "positions": (1, "climb\t1\t65537\t1"),
             "faces": (1, "climb\t1\t3\t65537"), "faces-huge": (1, "climb\t1\t3\t4294967295"),
             "corner-3": (3, "move\t0\t3"), "corner-huge": (3, "move\t0\t4294967295"),
             "corner-10": (3, "move\t0\t10"), "end-0": (5, "end\t0"), "end-2": (5, "end\t2"),
             "end-huge": (5, "end\t4294967297")}
    head, split, move, face, end = EXAMPLE_LINES
    return [text_case(name, 13, number, with_line(number, line))
            for name, (number, line) in lines.items()] + [
        # The 65th of either; the split is line 2.
        text_case("moves-65", 13, 67, text_of([head, split] + [move] * 65 + [face, end]), 2000),
        text_case("faces-65", 13, 68, text_of([head, split, move] + [face] * 65 + [end]), 2000),
    ]


def bad_orders():
    """Lines that are missing, in another order, or too many."""
    head, split, move, face, end = EXAMPLE_LINES
    texts = {
        "header-missing": (1, [split, move, face, end]), "header-twice": (2, [head, *EXAMPLE_LINES]),
        "end-first": (1, [end]), "end-twice": (6, EXAMPLE_LINES + [end]),
        "move-first": (2, [head, move, split, face, end]), "face-first": (2, [head, face, split, end]),
        "no-split": (2, [head, move, face, end]), "face-before-move": (4, [head, split, face, move, end]),
        "move-between": (5, [head, split, move, face, move, end]),
        "end-missing": (5, EXAMPLE_LINES[:4]), "end-missing-2": (3, [head, split]),
        "end-missing-1": (2, [head]), "line-after": (6, EXAMPLE_LINES + [""]),
        "lines-after": (6, EXAMPLE_LINES + [split, move, face, end]),
        "header-after": (6, EXAMPLE_LINES + EXAMPLE_LINES), "empty-line": (3, [head, split, "", move, end]),
        "end-0-first": (3, [head, "end\t0", split, end]), "line-feed": (1, [""]),
    }
    return [text_case(name, 13, place, text_of(lines)) for name, (place, lines) in texts.items()]


def bad_ends():
    """Texts that end before a line does, at each line; and what follows the last line."""
    whole = text_of(EXAMPLE_LINES)
    cases = [text_case("nothing", 13, 1, b""), text_case("byte-after", 13, 6, whole + b"e"),
             text_case("nul-after", 13, 6, whole + b"\0"),
             text_case("end-unended-0", 13, 2, b"climb\t1\t3\t1\nend\t0")]
    for number in range(1, 6):
        lines = text_of(EXAMPLE_LINES[:number])
        cases.append(text_case("unended-%d" % number, 13, number, lines[:-1]))
        cases.append(text_case("cut-%d" % number, 13, number, lines[:-3]))
    return cases


# Up and down: 0.

def six_orders(r, s, t):
    return tuple((0, *order) for order in ((r, s, t), (r, t, s), (s, r, t), (s, t, r), (t, r, s), (t, s, r)))


def good_steps():
    moved = Step(0, ONE, ((0, 0), (2, 1)))
    later = (Step(0, ONE, ((0, 0),), ((1, 4, 0, 1),)), Step(4, TWO, ((0, 0), (5, 0))),
             Step(5, THREE, ((5, 0),), ((0, 6, 5, 4),)))
    return [
        steps_case("moves", 0, moved),
        steps_case("two-corners-of-a-face", 0, Step(0, ONE, ((3, 0), (3, 1)))),
        steps_case("one-corner-of-two", 0, Step(0, ONE, ((3, 1),))),
        steps_case("all-corners", 0, Step(0, ONE, ((4, 2), (3, 1), (3, 0), (2, 1), (1, 0), (0, 0)))),
        steps_case("orders", 0, Step(2, TWO, (), six_orders(4, 2, 3))),
        steps_case("split-is-last", 0, Step(3, THREE, ((1, 2),), ((1, 4, 0, 3),))),
        # The corner's move is to the position that the step before made.
        calls_case("00-moved-again", (0, 0, 0, 16, 0, 0, 0, 16), (UP,) * 4 + (DOWN,) * 4,
                   ClimbList(4, 5, later), FAN, FAN_ROOM),
        # 18 looks at the words that are written anew, and nothing else.
        up_case("words-past", 0, (SET_POSITION, 12, 1), (SET_FACE, 38, 1), (SET_FACE, 0, HUGE)),
        down_case("words-past", 0, (SET_POSITION, 12, 1), (SET_FACE, 38, 1), (SET_FACE, 0, HUGE)),
        down_case("other-corners", 0, (SET_FACE, 1, 9), (SET_FACE, 7, 9), (SET_FACE, 14, 9)),
        # The tables show what this other step would have written.
        down_case("another-split", 0, (SET_STEP, 3, 1)),
        up_case("shadings-huge", 0, (SET_SHADINGS, HUGE, 0)),
        up_case("step-without-all", 0, climb=ClimbList(3, 1, (Step(1),)), lengths=(FACE_SIZE, 12, 9)),
    ]


def full_steps():
    """64 moves and 64 new faces."""
    mesh = mesh_of(3, [(0, 0, 0)] * 22)
    corners = tuple((index // 3, index % 3) for index in range(64))
    faces = tuple((index % 2, *((3, 0, 1 + index % 2)[order:] + (3, 0, 1 + index % 2)[:order]))
                  for index in range(64) for order in (index % 3,))
    full = ClimbList(3, 22, (Step(0, ONE, corners, faces),))
    lengths = (86 * FACE_SIZE, 12, 3 + 6 + 2 * 64 + 4 * 64)
    twice = full._replace(steps=(Step(0, ONE, corners[:63] + corners[:1], faces),))
    last = full._replace(steps=(Step(0, ONE, corners, faces[:63] + ((0, 3, 3, 0),)),))
    return [
        calls_case("00-full", (0, 16, 0, 16), (UP, UP, DOWN, DOWN), full, mesh, lengths),
        up_case("full-pair-twice", 14, climb=twice, mesh=mesh, lengths=lengths),
        up_case("full-last-face", 14, climb=last, mesh=mesh, lengths=lengths),
        up_case("full-no-room", 12, climb=full, mesh=mesh, lengths=(86 * FACE_SIZE - 1, *lengths[1:])),
        up_case("full-last-word", 18, (SET_FACE, 86 * FACE_SIZE - 1, 1), climb=full, mesh=mesh,
                lengths=lengths),
    ]


# 13.

FORM_CHANGES = {
    "base-positions": (0, 65537), "base-faces": (1, 65537), "base-faces-huge": (1, HUGE), "no-step": (2, 0),
    "steps-2": (2, 2), "steps-4097": (2, 4097), "steps-huge": (2, HUGE), "moves-0": (7, 0),
    "moves-2": (7, 2), "moves-65": (7, 65), "moves-huge": (7, HUGE), "faces-0": (8, 0), "faces-2": (8, 2),
    "faces-65": (8, 65), "faces-huge": (8, HUGE), "faces-wrap": (8, 0x40000001), "moves-wrap": (7, 0x80000001),
    "corner-3": (10, 3), "corner-huge": (10, HUGE)}


def bad_tables():
    cases = []
    for name, (at, value) in FORM_CHANGES.items():
        cases += [case(name, 13, (SET_STEP, at, value)) for case in (up_case, down_case)]
    # The example's table lent at each length: 15 words are its own.
    lent = [call for length in range(17) if length != 15 for call in ((LEND_STEPS, length, 0), UP, DOWN)]
    cases.append(calls_case("13-lent", (13,) * 32 + (0, 0), lent + [(LEND_STEPS, 15, 0), UP, DOWN]))
    return cases


def full_tables():
    """A step of zeros: 64 moves are a repeated pair, for 64 new faces there is no room. With 65 of
    either the step table is as long as they need, and not of the form."""
    cases = []
    for name, at, width, number in (("moves", 7, 2, 14), ("faces", 8, 4, 12)):
        calls = [(SET_STEP, 2, 1), (FILL_STEPS, 3, 0)]
        for count in (64, 65):
            calls += [(SET_STEP, at, count), (LEND_STEPS, 9 + width * count, 0), UP]
        cases.append(calls_case("13-%s-65" % name, (number, 13), calls, ClimbList(3, 1),
                                lengths=(*ROOM[:2], 300)))
    return cases


def many_steps():
    """4,096 steps of nothing but zeros, and 4,097."""
    size = 3 + 6 * 4096
    grow = (SET_STEP, 2, 4096), (FILL_STEPS, 3, 0), (LEND_STEPS, size, 0)
    more = (SET_STEP, 2, 4097), (LEND_STEPS, size + 6, 0)
    calls = (*grow, UP, (SET_COUNTS, 4096, 0), UP, UP, DOWN, *more, UP, DOWN)
    return [calls_case("13-steps-4097", (0, 0, 16, 0, 13, 13), calls, ClimbList(1, 0), POINT,
                       (0, 3 * 4098, size + 6))]


# 15, 16, 12.

def bad_counts():
    """The example's counts are 3, 1 before and 4, 2 after."""
    wrong = [(2, 1), (3, 0), (3, 2), (4, 1), (4, 3), (5, 2), (5, 3), (0, 0), (HUGE, 1), (3, HUGE),
             (HUGE, HUGE), (COUNT_LIMIT, COUNT_LIMIT), (1, 3), (2, 0)]
    cases = []
    for counts in wrong:
        name = "counts-%d-%d" % counts
        cases += [case(name, 15, (SET_COUNTS, *counts)) for case in (up_case, down_case)]
    # With 2 base positions the mesh is one step up, yet has not its face.
    lists = {"positions-less": {"positions": 2}, "positions-more": {"positions": 4},
             "faces-less": {"faces": 0}, "faces-more": {"faces": 2}}
    return cases + [calls_case("15-list-" + name, (15, 15), (UP, DOWN), EXAMPLE._replace(**base))
                    for name, base in lists.items()]


def no_steps():
    calls = UP, DOWN, (SET_COUNTS, 4, 2), UP
    return [
        calls_case("16-no-steps", (16, 16), (UP, DOWN), ClimbList(3, 1)),
        calls_case("16-no-steps-empty", (16, 16), (UP, DOWN), ClimbList(0, 0), EMPTY, (0, 0, 3)),
        calls_case("16-both", (16, 0, 16, 16, 0, 16), (DOWN, UP, UP, UP, DOWN, DOWN)),
        calls_case("16-counts-alone", (0, 0, 16), calls),
    ]


def no_room():
    """The example's tables need 19 and 9 words before, 38 and 12 after."""
    lends = {"faces-after": (37, 12), "faces-before": (18, 12), "faces-none": (0, 12),
             "positions-after": (38, 11), "positions-before": (38, 8), "positions-none": (38, 0),
             "both": (37, 11), "neither": (0, 0)}
    cases = []
    for name, lent in lends.items():
        cases += [case(name, 12, (LEND_TABLES, *lent)) for case in (up_case, down_case)]
    both = UP, DOWN
    return cases + [
        calls_case("00-exact", (0, 0), both, lengths=EXACT),
        calls_case("12-base-only", (12, 16), both, lengths=(FACE_SIZE, 9, 15)),
        calls_case("12-odd-faces", (12,), (UP,), lengths=(2 * FACE_SIZE - 1, 12, 15)),
        calls_case("12-odd-positions", (12,), (UP,), lengths=(2 * FACE_SIZE, 11, 15)),
        calls_case("00-odd", (0, 16, 0, 16), (UP, UP, DOWN, DOWN), lengths=(3 * FACE_SIZE - 1, 14, 15)),
        calls_case("00-lent-exact", (0, 0), ((LEND_TABLES, 38, 12), UP, DOWN)),
    ]


def passing_limits():
    """65,536 of either, with tables that could hold more."""
    step = Step(0, ONE, ((COUNT_LIMIT - 1, 2),))
    more = step._replace(faces=((0, 0, 1, 2),))  # 12 comes before 14
    crowd = many_faces()[0]
    mesh, lengths = (crowd.declaration, crowd.continuation), ((COUNT_LIMIT + 1) * FACE_SIZE, 7, 20)
    below = ClimbList(COUNT_LIMIT - 1, 0, (Step(COUNT_LIMIT - 2, ONE), Step(0, TWO)))
    calls = (SET_COUNTS, COUNT_LIMIT - 1, 0), UP, UP, DOWN, DOWN
    pool = 3 * (COUNT_LIMIT + 1)
    return [
        calls_case("00-limit-faces", (0, 0), (UP, DOWN), ClimbList(1, COUNT_LIMIT, (step,)), mesh, lengths),
        calls_case("12-limit-faces", (12,), (UP,), ClimbList(1, COUNT_LIMIT, (more,)), mesh, lengths),
        calls_case("12-limit-positions", (0, 12, 0, 16), calls, below, EMPTY, (0, pool, 15)),
        calls_case("12-limit-positions-room", (0, 12, 0, 16), calls, below, EMPTY, (0, pool - 3, 15)),
    ]


# 14 and 18.

NUMBER_CHANGES = {
    "split-is-r": (3, 3), "split-above": (3, 4), "split-huge": (3, HUGE), "split-is-t": (3, 0),
    "move-new-face": (9, 1), "move-face-huge": (9, HUGE), "move-face-wraps": (9, 226050911),
    "shading-is-count": (11, 2), "shading-huge": (11, HUGE), "rss-1": (12, 2), "rrs-1": (12, 3),
    "rrt": (13, 3), "rtt": (13, 1), "stt": (14, 1), "sst": (14, 2), "t-above": (12, 4), "t-huge": (12, HUGE),
    "no-r": (14, 0), "no-s": (13, 0), "r-above": (14, 4)}


def bad_numbers():
    """One word of the example changed; for down after up."""
    cases = []
    for name, (at, value) in NUMBER_CHANGES.items():
        cases += [case(name, 14, (SET_STEP, at, value)) for case in (up_case, down_case)]
    for count in (0, 1):
        name = "shadings-%d" % count
        cases += [case(name, 14, (SET_SHADINGS, count, 0)) for case in (up_case, down_case)]
    # Another corner does not hold s going up, nor r - 1 going down.
    return cases + [up_case("corner-holds-other", 14, (SET_STEP, 10, 1)),
                    down_case("corner-holds-other", 18, (SET_STEP, 10, 1)),
                    up_case("corner-changed", 14, (SET_FACE, 13, 1)),
                    up_case("split-1", 14, (SET_STEP, 3, 1))]


def bad_faces():
    """Positions of a new face that are not r, s and t, for s = 1 and r = 4."""
    faces = [(4, 1, 1), (1, 4, 1), (1, 1, 4), (4, 4, 1), (4, 1, 4), (1, 4, 4), (4, 4, 4), (1, 1, 1),
             (0, 1, 2), (4, 2, 3), (4, 2, 2), (4, 1, 5), (5, 4, 1), (1, HUGE, 4), (0, 0, 0)]
    good = (0, 4, 1, 2)
    return [steps_case("face-%d-%d-%d" % face, 14, Step(1, ONE, (), (good, (0, *face), good)))
            for face in faces]


def bad_moves():
    pairs = {
        "pair-twice": ((0, 0), (0, 0)), "pair-twice-apart": ((0, 0), (1, 0), (4, 2), (0, 0)),
        "pair-twice-same-face": ((3, 0), (3, 1), (3, 0)), "holds-another": ((0, 1),),
        "second-holds-another": ((0, 0), (1, 1)), "face-is-count": ((5, 0),), "face-above": ((0, 0), (60, 0))}
    cases = [steps_case(name, 14, Step(0, ONE, moves)) for name, moves in pairs.items()]
    # Face 5 is new in the same step; its corner 1 holds s.
    return cases + [steps_case("move-of-new-face", 14, Step(0, ONE, ((5, 1),), ((0, 4, 0, 1),)))]


def down_twice_pair():
    """The moves of the step that is taken back, changed to a repeated pair."""
    climb = ClimbList(4, 5, (Step(0, ONE, ((3, 0), (3, 1))),))
    return [
        down_case("pair-twice", 14, (SET_STEP, 12, 0), climb=climb, mesh=FAN, lengths=FAN_ROOM),
        # Both changes make the pair another's: it does not hold r - 1.
        down_case("another-pair", 18, (SET_STEP, 11, 0), climb=climb, mesh=FAN, lengths=FAN_ROOM),
    ]


def bad_records():
    """Going up, words that are written anew and are not 0; going down, words unlike those written."""
    cases = []
    for at in (9, 10, 11):
        cases.append(up_case("position-%d" % at, 18, (SET_POSITION, at, 1)))
        cases.append(down_case("position-%d" % at, 18, (SET_POSITION, at, 7)))
    for at in (19, 20, 25, 36, 37):
        cases.append(up_case("face-%d" % at, 18, (SET_FACE, at, HUGE)))
    written = [1] + [number for corner in (1, 2, 3) for number in (corner, *[ABSENT] * (CORNER_SIZE - 1))]
    calls = [call for at, word in enumerate(written, FACE_SIZE)
             for call in ((SET_FACE, at, word ^ 1), DOWN, (SET_FACE, at, word))]
    cases.append(calls_case("down-18-face-words", (0,) + (18,) * FACE_SIZE + (0,), [UP, *calls, DOWN]))
    for name, value in (("split", 2), ("other", 1), ("absent", HUGE), ("zero", 0)):
        cases.append(down_case("corner-%s" % name, 18, (SET_FACE, 13, value)))
    return cases + [
        down_case("x-of-list", 18, (SET_STEP, 4, 0)), down_case("shading-of-list", 18, (SET_STEP, 11, 0)),
        # The set is the same, but not the corners.
        down_case("order-of-list", 18, (SET_STEP, 12, 2), (SET_STEP, 13, 1)),
        calls_case("down-18-nothing-written", (18,), ((SET_COUNTS, 4, 2), DOWN)),
        up_case("no-new-faces", 0, (SET_FACE, 19, 1), climb=ClimbList(3, 1, (Step(2, ONE, ((0, 2),)),))),
    ]


# Two faults: 01's order decides (13, 15, 16, 12, 14, 18).

ORDER = (13, 15, 16, 12, 14, 18)
FAULTS = {13: (SET_STEP, 10, 3), 12: (LEND_TABLES, 18, 8), 14: (SET_SHADINGS, 0, 0), 18: (SET_POSITION, 9, 7)}
# Counts that are wrong (15), those with no step that way (16), and both.
UP_COUNTS = {(15,): (3, 2), (16,): (4, 2), (15, 16): (4, 3)}
DOWN_COUNTS = {(15,): (4, 3), (16,): (3, 1), (15, 16): (3, 2)}


def faults(pair, counts):
    """The changes that make both of these answers due."""
    wanted = tuple(number for number in pair if number in (15, 16))
    set_counts = [(SET_COUNTS, *counts[wanted])] if wanted else []
    return set_counts + [FAULTS[number] for number in pair if number in FAULTS]


def orders():
    cases = []
    for at, first in enumerate(ORDER):
        for second in ORDER[at + 1:]:
            name = "order-%d-%d" % (first, second)
            up, down = (faults((first, second), counts) for counts in (UP_COUNTS, DOWN_COUNTS))
            cases.append(calls_case(name + "-up", (first,), [*up, UP]))
            cases.append(calls_case(name + "-down", (0, first), [UP, *down, DOWN]))
    return cases


def refused_parts():
    """A refused mesh leaves the tables, and has no counts; a list of 0 and 0 then agrees."""
    bad_mesh = TRIANGLE[0][:-1], TRIANGLE[1]
    lone = ClimbList(0, 0, (Step(0),))
    return [
        calls_case("mesh-01", (15, 15), (UP, DOWN), mesh=bad_mesh),
        calls_case("mesh-01-list-0", (14, 16), (UP, DOWN), lone, bad_mesh),
        calls_case("mesh-12", (15, 15), (UP, DOWN), lengths=(FACE_SIZE - 1, 9, 15)),
        calls_case("mesh-12-no-tables", (12, 16), (UP, DOWN), lone, lengths=(0, 0, 15)),
    ]


# Generated lists: up and down must agree with the tally.

def shuffled(dice, items):
    rest, found = list(items), []
    while rest:
        found.append(rest.pop(dice.below(len(rest))))
    return tuple(found)


def random_step(dice, corners, r, shadings, most):
    """A step that is allowed on faces of these corners; the corners change with it."""
    split = dice.pick([corner for face in corners for corner in face] or range(r))
    held = [(face, at) for face, three in enumerate(corners) for at in range(3) if three[at] == split]
    moves = shuffled(dice, held)[:dice.below(most + 1)]
    others = [other for other in range(r) if other != split]
    new = [(dice.below(shadings), *shuffled(dice, (r, split, dice.pick(others))))
           for _ in range(dice.below(most + 1) if others else 0)]
    for face, at in moves:
        corners[face][at] = r
    corners += [list(positions) for _, *positions in new]
    return Step(split, tuple(dice.below(2 ** 31) * 2 + dice.below(2) for _ in range(3)), moves, tuple(new))


def random_list(dice, mesh_corners, positions, shadings, steps, most):
    corners = [list(face) for face in mesh_corners]
    made = [random_step(dice, corners, positions + index, shadings, most) for index in range(steps)]
    return ClimbList(positions, len(mesh_corners), tuple(made))


def random_mesh(dice):
    """A mesh, and its corners, positions and shadings; a few have all fields of a corner."""
    positions, faces = 1 + dice.below(9), dice.below(9)
    shadings = tuple(Shading(dice.below(4), (2,) * dice.below(3)) for _ in range(1 + dice.below(4)))
    counts = (faces, positions, 2, 3, 2, 4)
    declaration = declared(counts, shadings, dice.below(2))
    records = random_faces(dice, declaration, counts, [dice.below(len(shadings)) for _ in range(faces)])
    corners = [record[1::CORNER_SIZE] for record in records]
    mesh = declaration_data(declaration), base_of(declaration, counts, records)
    return mesh, corners, positions, len(shadings)


def room_for(climb, spare):
    """Room for all steps and a few numbers more or less in each table."""
    faces = climb.faces + sum(len(step.faces) for step in climb.steps)
    exact = faces * FACE_SIZE, 3 * (climb.positions + len(climb.steps)), len(step_table(climb))
    return tuple(max(0, size + more) for size, more in zip(exact, spare))


def random_calls(dice, count):
    """More ups than downs at first, then more downs."""
    return tuple(UP if dice.below(10) < (8 if at < count // 2 else 3) else DOWN for at in range(count))


def generated():
    cases = []
    for index in range(24):
        dice = Dice(1000 + index)
        mesh, *plan = random_mesh(dice)
        climb = random_list(dice, *plan, steps=dice.below(13), most=dice.below(6))
        spare = dice.below(30), dice.below(9), dice.below(5)
        if index % 6 == 5:  # no room for all of the steps
            spare = -FACE_SIZE * dice.below(4), -3 * dice.below(4), 0
        lengths = [max(least, length) for least, length in
                   zip((climb.faces * FACE_SIZE, 3 * climb.positions, 0), room_for(climb, spare))]
        cases.append(Case("generated-%02d.climb" % index, *mesh, climb_text(climb), tuple(lengths),
                          random_calls(dice, 40)))
    return cases


def not_allowed_later(dice, climb):
    """One word of a step changed, within the form."""
    words = step_table(climb)
    at = 3 + dice.below(len(words) - 3)
    return (SET_STEP, at, dice.pick((0, 1, 2, 3, words[at] + 1, words[at] ^ 1, HUGE)) % 2 ** 32)


def random_change(dice, climb, lengths):
    """One store, or other counts."""
    kind = dice.below(8)
    if kind < 3:
        return not_allowed_later(dice, climb)
    if kind < 5:
        return (SET_FACE, dice.below(lengths[0]), dice.pick((0, 1, 2, 5, HUGE)))
    if kind < 6:
        return (SET_POSITION, dice.below(lengths[1]), dice.pick((0, 1, HUGE)))
    if kind < 7:
        return (SET_SHADINGS, dice.below(3), 0)
    return (LEND_TABLES, lengths[0] - dice.below(3) * FACE_SIZE, lengths[1] - dice.below(8))


def undo(session, change, shadings, lengths):
    """The call that puts back what a change is about to alter."""
    operation, at, _ = change
    tables = {SET_FACE: session.faces, SET_POSITION: session.positions, SET_STEP: session.steps}
    if operation in tables:
        return (operation, at, tables[operation][at])
    return (SET_SHADINGS, shadings, 0) if operation == SET_SHADINGS else (LEND_TABLES, *lengths[:2])


def changed_calls(dice, case, climb, shadings, count):
    """Calls with a change before many of them, put back after a refusal."""
    session, calls = Session(case), []
    for at in range(count):
        change = random_change(dice, climb, case.lengths)
        back = undo(session, change, shadings, case.lengths)
        is_up = dice.below(10) < (7 if at < count // 2 else 4)
        calls += [change, UP if is_up else DOWN]
        session.change(*change)
        if session.step(is_up) or change[0] in (SET_SHADINGS, LEND_TABLES):
            calls.append(back)
            session.change(*back)
    return tuple(calls)


def changed_cases(name, seed, steps, moves, calls_of):
    """Tables and lists that are changed between the calls; `steps` is the fewest, and how many more."""
    cases = []
    for index in range(12):
        dice = Dice(seed + index)
        mesh, corners, positions, shadings = random_mesh(dice)
        climb = random_list(dice, corners, positions, shadings, steps[0] + dice.below(steps[1]), moves)
        spare = 1 + dice.below(30), 1 + dice.below(9), 0
        case = Case("%s-%02d.climb" % (name, index), *mesh, climb_text(climb), room_for(climb, spare))
        cases.append(case._replace(calls=calls_of(dice, case, climb, shadings)))
    return cases


def changed():
    return changed_cases("changed", 2000, (4, 6), 4,
                         lambda *drawn: changed_calls(*drawn, 50))


def breaths():
    """Up to the top and down again, a thousand times; and from half way, which ends elsewhere."""
    dice = Dice(77)
    climb = random_list(dice, FAN_CORNERS, 4, 2, 20, 3)
    lengths = room_for(climb, (5, 2, 0))
    half = (UP,) * 9 + ((BREATHE, 2, 100),)
    short = (BREATHE, 3, 5), (BREATHE, 1, 0), (BREATHE, 0, 9)
    return [
        Case("breaths.climb", *FAN, climb_text(climb), lengths, ((BREATHE, 1000, 100), UP, DOWN)),
        Case("breaths-short.climb", *FAN, climb_text(climb), lengths, short + half + short + (UP, DOWN)),
    ]


# Texts, changed at random places: the reader alone gives their answers.

MUTANTS = {0: 12, 12: 4, 13: 40}
TRIES = 4000
BYTES = b"0123456789abcdef\t\n -A\0\xff"


def mutate(dice, text):
    """A byte changed, dropped or put in; a line dropped, repeated or swapped; or the end cut."""
    at = dice.below(len(text))
    lines = text.splitlines(True)
    line = dice.below(len(lines))
    kind = dice.below(7)
    if kind < 3:
        return text[:at] + (b"", bytes([dice.pick(BYTES)]))[kind > 0] + text[at + (kind < 2):]
    if kind == 3:
        return text[:at]
    if kind == 4:
        lines[line:line + 1] = []
    elif kind == 5:
        lines[line:line] = [lines[line]] * (1 + dice.below(3))
    else:
        lines.append(lines.pop(line))
    return b"".join(lines)


def mutants():
    """No two with the same place and words, up to `MUTANTS` of each number."""
    dice = Dice(4242)
    climb = random_list(dice, FAN_CORNERS, 4, 2, 4, 3)
    text, length = climb_text(climb), len(step_table(climb))
    found = {number: {} for number in MUTANTS}
    for _ in range(TRIES):
        mutant, room = mutate(dice, text), length + 6 - dice.below(8)
        table = [0] * room
        number, place, words = read_climb(mutant, table)
        if mutant != text and len(found[number]) < MUTANTS[number]:
            found[number].setdefault((place, *table[:words]) if words else (place, room), (mutant, room))
    lengths = room_for(climb, (2 * FACE_SIZE, 6, 0))
    return [Case("mutant-%02d-%02d.climb" % (number, index), *FAN, mutant, (*lengths[:2], room),
                 (UP, UP, DOWN))
            for number, answers in found.items()
            for index, (mutant, room) in enumerate(answers.values(), 1)]


def cases():
    groups = (
        good_texts, bad_lines, bad_limits, bad_orders, bad_ends, good_steps, full_steps, bad_tables,
        full_tables, many_steps, bad_counts, no_steps, no_room, passing_limits, bad_numbers, bad_faces,
        bad_moves, down_twice_pair, bad_records, orders, refused_parts, generated, changed, breaths, mutants)
    return [case for group in groups for case in group()]


# The sample of the program climb_mesh.

# Single calls, and walks: one that is done, one refused as 14 at the wrong step, one as 16 at the
# bottom with a request after it, one as 9 after two steps, one as 9 at once; 0 steps; and 4,096.
SAMPLE_CALLS = ("duuudu", "u1d2", "uuuu", "d3u9", "d", "d9u1", "d", "u2u4097d1", "u", "d4294967295", "u",
                "u0d0", "d", "d4096", "u")


def sample():
    """The mesh sample, a climb text for its first base mesh, and calls. The last step is not
    allowed: it moves a corner that holds another position."""
    data = mesh_sample()
    rows = blocks.walk(data)[2]
    read = read_base(data, rows, base_meshes(rows)[0], (ROOM[0] * 9,) * 6)
    faces, positions = read.counts[:2]
    corners = [read.tables[FACES][FACE_SIZE * face:][1:FACE_SIZE:CORNER_SIZE] for face in range(faces)]
    climb = random_list(Dice(9), corners, positions, read.shading_count, 5, 4)
    wrong = Step(positions, ONE, ((0, 0), (0, 1)))
    return data, climb_text(climb._replace(steps=climb.steps + (wrong,))), "".join(SAMPLE_CALLS)
