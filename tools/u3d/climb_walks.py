"""Walks, alone and among ups and downs.

Each named case gives the answers that documents 01 and 02 (Ask 6) ask for, worked out by hand: for
each request the number of its walk so far, and the steps granted. Most use LADDER, three steps for
the fan: 4 positions and 5 faces, then 5 and 6, 6 and 6, 7 and 7. Its words: 3 to 14 are the first
step, 15 to 24 the second, 25 to 36 the third; the first of each is its split. It writes positions at
12 to 14, 15 to 17 and 18 to 20.

13 and 15 can only come at a walk's first step: the list does not change while it is made, and the
counts agree with the list after each step.
"""

from u3d.block_files import Dice
from u3d.climb import (
    FACE_SIZE, REQUEST_DOWN, REQUEST_LIMIT, REQUEST_UP, STEP_LIMIT, ClimbList, Step, climb_text)
from u3d.climb_calls import (
    DOWN, FILL_STEPS, LEND_STEPS, LEND_TABLES, SET_POSITION, SET_SHADINGS, SET_STEP, UP, WALK, WALK_ON, Case,
    Session)
from u3d.climb_files import (
    DOWN_COUNTS, FAN, FAN_CORNERS, FAN_ROOM, HUGE, ONE, ORDER, POINT, THREE, TWO, UP_COUNTS, calls_case,
    changed_cases, faults, random_change, random_list, random_mesh, room_for, undo)

LADDER = ClimbList(4, 5, (
    Step(0, ONE, ((0, 0),), ((1, 4, 0, 1),)), Step(4, TWO, ((0, 0), (5, 0))),
    Step(5, THREE, ((5, 0),), ((0, 6, 5, 4),))))
# A direction that is neither, and a count that is above the limit.
NEITHER = 2
OVER = REQUEST_LIMIT + 1


def ups(count):
    return REQUEST_UP, count


def downs(count):
    return REQUEST_DOWN, count


def walk(first, *others):
    """The calls of a walk."""
    return ((WALK, *first), *((WALK_ON, *request) for request in others))


def ladder_case(name, numbers, *calls, climb=LADDER, lengths=FAN_ROOM):
    """`calls` are groups of calls: a walk, or changes and single calls."""
    return calls_case("walk-" + name, numbers, sum(calls, ()), climb, FAN, lengths)


# 0 and 16.

def good_walks():
    return [
        ladder_case("00-no-steps", ((0, 0),) * 3, walk(ups(0), downs(0), ups(0))),
        ladder_case("00-one-step", ((0, 1), (0, 1)), walk(ups(1)), walk(downs(1))),
        ladder_case("00-whole", ((0, 3), (0, 6), (0, 9), (0, 9), (0, 12)),
                    walk(ups(3), downs(3), ups(3), ups(0), downs(3))),
        ladder_case("00-to-and-fro", ((0, 2), (0, 3), (0, 5), (0, 6), (0, 8)),
                    walk(ups(2), downs(1), ups(2), downs(1), downs(2))),
        # Each walk begins with no steps granted, and where the call before it ended.
        ladder_case("00-apart", ((0, 1), (0, 2), 0, (0, 1), (0, 3), 0),
                    walk(ups(1), ups(1)), (DOWN,), walk(ups(1), downs(2)), (UP,)),
    ]


def past_the_ends():
    """What follows a refusal is not judged, a 9 neither."""
    return [
        ladder_case("16-top", ((16, 3), (16, 3), 16, (0, 2), (0, 3), (16, 5), (16, 5), 16),
                    walk(ups(5), downs(1)), (UP,), walk(downs(2), ups(1), downs(9), ups(1)), (DOWN,)),
        ladder_case("16-exact", ((0, 3), (16, 3), (16, 0), (0, 3), (16, 3), (16, 3)),
                    walk(ups(3), ups(1)), walk(ups(1)), walk(downs(3), downs(1), ups(3))),
        ladder_case("16-bottom", ((16, 0), (16, 0), (0, 1), (16, 2), (16, 2), (16, 2)),
                    walk(downs(1), ups(1)), walk(ups(1), downs(2), (NEITHER, 0), ups(OVER))),
        ladder_case("16-most", ((16, 3), (16, 3)), walk(ups(REQUEST_LIMIT)), walk(downs(REQUEST_LIMIT))),
        ladder_case("16-no-list", ((0, 0), (16, 0), (16, 0)), walk(ups(0), ups(1)), walk(downs(1)),
                    climb=ClimbList(4, 5)),
    ]


def back_again():
    """From the base and from the top, so many steps and back; and further than there are steps."""
    climb = random_list(Dice(78), FAN_CORNERS, 4, 2, 20, 3)
    calls, numbers = [], []
    for there, back in ((ups, downs), (downs, ups)):
        for count in range(21):
            calls += walk(there(count), back(count))
            numbers += [(0, count), (0, 2 * count)]
        calls += walk(there(20))
        numbers.append((0, 20))
    for more in range(1, 4):
        calls += walk(ups(20 + more)) + walk(downs(20 + more))
        numbers += [(16, 20)] * 2
    return [calls_case("walk-back-again", numbers, calls, climb, FAN, room_for(climb, (5, 2, 0)))]


# 9.

def over_the_limit():
    alone = [ups(OVER), downs(OVER), ups(0x10001), downs(0x80000000), ups(HUGE), downs(HUGE), (NEITHER, 0),
             (NEITHER, 1), (NEITHER, REQUEST_LIMIT), (0x100, 0), (0x80000000, 1), (HUGE, 0), (HUGE, HUGE)]
    return [
        ladder_case("09-first", ((9, 0), (9, 0)) * len(alone) + ((0, 0), (9, 0), 0),
                    *[walk(request, ups(1)) for request in alone], walk(ups(0), (NEITHER, 0)), (UP,)),
        ladder_case("09-later", ((0, 2), (9, 2), (9, 2), 0, (0, 1), (9, 1), (9, 1), (0, 1), (9, 1)),
                    walk(ups(2), downs(OVER), ups(1)), (UP,), walk(downs(1), (NEITHER, 0), downs(1)),
                    walk(ups(1), ups(HUGE))),
        ladder_case("09-last", ((0, 3), (0, 4), (9, 4), 0), walk(ups(3), downs(1), (HUGE, 1)), (UP,)),
    ]


def most_steps():
    """4,096 steps of nothing but zeros, in one request; a walk may have more in all."""
    size = 3 + 6 * STEP_LIMIT
    grow = (SET_STEP, 2, STEP_LIMIT), (FILL_STEPS, 3, 0), (LEND_STEPS, size, 0)
    calls = (*grow, *walk(ups(REQUEST_LIMIT), downs(1), ups(2)), *walk(downs(OVER)),
             *walk(downs(REQUEST_LIMIT), downs(1)))
    numbers = (0, 4096), (0, 4097), (16, 4098), (9, 0), (0, 4096), (16, 4096)
    return [calls_case("walk-00-most", numbers, calls, ClimbList(1, 0), POINT,
                       (0, 3 * (1 + STEP_LIMIT), size))]


# Every other number: at the first step, and later.

def first_steps():
    """9 comes before the rest; no steps are done whatever the list, the counts and the tables."""
    cases = []
    for number in ORDER:
        up, down = (faults((number,), counts) for counts in (UP_COUNTS, DOWN_COUNTS))
        for name, request, before in (("up", ups, up), ("down", downs, [UP, *down])):
            calls = (*before, *walk(request(OVER)), *walk((NEITHER, 0)), *walk(ups(0), downs(0)),
                     *walk(request(0), request(2), (NEITHER, 0)))
            numbers = [0] * before.count(UP) + [(9, 0), (9, 0), (0, 0), (0, 0), (0, 0)] + [(number, 0)] * 2
            cases.append(calls_case("walk-first-%d-%s" % (number, name), numbers, calls))
    return cases


def later_steps():
    first, second, _ = LADDER.steps
    third_wrong = LADDER._replace(steps=(first, second, Step(6, THREE)))
    second_wrong = LADDER._replace(steps=(first, second._replace(moves=((0, 0), (0, 0)))))
    faces, positions, words = FAN_ROOM
    return [
        ladder_case("12-faces", ((12, 2), (12, 2), (0, 2)), walk(ups(3), downs(1)), walk(downs(2)),
                    lengths=(7 * FACE_SIZE - 1, positions, words)),
        ladder_case("12-positions", ((0, 1), (12, 2), (12, 2)), walk(ups(1), ups(2), downs(1)),
                    lengths=(faces, 3 * 7 - 1, words)),
        ladder_case("12-second", ((12, 1), (0, 1)), walk(ups(4)), walk(downs(1)),
                    lengths=(faces, 3 * 6 - 1, words)),
        ladder_case("14-third", ((14, 2), (14, 2), 14, (16, 2)), walk(ups(3), downs(2)), (UP,),
                    walk(downs(3)), climb=third_wrong),
        ladder_case("14-second", ((0, 1), (14, 1), (0, 1)), walk(ups(1), ups(9)), walk(downs(1)),
                    climb=second_wrong),
        # The first step, changed and put back: going down it is the last.
        ladder_case("14-down", ((0, 3), (14, 2), (14, 2), (0, 1)), walk(ups(3)), ((SET_STEP, 3, HUGE),),
                    walk(downs(3), ups(1)), ((SET_STEP, 3, 0),), walk(downs(1))),
        ladder_case("18-up", ((18, 1), (18, 1), (0, 2)), ((SET_POSITION, 15, 7),), walk(ups(3), downs(1)),
                    ((SET_POSITION, 15, 0),), walk(ups(2))),
        ladder_case("18-down", ((0, 3), (18, 2), (18, 2), (0, 1)), walk(ups(3)), ((SET_POSITION, 12, 7),),
                    walk(downs(3), ups(1)), ((SET_POSITION, 12, ONE[0]),), walk(downs(1))),
    ]


# Generated walks: they must agree with the tally.

def random_request(dice, at_first):
    """More ups at first, then more downs; now and then one that is refused."""
    direction = REQUEST_UP if dice.below(10) < (7 if at_first else 3) else REQUEST_DOWN
    count = dice.pick((0, 1, 1, 2, 2, 3, 4, 5, 7))
    odd = dice.below(40)
    if odd < 2:
        return direction, (OVER, HUGE)[odd]
    return (dice.pick((NEITHER, HUGE)), count) if odd == 2 else (direction, count)


def random_walk(dice, at_first):
    return walk(*[random_request(dice, at_first) for _ in range(1 + dice.below(4))])


def random_group(dice, at_first):
    """An up, a down, or a walk."""
    if dice.below(3) == 0:
        return (UP if dice.below(10) < (8 if at_first else 3) else DOWN,)
    return random_walk(dice, at_first)


def with_wrong_step(dice, climb):
    """One of the steps is not allowed, by its split."""
    at = dice.below(len(climb.steps))
    wrong = climb.steps[at]._replace(split=HUGE)
    return climb._replace(steps=climb.steps[:at] + (wrong,) + climb.steps[at + 1:])


def generated():
    cases = []
    for index in range(24):
        dice = Dice(3000 + index)
        mesh, *plan = random_mesh(dice)
        climb = random_list(dice, *plan, steps=1 + dice.below(24), most=dice.below(5))
        if index % 6 == 4:
            climb = with_wrong_step(dice, climb)
        spare = dice.below(30), dice.below(9), dice.below(5)
        if index % 6 == 5:  # no room for all of the steps
            spare = -FACE_SIZE * dice.below(4), -3 * (1 + dice.below(4)), 0
        lengths = [max(least, length) for least, length in
                   zip((climb.faces * FACE_SIZE, 3 * climb.positions, 0), room_for(climb, spare))]
        calls = [call for at in range(24) for call in random_group(dice, at < 12)]
        cases.append(Case("walk-generated-%02d.climb" % index, *mesh, climb_text(climb), tuple(lengths),
                          tuple(calls)))
    return cases


def changed_calls(dice, case, climb, shadings, count):
    """Walks with a change before each, put back after a refusal."""
    session, calls = Session(case), []
    for at in range(count):
        change = random_change(dice, climb, case.lengths)
        back = undo(session, change, shadings, case.lengths)
        made = random_walk(dice, at < count // 2)
        calls += (change, *made)
        session.change(*change)
        for operation, *request in made:
            number, _ = session.request(request, operation == WALK)
        if number or change[0] in (SET_SHADINGS, LEND_TABLES):
            calls.append(back)
            session.change(*back)
    return tuple(calls)


def changed():
    """Tables and lists that are changed between the walks."""
    return changed_cases("walk-changed", 4000, (6, 9), 3,
                         lambda *drawn: changed_calls(*drawn, 24))


def cases():
    groups = (good_walks, past_the_ends, back_again, over_the_limit, most_steps, first_steps, later_steps,
              generated, changed)
    return [case for group in groups for case in group()]
