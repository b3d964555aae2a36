"""Scripts that show how the coder writes, reads and judges.

Answers that are worked out by hand stand beside their calls: the number first, then as
many fields as were worked out. The Python coder gives all others.
"""

from typing import NamedTuple

from u3d.block_files import Dice
from u3d.coder import TOP, State, Writer, limits_well_formed, write_static
from u3d.coder_calls import (
    DYNAMIC, GET_STATIC, PUT_DYNAMIC, PUT_STATIC, ROOM, Call, Machine, byte, end, get_dynamic,
    get_plain, get_static, inner, length, put_dynamic, put_plain, put_static, reader_at,
    show_bytes, show_weights, start, value_of, weight, writer_at)

FRESH = (0, TOP, 0, 0)
HUGE = 0xFFFFFFFF
MIXED_RANGES = (1, 2, 3, 5, 7, 100, 255, 256, 257, 5000, 0x2000, 0x3FFE, 0x3FFF, 0x10000, HUGE)


class Case(NamedTuple):
    name: str
    calls: list


# Writing and reading back.

def used_by(calls):
    """How many bytes are in use after the calls."""
    machine = Machine()
    for call in calls:
        machine.run(call)
    return (machine.writer.state.settled + 7) // 8


def granted(puts):
    """A refused call has its number by hand."""
    return [put for put in puts if put.by_hand[:1] in ((), (0,))]


def read_of(put, by_inner):
    """The read that finds what `put` wrote."""
    operand = put.a + 2 if put.op in DYNAMIC else put.a
    read = Call(put.op - PUT_STATIC + GET_STATIC, operand, d=put.d,
                by_hand=(0, value_of(put, put.d)))
    return inner(read) if by_inner else read


def reads_of(puts, turn=0):
    """Judged and inner reads in turn."""
    return [read_of(put, (index + turn) % 2 == 1) for index, put in enumerate(granted(puts))]


def shown_weights(puts, side):
    """The histograms used, of the writer (0) or the reader (2)."""
    used = sorted({put.a for put in puts if put.op == PUT_DYNAMIC})
    return [show_weights(histogram + side) for histogram in used]


def round_trip(puts, turn=0, fill=0):
    """Writes, ends, shows and reads back from the bytes in use."""
    begin = [start(fill=fill), *puts, end()]
    used = used_by(begin)
    return [*begin, show_bytes(min(used + 2, ROOM)), *shown_weights(puts, 0), length(used),
            *reads_of(puts, turn), *shown_weights(puts, 2)]


def both_turns(puts, fill=0):
    return round_trip(puts, 0, fill) + round_trip(puts, 1, fill)


# 01, "Examples on each side".

def scope_rows():
    return [
        put_plain(1, 0x01, 0, 0, TOP, 0, 8, 0), put_plain(1, 0x43, 0, 0, TOP, 0, 16, 0),
        end(0, 2, 0, TOP, 0, 16, 0), show_bytes(3, "014300"),
        get_static(256, 0, 0x80, 0, TOP, 0, 8, 0x80), get_static(256, 0, 0xC2, 0, TOP, 0, 16, 0xC2),
        start(), put_static(3, 1, 0, 0x2AAA, 0xD553, 1, 0, 1), show_bytes(1, "00"),
        start(), put_static(0x3FFF, 5, 0, 0, TOP, 0, 32, 1), show_bytes(5, "0500000000"),
        start(), put_dynamic(0, 0, 0, 0, TOP, 0, 32, 1), show_bytes(5, "0000000000"),
        show_weights(0, "0:2", "1:1"),
        put_dynamic(0, 0, 0, 0x5554, TOP, 0, 33, 1), show_bytes(5, "0000000001"),
        show_weights(0, "0:2", "1:2"),
        start(), put_static(3, 3, 10, 0, TOP, 0, 0, 0),
        # 01's alternative end, as worked out for the state of range 3, value 1.
        start(fill=0xFF), writer_at(0x2AAA, 0xD553, 1, 0), end(0, 3, 0, TOP, 0, 17, 0),
        show_bytes(4, "aaaa00ff"),
    ]


def contexts():
    """Each context by itself, from a fresh state."""
    return [
        put_plain(1, 0xAB, 0, 0, TOP, 0, 8, 0), put_plain(2, 0x1234, 0, 0, TOP, 0, 24, 0),
        put_plain(4, 0xDEADBEEF, 0, 0, TOP, 0, 56, 0), put_plain(1, 0x10005, 0, 0, TOP, 0, 64, 0),
        end(0, 8, 0, TOP, 0, 64, 0), show_bytes(9, "ab3412efbeadde0500"),
        get_plain(1, 0, 0xAB), get_plain(2, 0, 0x1234), get_plain(4, 0, 0xDEADBEEF),
        # One value in range 1 takes no bits, but counts as compressed.
        start(), put_static(1, 0, 0, 0, TOP, 0, 0, 1), end(0, 4, 0, TOP, 0, 32, 1),
        # In range 2 a value is a bit; 1 0 1 1 0 0 1 0 is 0x4D from the lowest.
        start(), put_static(2, 1, 0, 0, TOP, 0, 1, 1), put_static(2, 0, 0, 0, TOP, 0, 2, 1),
        put_static(2, 1, more=1), put_static(2, 0, more=1), put_static(2, 1),
        put_static(2, 0, 0, 0, TOP, 0, 8, 1), show_bytes(2, "4d00"),
        get_static(2, 0, 1), get_static(2, 0, 0), get_static(2, 0, 1, 0, TOP, 0, 4, 2, more=1),
        # Range 3: 0 to 0x5554 is below the half, 0xAAAA to 0xFFFF above it.
        start(), put_static(3, 0, 0, 0, 0xAAA9, 0, 1, 1),
        start(), put_static(3, 2, 0, 0x5554, TOP, 0, 1, 1),
        # Value 1 twice: 0x638D to 0x9C6F, two bits more are pending.
        start(), put_static(3, 1, more=1), put_static(1, 0, 0, 0x0E34, 0xF1BF, 3, 0, 1),
        *round_trip([put_static(3, 1), put_plain(4, 0x89ABCDEF), put_dynamic(0, 200),
                     put_dynamic(1, 200), put_static(0x3FFE, 0x1FFF), put_dynamic(1, 200),
                     put_plain(2, 0xFFFF), put_static(HUGE, HUGE - 1), put_plain(1, 0)]),
    ]


def reversal():
    """The whole table: plain bytes read in range 256, and the other way round."""
    plain = [put_plain(1, 0, step=1, more=255), end(0, 256, 0, TOP, 0, 2048, 0)]
    symbols = [get_static(256) for _ in range(256)]
    return [*plain, *symbols, start(), put_static(256, 0, step=1, more=255), show_bytes(256)]


# Static ranges.

def edge_values(static_range):
    values = {0, 1, 2, static_range // 2, static_range - 2, static_range - 1}
    return sorted(value for value in values if 0 <= value < static_range)


def static_run(static_range):
    """Edge values, then runs; values not below the range in between."""
    puts = [put_static(static_range, value) for value in edge_values(static_range)]
    puts += [put_static(static_range, static_range, 10), put_static(static_range, HUGE, 10)]
    puts += [put_static(static_range, 0, more=9), put_static(static_range, static_range - 1, more=9)]
    puts += [put_static(static_range, static_range // 2, more=9)]
    for step in (1, static_range // 3 + 1, 40503 % static_range):
        puts.append(put_static(static_range, 1 % static_range, step=step, more=24, below=static_range))
    return both_turns(puts, 0xFF)


def static_cases():
    ranges = (1, 2, 3, 4, 255, 256, 257, 5000, 0x3FFD, 0x3FFE, 0x3FFF, 0x10000, 0x80000000, HUGE)
    return [Case("static-%d" % static_range, static_run(static_range)) for static_range in ranges]


def plain_run():
    """Bytes as they are at the start, and in the middle of a bit after range 3."""
    numbers = [put_plain(1, 0x80), put_plain(2, 0x8001), put_plain(4, 0x80000001), put_plain(1, 0),
               put_plain(2, 0xFFFF), put_plain(4, HUGE), put_plain(4, 1, step=0x01234567, more=9)]
    return [
        put_plain(4, 0x64636261, more=1), put_plain(2, 0x6665), put_plain(1, 0x67), end(0, 11),
        show_bytes(12, "616263646162636465666700"), get_plain(4, 0, 0x64636261, more=1),
        get_plain(2, 0, 0x6665), get_plain(1, 0, 0x67, 0, TOP, 0, 88, 0x67),
        # Zeros follow; where just the bytes in use are lent, the next one is cut.
        inner(get_plain(1, 0, 0)), length(11), get_plain(1, 1), reader_at(0, TOP, 0, 80),
        get_plain(1, 0, 0x67), get_plain(1, 1, 0, 0, TOP, 0, 88, 0),
        # After the value 1 of range 3 a 5 is written as 51 01, and read as 5.
        start(), put_static(3, 1), put_plain(1, 5, 0, 0x5400, 0xFDFF, 0, 9, 1), show_bytes(3, "510100"),
        end(0, 6), show_bytes(7, "51550000000000"), get_static(3, 0, 1), get_plain(1, 0, 5),
        # After the one value of range 1 it is its byte, but the end writes four zero bytes.
        start(fill=0xFF), put_static(1, 0), put_plain(1, 5, 0, 0, TOP, 0, 8, 1), show_bytes(2, "05ff"),
        end(0, 5, 0, TOP, 0, 40, 1), show_bytes(6, "0500000000ff"),
        *both_turns(numbers), *both_turns([put_static(3, 1), *numbers, put_static(3, 1), *numbers]),
        *round_trip([put_static(3, 0), *numbers, put_static(7, 3), *numbers], fill=0xFF),
    ]


# Dynamic contexts.

def dynamic_runs():
    eight = [put_dynamic(0, 0, step=5, more=199, below=8), put_dynamic(0, 3, more=50),
             put_dynamic(0, 1, step=3, more=100, below=8), put_dynamic(0, 7)]
    all_values = [put_dynamic(0, 0, step=1, more=255), put_dynamic(0, 9, step=7, more=255, below=256),
                  put_dynamic(0, 255, more=3)]
    pair = [put_dynamic(0, 1, step=1, more=30, below=3), put_dynamic(1, 1, step=1, more=30, below=5),
            put_dynamic(0, 2, more=30), put_dynamic(1, 2, more=30), put_dynamic(0, 4),
            put_dynamic(1, 4), put_dynamic(0, 255), put_dynamic(1, 0)]
    skewed = [put_dynamic(0, 0, more=400), put_dynamic(0, 1, more=3), put_dynamic(0, 0, more=400),
              put_dynamic(0, 255, more=3), put_dynamic(0, 0, step=17, more=40, below=19)]
    return [Case("dynamic-8-values", both_turns(eight)),
            Case("dynamic-all-values", round_trip(all_values, 0) + round_trip(all_values[::-1], 1)),
            Case("dynamic-two", both_turns(pair, 0xFF)),
            Case("dynamic-skewed", both_turns(skewed))]


def halving_run():
    """Escape 2 and value 0 at 8189 make 0x1FFF: the next rise halves first."""
    return [
        put_dynamic(0, 0, more=8188), show_weights(0, "0:2", "1:8189"),
        put_dynamic(0, 0, 0), show_weights(0, "0:2", "1:4095"),
        put_dynamic(0, 0, more=4093), show_weights(0, "0:2", "1:8189"),
        # Now the escape's rise halves; value 5's own does not.
        put_dynamic(0, 5, 0), show_weights(0, "0:3", "1:4094", "6:1"),
        put_dynamic(0, 0, step=5, more=3199, below=10), show_weights(0, "0:3", "1:5694", "6:1601"),
        put_dynamic(0, 5, more=1000), show_weights(0), end(), show_bytes(120),
        get_dynamic(2, 0, 0, more=8188), show_weights(2, "0:2", "1:8189"),
        inner(get_dynamic(2, 0, 0)), show_weights(2, "0:2", "1:4095"),
        inner(get_dynamic(2, 0, 0, more=4093)), get_dynamic(2, 0, 5),
        show_weights(2, "0:3", "1:4094", "6:1"),
        inner(get_dynamic(2, 0, 5, more=3199)), get_dynamic(2, 0, 5, more=1000), show_weights(2),
    ]


def weights_of(pairs, side):
    """The same weights for the writer (0) or the reader (2)."""
    return [weight(side, symbol, count) for symbol, count in pairs]


def shown(weights):
    return ["%d:%d" % pair for pair in weights if pair[1] > 0]


def one_rise(before, value, after):
    """A histogram that is set, one value, and what the weights then are."""
    return [start(), *weights_of(before, 0), *weights_of(before, 2), put_dynamic(0, value, 0),
            show_weights(0, *after), end(), get_dynamic(2, 0, value), show_weights(2, *after)]


def halving_rises():
    """Around a total of 0x1FFF (8191)."""
    return [
        *one_rise([(0, 2), (1, 8188)], 0, ["0:2", "1:8189"]),
        *one_rise([(0, 2), (1, 8189)], 0, ["0:2", "1:4095"]),
        # Escaped: the first rise makes 8191, the second halves.
        *one_rise([(0, 2), (1, 8188)], 5, ["0:2", "1:4094", "6:1"]),
        # Escaped: the first rise halves, then it is far from 8191.
        *one_rise([(0, 2), (1, 8189)], 5, ["0:3", "1:4094", "6:1"]),
        *one_rise([(0, 2), (1, 8187)], 5, ["0:3", "1:8187", "6:1"]),
        # Halved to 0 and raised; escape 1 becomes 0 and is raised.
        *one_rise([(0, 1), (1, 8189), (2, 1)], 1, ["0:1", "1:4094", "2:1"]),
        *one_rise([(0, 8190), (256, 1)], 255, ["0:4096", "256:1"]),
        *one_rise([(0, 8191)], 255, ["0:4097", "256:1"]),
        *one_rise([(0, 1), (1, 1), (2, 8187), (3, 1), (256, 1)], 1, ["0:1", "2:4094"]),
    ]


def escape_again():
    """Value 7 is seen once, halved to 0, and escaped again."""
    return [
        put_dynamic(0, 7), put_dynamic(0, 3), show_weights(0, "0:3", "4:1", "8:1"),
        put_dynamic(0, 3, more=8185), show_weights(0, "0:3", "4:8187", "8:1"),
        put_dynamic(0, 3), show_weights(0, "0:2", "4:4094"),
        put_dynamic(0, 7), show_weights(0, "0:3", "4:4094", "8:1"),
        put_dynamic(0, 7), show_weights(0, "0:3", "4:4094", "8:2"), end(), show_bytes(24),
        inner(get_dynamic(2, 0, 7)), get_dynamic(2, 0, 3, more=8187), show_weights(2, "0:2", "4:4094"),
        get_dynamic(2, 0, 7), show_weights(2, "0:3", "4:4094", "8:1"), inner(get_dynamic(2, 0, 7)),
        show_weights(2, "0:3", "4:4094", "8:2"),
    ]


def seen_escape():
    """A reader accepts an escape for a value already seen."""
    return [
        # The writer knows value 9, the reader value 7: a half is the escape for both.
        weight(0, 10, 1), weight(2, 8, 1), put_dynamic(0, 7, 0, 0, TOP, 0, 33, 1),
        show_bytes(6, "0e0000000000"), show_weights(0, "0:2", "8:1", "10:1"), end(0, 9),
        get_dynamic(2, 0, 7, 0, TOP, 0, 33, 7), show_weights(2, "0:2", "8:2"),
        # The same by the inner reader, and with weights that are halved by it.
        reader_at(), weight(2, 0, 1), weight(2, 8, 1), inner(get_dynamic(2, 0, 7)),
        show_weights(2, "0:2", "8:2"),
        start(), *weights_of([(0, 4000), (10, 4190)], 0), *weights_of([(0, 4000), (8, 4190)], 2),
        put_dynamic(0, 7, 0), show_weights(0, "0:2001", "8:1", "10:2095"), end(),
        get_dynamic(2, 0, 7), show_weights(2, "0:2001", "8:2096"),
        # The writer forgets a value in the middle of a run.
        start(), put_dynamic(0, 1, step=1, more=20, below=3), show_weights(0, "0:4", "1:7", "2:7", "3:7"),
        weight(0, 2, 0), weight(0, 200, 7), put_dynamic(0, 1, 0), end(), show_bytes(30),
        get_dynamic(2, 0, 0, more=20), get_dynamic(2, 0, 1), show_weights(2, "0:5", "1:7", "2:8", "3:7"),
    ]


def halving_of_8():
    """Eight values in turn, each escaped once; halved once, near the end."""
    put = put_dynamic(0, 0, step=5, more=8399, below=8)
    return [put, show_weights(0), put_static(3, 1), end(), show_bytes(64), read_of(put, False),
            show_weights(2), get_static(3, 0, 1)]


def dynamic_cases():
    return dynamic_runs() + [
        Case("dynamic-halving", halving_run()), Case("dynamic-halving-8", halving_of_8()),
        Case("dynamic-halving-rises", halving_rises()),
        Case("dynamic-escape-again", escape_again()), Case("dynamic-seen-escape", seen_escape())]


# Mixed runs.

def mixed_put(dice):
    """A call of any context, sometimes made several times."""
    kind, more = dice.below(8), dice.pick((0, 0, 0, 1, 5))
    if kind < 3:
        static_range = dice.pick(MIXED_RANGES)
        return put_static(static_range, dice.below(static_range), step=dice.below(1000), more=more,
                          below=static_range)
    if kind < 6:
        values = dice.pick((2, 3, 8, 256))
        return put_dynamic(dice.below(2), dice.below(values), step=dice.below(9), more=more, below=values)
    return put_plain(dice.pick((1, 2, 4)), dice.below(2 ** 31), step=dice.below(2 ** 31), more=more)


def mixed_cases():
    cases = []
    for seed in range(1, 7):
        dice = Dice(seed)
        puts = [mixed_put(dice) for _ in range(90)]
        cases.append(Case("mixed-%d" % seed, round_trip(puts, seed % 2, dice.pick((0, 0xFF)))))
    return cases


# The end.

def end_phases():
    """Fresh limits, every phase of the last byte; the bytes hold ones before."""
    calls = []
    for settled in range(17):
        kept = bytes([0xFF] * (settled // 8) + [(1 << settled % 8) - 1] * (settled % 8 > 0))
        used, after = (settled + 7) // 8, (settled + 39) // 8
        zeros = kept + bytes(after - used)
        plain, compressed = kept + b"\xff" * 8, zeros + b"\xff" * 4
        calls += [
            start(fill=0xFF), writer_at(0, TOP, 0, settled), end(0, used, 0, TOP, 0, settled, 0),
            show_bytes(len(plain), plain.hex()),
            start(fill=0xFF), writer_at(0, TOP, 0, settled, True),
            end(0, after, 0, TOP, 0, settled + 32, 1), show_bytes(len(compressed), compressed.hex())]
    return calls


def end_found(state, *by_hand):
    """An end after which a reader at the state before it finds a number."""
    begin = [start(fill=0xFF), writer_at(*state), end(*by_hand)]
    used = used_by(begin)
    return [*begin, show_bytes(used + 2), length(used), reader_at(*state),
            get_static(1, 0, 0, *state, 0), inner(get_static(1, 0, 0, *state, 0)), get_static(256)]


def end_other():
    """01's other bits: the flag is false, and low or pending is above 0."""
    calls = [
        start(fill=0xFF), writer_at(1, TOP), end(0, 2, 0, TOP, 0, 16, 0), show_bytes(3, "0080ff"),
        start(fill=0xFF), writer_at(0x7FFF, TOP), end(0, 2, 0, TOP, 0, 16, 0), show_bytes(3, "feffff"),
        start(fill=0xFF), writer_at(0x4000, 0xC000), end(0, 2, 0, TOP, 0, 16, 0), show_bytes(3, "0200ff"),
        start(fill=0xFF), writer_at(0, TOP, 5), end(0, 3, 0, TOP, 0, 21, 0), show_bytes(4, "3e0000ff"),
        start(fill=0xFF), writer_at(0, 0x8000, 1, 7), end(0, 3, 0, TOP, 0, 24, 0),
        show_bytes(4, "7f0100ff"),
        # After it the limits are fresh, so a second end writes nothing.
        end(0, 3, 0, TOP, 0, 24, 0), put_plain(1, 0x5A), end(0, 4), show_bytes(5, "7f01005aff"),
        # Ones after the settled bits do not count: only zeros are seen after the end.
        start(fill=0xFF), writer_at(0x1234, TOP, 0, 8), end(0, 3, 0, TOP, 0, 24, 0),
    ]
    dice = Dice(10)
    for settled in range(24):
        pending = dice.pick((0, 1, 2, 5, 9, 17))
        low, high, _, _ = random_state(dice)
        after = settled + pending + 16
        calls += end_found((low or 1, high, pending, settled), 0, (after + 7) // 8, 0, TOP, 0, after, 0)
    return calls


def end_compressed():
    """The U32 0 at many states, read back as such. A byte 0 leaves low as it is and doubles it
    seven times or more: after three low is 0, after the fourth nothing is pending."""
    dice, calls = Dice(11), []
    for index in range(32):
        state = random_state(dice)
        begin = [start(fill=0xFF), writer_at(*state, compressed=True), end(0)]
        used = used_by(begin)
        reads = [get_static(1, 0, 0, *state, 0), get_plain(4, 0, 0, 0)]
        calls += [*begin, show_bytes(used + 2), length(used), reader_at(*state),
                  *[inner(read) if index % 2 else read for read in reads]]
    return calls


def end_flags():
    """What sets the flag, and what does not."""
    return [
        put_plain(4, 1), end(0, 4, 0, TOP, 0, 32, 0), put_static(0, 0, 10), put_dynamic(0, 256, 10),
        end(0, 4, 0, TOP, 0, 32, 0), length(4), put_static(2, 0, 12), put_dynamic(0, 5, 12),
        put_static(0x3FFF, 0, 12), end(0, 4, 0, TOP, 0, 32, 0),
        put_static(1, 0, 0, 0, TOP, 0, 32, 1), end(12, 0, 0, TOP, 0, 32, 1), length(8),
        end(0, 8, 0, TOP, 0, 64, 1), length(12), put_plain(2, 7, 0, 0, TOP, 0, 80, 1),
        end(12, 0, 0, TOP, 0, 80, 1), length(14), end(0, 14, 0, TOP, 0, 112, 1),
        start(), put_static(0x3FFF, 5, 0, 0, TOP, 0, 32, 1), end(0, 8, 0, TOP, 0, 64, 1),
        show_bytes(9, "050000000000000000"),
        start(), put_dynamic(0, 0, 0, 0, TOP, 0, 32, 1), end(0, 8, 0, TOP, 0, 64, 1),
        start(fill=0xFF), end(0, 0, 0, TOP, 0, 0, 0), show_bytes(2, "ffff"),
    ]


def end_cases():
    return [Case("end-phases", end_phases()), Case("end-other", end_other()),
            Case("end-compressed", end_compressed()), Case("end-flags", end_flags())]


# States that are handed in.

def random_state(dice, settled=40):
    """A state of good form, often at its edges."""
    while True:
        low = dice.pick((0, 0x3FFF, 0x4000, 0x7FFF, dice.below(0x8000), dice.below(0x8000)))
        high = dice.pick((0x8000, 0xBFFF, 0xC000, TOP, 0x8000 + dice.below(0x8000)))
        state = State(low, high, dice.pick((0, 0, 1, 2, dice.below(20))), dice.below(settled))
        if limits_well_formed(state):
            return tuple(state)


def random_weights(dice):
    """Some (symbol, weight), escape among them, of a total up to 0x1FFF."""
    most = dice.pick((3, 30, 700))
    return [(0, 1 + dice.below(most))] + [
        (symbol, dice.below(most)) for symbol in sorted({1 + dice.below(256) for _ in range(10)})]


def at_state(state, put, weights=(), turn=0, fill=0):
    """One call at a state, the end, and the read at the same state."""
    begin = [start(64, fill), *weights_of(weights, 0), *weights_of(weights, 2), writer_at(*state),
             put, end(0)]
    used = used_by(begin)
    return [*begin, show_bytes(used + 1), length(used), reader_at(*state), read_of(put, turn)]


def random_states(seed):
    dice, calls = Dice(seed), []
    for index in range(50):
        state, put = random_state(dice), mixed_put(dice)._replace(d=0)
        if put.op == PUT_DYNAMIC:
            put = put._replace(a=0)
        weights = random_weights(dice) if put.op == PUT_DYNAMIC else ()
        calls += at_state(state, put, weights, index % 2, dice.pick((0, 0xFF)))
    return calls


def narrow_limits():
    """The narrowest and widest limits with the largest range and the largest total."""
    full, calls = [(0, 1), (1, 4000), (128, 1), (256, 4189)], []
    for index, limits in enumerate([(0x3FFF, 0x8000), (0x7FFF, 0xC000), (0, 0x8000), (0x7FFF, TOP),
                                    (0x3FFF, 0xBFFF), (0x4000, 0xC001), (0, TOP)]):
        state = (*limits, index % 4, 5 + index)
        for value in (0, 1, 0x1FFF, 0x2000, 0x3FFC, 0x3FFD):
            calls += at_state(state, put_static(0x3FFE, value), (), value % 2, 0xFF)
        for value in (0, 127, 255):
            calls += at_state(state, put_dynamic(0, value), full, value % 2, 0xFF)
        calls += at_state(state, put_dynamic(0, 77), full)
    return calls


def state_cases():
    return [Case("states-%d" % seed, random_states(20 + seed)) for seed in range(1, 4)] + [
        Case("states-narrow", narrow_limits())]


# Pending bits and padding.

def middle_put(dice, state):
    """A call that narrows the limits to the middle, so that only pending rises."""
    while True:
        static_range = 3 + dice.below(0x3FFC)
        value = ((0x8000 - state.low + 1) * static_range - 1) // (state.high - state.low + 1)
        _, after = write_static(Writer(state), bytearray(ROOM), static_range, value)
        if after.state.settled == state.settled:
            return put_static(static_range, value, 0), after.state


def middle_puts(dice, count):
    puts, state = [], State()
    for _ in range(count):
        put, state = middle_put(dice, state)
        puts.append(put)
    return puts


def pending_rises():
    """No bit settles until the room is filled; then a bit of either kind lets them go."""
    puts = middle_puts(Dice(12), 60)
    calls = []
    for value in (0, 1):
        release = [put_static(2, value, 0), put_dynamic(0, 1), put_static(3, 1), put_plain(2, 0x7FFF)]
        calls += [start(40, 0xFF), put_static(3, 1, 0, 0x2AAA, 0xD553, 1, 0, 1),
                  put_static(3, 1, 0, 0x0E34, 0xF1BF, 3, 0, 1), put_static(1, 0, 0)]
        calls += both_turns([*puts, *release], 0xFF)
    filled = to_refusal([start(40, 0xFF), *[put._replace(by_hand=()) for put in puts]])
    return calls + [*filled, show_bytes(42, "ff" * 42), put_static(1, 0, 0), put_plain(2, 0, 12), end(12),
                    length(60), put_static(2, 1, 0), show_bytes(62)]


def to_refusal(calls):
    """The calls up to the first that is refused."""
    machine = Machine()
    for index, call in enumerate(calls, 1):
        fields = machine.run(call)
        if fields and fields[1] != 0:
            return calls[:index]
    return calls


def padding():
    """What is not settled in the last byte is 0; what comes after it is untouched."""
    return [
        start(fill=0xFF), put_static(2, 1, 0), show_bytes(2, "01ff"), put_static(2, 0),
        show_bytes(2, "01ff"),
        # Ones put there by the caller go, also if no bit settles.
        byte(0, 0xFF), put_static(1, 0, 0, 0, TOP, 0, 2, 1), show_bytes(2, "03ff"),
        byte(0, 0xF1), put_static(2, 1, 0, 0, TOP, 0, 3, 1), show_bytes(2, "05ff"),
        byte(0, 0xA5), put_static(3, 1, 0, 0x2AAA, 0xD553, 1, 3, 1), show_bytes(2, "05ff"),
        # At a byte's end nothing is touched by that.
        start(fill=0xFF), put_plain(1, 0x5A), show_bytes(2, "5aff"), put_static(1, 0),
        show_bytes(2, "5aff"), put_static(3, 1), show_bytes(2, "5aff"), end(), show_bytes(7),
        start(fill=0xFF), put_dynamic(0, 3), show_bytes(5, "03000000ff"), put_dynamic(0, 3),
        show_bytes(6, "0300000001ff"), end(0, 9), show_bytes(10),
        # A refused call leaves them.
        start(fill=0xFF), writer_at(0, TOP, 0, 3), put_static(3, 3, 10), put_static(0, 0, 10),
        put_dynamic(0, 256, 10), weight(0, 0, 0), put_dynamic(0, 1, 18), length(1), put_plain(1, 0, 12),
        put_static(256, 0, 12), show_bytes(2, "ffff"), put_static(1, 0, 0), show_bytes(2, "07ff"),
        # The last byte of all.
        start(fill=0xFF), writer_at(0, TOP, 0, 32757), put_static(2, 1, 0, 0, TOP, 0, 32758, 1),
        put_plain(1, 0xA5, 0, 0, TOP, 0, 32766, 1), put_static(2, 0, 0, 0, TOP, 0, 32767, 1),
        put_plain(1, 1, 12), put_static(2, 1, 0, 0, TOP, 0, 32768, 1), put_static(2, 1, 12), end(12),
        reader_at(0, TOP, 0, 32757), get_static(2, 0, 1), get_plain(1, 0, 0xA5), get_static(2, 0, 0),
        get_static(2, 0, 1, 0, TOP, 0, 32768, 1), get_static(2, 1), get_static(1, 0, 0), show_bytes(ROOM),
    ]


def no_room_at_all():
    """Buffers of 0 and 1 bytes."""
    return [
        start(0, 0xFF), put_static(1, 0, 0, 0, TOP, 0, 0, 1), put_static(2, 0, 12), put_static(3, 1, 12),
        put_plain(1, 0, 12), put_dynamic(0, 0, 12), show_weights(0, "0:1"), end(12, 0, 0, TOP, 0, 0, 1),
        start(0, 0xFF), end(0, 0, 0, TOP, 0, 0, 0), show_bytes(1, "ff"),
        get_static(1, 0, 0, *FRESH, 0), get_static(2, 1, 0, *FRESH, 0), get_plain(1, 1),
        get_dynamic(2, 1), show_weights(2, "0:1"), get_static(0, 10), get_static(3, 1),
        inner(get_static(1, 0, 0)), inner(get_static(2, 1)), inner(get_plain(1, 1)),
        start(1, 0xFF), put_plain(1, 0x42, 0), put_static(1, 0, 0), put_static(2, 1, 12), end(12),
        show_bytes(2, "42ff"), get_plain(1, 0, 0x42), get_static(1, 0, 0), get_static(2, 1),
        start(1), put_static(3, 1, 0, 0x2AAA, 0xD553, 1, 0, 1), put_static(3, 1, 0, 0x0E34, 0xF1BF, 3, 0, 1),
        put_static(256, 0, 12), writer_at(0, TOP, 0, 7), put_static(2, 1, 0), put_static(2, 1, 12),
        show_bytes(2, "8000"),
    ]


def place_cases():
    return [Case("pending", pending_rises()), Case("padding", padding()), Case("empty", no_room_at_all())]


# Bytes that no writer made.

def random_bytes(dice, count):
    return [put_plain(4, dice.below(2 ** 31) * 2 + dice.below(2), step=dice.below(2 ** 31) * 2 + 1, more=3)
            for _ in range(count // 16)]


def random_read(dice):
    kind, more = dice.below(9), dice.pick((0, 0, 0, 2, 7))
    if kind < 4:
        return get_static(dice.pick(MIXED_RANGES), more=more)
    if kind < 7:
        return get_dynamic(2 + dice.below(2), more=more)
    return get_plain(dice.pick((1, 2, 4)), more=more)


def random_reads(seed, size, count):
    """Reads of all contexts on random bytes, with histograms that are set."""
    dice = Dice(seed)
    histograms = [weight(side, *pair) for side in (2, 3) for pair in random_weights(dice)]
    reads = [random_read(dice) for _ in range(count)]
    return [start(size), *random_bytes(dice, size), *histograms,
            *[inner(read) if dice.below(2) else read for read in reads],
            show_weights(2), show_weights(3)]


def random_state_reads(seed):
    """Reads at random states on random bytes: mostly 18 for the judged reader."""
    dice = Dice(seed)
    calls = [start(48), *random_bytes(dice, 48)]
    for _ in range(150):
        low, high, pending, settled = random_state(dice, 400)
        pending = dice.pick((0, 0, 1, 2, pending))
        read = get_static(dice.pick(MIXED_RANGES)) if dice.below(3) else get_plain(dice.pick((1, 2, 4)))
        state = reader_at(low, high, pending, settled)
        calls += [state, read, state, inner(read)]
    return calls


def random_cases():
    sizes = ((160, 60), (256, 80), (512, 120), (1024, 150))
    return [Case("random-%d" % index, random_reads(40 + index, *size))
            for index, size in enumerate(sizes, 1)] + [
        Case("random-states-%d" % seed, random_state_reads(50 + seed)) for seed in (1, 2)]


def cases():
    first = [Case("scope-rows", scope_rows()), Case("contexts", contexts()), Case("reversal", reversal()),
             Case("plain", plain_run())]
    groups = (static_cases, dynamic_cases, mixed_cases, end_cases, state_cases, place_cases, random_cases)
    return first + [case for group in groups for case in group()]
