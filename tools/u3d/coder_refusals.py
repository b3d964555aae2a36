"""Scripts of coder calls that are refused, and of those that just are not.

As in coder_files, answers worked out by hand stand beside their calls.
"""

from u3d.coder import TOP
from u3d.coder_calls import (
    PUT_DYNAMIC, TAKE_STATIC, Machine, byte, end, get_dynamic, get_plain, get_static, inner, length,
    put_dynamic, put_plain, put_static, reader_at, show_bytes, show_weights, start,
    take_dynamic, weight, writer_at)
from u3d.coder_files import FRESH, HUGE, Case, reads_of, shown, used_by, weights_of

# Each (low, high) breaks one rule of the form.
BAD_LIMITS = (
    (0x8000, TOP), (TOP, TOP), (0x10000, TOP), (HUGE, TOP), (0, 0x7FFF), (0, 0), (0x7FFF, 0x7FFF),
    (0, 0x10000), (0, HUGE), (0x4000, 0x8000), (0x4000, 0xBFFF), (0x7FFF, 0x8000), (0x5555, 0xAAAA))


def bad_writer_states():
    """Lent are 16 bytes: 128 bits."""
    counts = ((0, 129), (129, 0), (64, 65), (1, 128), (HUGE, 0), (0, HUGE), (HUGE, 1), (1, HUGE),
              (2 ** 32, 0), (0, 2 ** 32), (2 ** 32, 2 ** 32), (2 ** 32 + 1, HUGE), (HUGE, 2 ** 32 + 5))
    states = [(*limits, 0, 9) for limits in BAD_LIMITS] + [(0, TOP, *count) for count in counts]
    calls = [start(16, 0xFF)]
    for state in states:
        fields = (18, *state, 0)
        calls += [writer_at(*state), put_static(1, 0, *fields), put_static(0, 0, *fields),
                  put_dynamic(0, 3, *fields), put_plain(1, 5, *fields), end(18, 0, *state, 0)]
    calls += [writer_at(0x8000, TOP, 0, 0, True), put_static(256, 7, 18, 0x8000, TOP, 0, 0, 1),
              end(18, 0, 0x8000, TOP, 0, 0, 1), show_bytes(17, "ff" * 17), show_weights(0, "0:1")]
    for state in ((0x3FFF, 0x8000, 0, 128), (0x7FFF, 0xC000, 128, 0), (0, 0x8000, 64, 64), (0, TOP, 1, 127)):
        calls += [writer_at(*state), put_static(1, 0, 0, *state, 1), put_plain(1, 5, 12, *state, 1)]
    return calls


def reader_refused(number, state):
    """Every read gives the number; range 0 and a bad histogram would be judged later."""
    reads = (get_static(1, number, 0, *state, 0), get_static(0, number), get_dynamic(2, number),
             get_dynamic(3, number), get_plain(4, number, 0, *state, 0))
    return [reader_at(*state), *reads, *map(inner, reads)]


def bad_reader_states():
    """The bytes 5a a5 00 ff begin with the bits 0101 1010, 1010 0101, 0000 0000."""
    calls = [start(4), weight(3, 0, 0), put_plain(4, 0xFF00A55A)]
    counts = ((0, 2 ** 32), (2 ** 32, 0), (2 ** 32, 2 ** 32), (2 ** 32 + 7, 0), (0, 2 ** 32 + 7))
    for state in [(*limits, 0, 0) for limits in BAD_LIMITS] + [(0, TOP, *count) for count in counts]:
        calls += reader_refused(18, state)
    # At 0 the sixteen bits are 0x5AA5; low above it, or at it. At 8 they are 0xA500.
    calls += reader_refused(18, (0x5AA6, TOP, 0, 0))
    calls += reader_refused(18, (0, 0xA4FF, 0, 8))
    for state in ((0x5AA5, TOP, 0, 0), (0x5AA4, 0xC000, 0, 0), (0, 0xA500, 0, 8), (0x3FFF, 0xA501, 0, 8)):
        calls += [reader_at(*state), get_static(1, 0, 0, *state, 0), inner(get_static(1, 0, 0, *state, 0))]
    # Past the end the bits are 0: low above 0 finds none.
    calls += reader_refused(18, (1, TOP, 0, 32)) + reader_refused(18, (0x3FFF, TOP, 0, 1000))
    return calls + [show_bytes(5, "5aa500ff00"), show_weights(2, "0:1"), show_weights(3)]


def pending_not_inverted():
    """The reader looks at the pending bits, the inner one does not."""
    calls = []
    # The first bit is 0 or 1, four pending ones follow; the fifteen after them are 0.
    for bits in range(32):
        good = bits in (0b11110, 0b00001)
        state = (0, TOP, 4, 0)
        calls += [start(8), byte(0, bits), reader_at(*state), inner(get_static(1, 0, 0, *state, 0)),
                  get_static(1, 0 if good else 18, 0, *state, 0), get_static(2, 0 if good else 18),
                  reader_at(*state), inner(get_static(2, 0, bits % 2, 0, TOP, 0, 5, bits % 2))]
    # Long runs with one bit that is not inverted, at the start, in the middle, at the end.
    calls += [start(16, 0xFF), byte(0, 0xFE), byte(15, 0), reader_at(0, TOP, 119, 0), get_static(1, 0),
              reader_at(0, TOP, 118, 0), get_static(1, 0), reader_at(0, TOP, 120, 0), get_static(1, 18)]
    for at, value in ((0, 0xFC), (7, 0xEF), (14, 0x7F)):
        calls += [start(16, 0xFF), byte(0, 0xFE), byte(15, 0), byte(at, value), reader_at(0, TOP, 119, 0),
                  get_static(1, 18, 0, 0, TOP, 119, 0, 0), get_plain(2, 18), get_dynamic(2, 18),
                  inner(get_static(1, 0, 0, 0, TOP, 119, 0, 0)),
                  inner(get_plain(1, 0, 0, 0, TOP, 0, 127, 0)), get_static(2, 0, 0), get_static(2, 1)]
    return calls


def big_counts():
    """Counts at 2^32; the only bit that is not 0 is the first one."""
    most = (0, TOP, HUGE, 0)
    past = (0, TOP, 0, HUGE)
    both = (0, TOP, HUGE, HUGE)
    first = [start(8), byte(0, 1), reader_at(*most), get_static(1, 0, 0, *most, 0),
             get_static(2, 1, 0, *most, 0), get_plain(1, 1), get_dynamic(2, 1), get_static(0, 10),
             # The bits 1 and fifteen zeros are in the middle of range 3: pending becomes 2^32.
             get_static(3, 0, 1, 0x2AAA, 0xD553, 2 ** 32, 0, 1),
             get_static(1, 18, 0, 0x2AAA, 0xD553, 2 ** 32, 0, 0), inner(get_static(1, 18))]
    again = [reader_at(*most)] + [inner(read) if read.op < TAKE_STATIC else read for read in first[3:]]
    return first + again + [
        start(8), reader_at(*most), get_static(1, 18), inner(get_static(1, 0, 0, *most, 0)),
        inner(get_static(2, 1)), reader_at(*past), get_static(1, 1, 0, *past, 0), get_static(0, 10),
        get_static(3, 1), get_dynamic(2, 1), get_plain(4, 1), inner(get_static(1, 1)),
        inner(get_plain(4, 1)),
        reader_at(*both), get_static(1, 18), inner(get_static(1, 1)), inner(get_static(0, 10)),
        # Already past the end: 1, though no bit settles; at the end it is done.
        reader_at(0, TOP, 0, 65), get_static(1, 1), get_static(0, 10), inner(get_static(1, 1)),
        reader_at(0, TOP, 0, 64), get_static(1, 0, 0, 0, TOP, 0, 64, 0), get_static(2, 1),
        reader_at(0, TOP, 1, 63), get_static(1, 18), inner(get_static(1, 0, 0)), inner(get_static(2, 1)),
        byte(7, 0x80), get_static(1, 0), get_static(2, 1), inner(get_static(2, 1)),
        get_static(3, 0, 1, 0x2AAA, 0xD553, 2, 63, 1), get_static(1, 0),
    ]


def bad_histograms():
    """Escape of weight 0, or a total above 0x1FFF, also where it wraps at 2^32."""
    sets = ([(0, 0)], [(0, 0), (1, 5)], [(0, 0), (4, 0x1FFF)], [(0, 0x2000)], [(0, 1), (1, 0x1FFF)],
            [(0, 1), (256, 0x1FFF)], [(0, 4096), (9, 4096)], [(0, HUGE)], [(0, 1), (1, HUGE), (2, 1)],
            [(0, 1), (5, 0x80000000), (256, 0x80000000)])
    calls = []
    for weights in sets:
        calls += [start(16, 0xFF), *weights_of(weights, 0), *weights_of(weights, 2),
                  put_dynamic(0, 1, 18, 0, TOP, 0, 0, 0), put_dynamic(0, 256, 18), put_dynamic(0, 255, 18),
                  get_dynamic(2, 18, 0, 0, TOP, 0, 0, 0), inner(get_dynamic(2, 18)),
                  show_weights(0, *shown(weights)), show_weights(2, *shown(weights)), show_bytes(2, "ffff"),
                  put_dynamic(1, 1, 0), get_dynamic(3, 0, 1)]
    return calls


def take_at(weights, first_byte, total, *by_hand):
    """One call of the inner reader; the first bits of the data tell the place in the total."""
    return [start(4), *weights_of(weights, 2), byte(0, first_byte), take_dynamic(2, total, *by_hand)]


def taken_at(weights, first_byte, total, bits, raised):
    """Value 0 is done, and settles so many bits."""
    return take_at(weights, first_byte, total, 0, 0, 0, TOP, 0, bits, 0, total + 1) + [
        show_weights(2, *raised)]


def not_taken_at(weights, first_byte, total):
    """18, which leaves the total and the weights."""
    return take_at(weights, first_byte, total, 18, 0, *FRESH, 0, total) + [
        show_weights(2, *shown(weights))]


def other_totals():
    """A total that is not the sum: taken where a known value's part ends within it."""
    two, three = [(0, 1), (1, 1)], [(0, 1), (1, 1), (2, 2)]
    wide = [(0, 1), (1, 1), (9, HUGE), (256, HUGE)]
    calls = []
    # A fresh context: its escape wants the sum.
    for total in (0, 2, 0x1FFE, 0x1FFF, 0x2000, HUGE):
        calls += not_taken_at([(0, 1)], 7, total)
    calls += take_at([(0, 1)], 7, 1, 0, 7, 0, TOP, 0, 32, 7, 3) + [show_weights(2, "0:2", "8:1")]
    # Too large: value 0 has the second quarter, the upper half is nobody's.
    calls += taken_at(two, 0x02, 4, 2, ["0:1", "1:2"])
    calls += not_taken_at(two, 0x00, 4) + not_taken_at(two, 0x01, 4) + not_taken_at(two, 0x03, 4)
    # Too small: value 0 has the upper half, or the middle third; value 1 passes the end.
    calls += taken_at(three, 0x01, 2, 1, ["0:1", "1:2", "2:2"])
    calls += take_at(three, 0x06, 3, 0, 0, 0x2AAA, 0xD553, 1, 0, 0, 4)
    calls += not_taken_at(three, 0x00, 2) + not_taken_at(three, 0x03, 3)
    # What is not looked at may be anything; a sum that wraps at 2^32 is not the total.
    calls += taken_at(wide, 0x01, 2, 1, ["0:1", "1:2", "9:%d" % HUGE, "256:%d" % HUGE])
    calls += not_taken_at(wide, 0x00, 2) + not_taken_at([(0, 1), (1, HUGE)], 0x03, 5)
    return calls + not_taken_at([(0, HUGE), (1, 2)], 0x00, 1)


def total_limits():
    """Around 0x1FFF (8191), without a weight of escape, and what is judged before and after."""
    full, less, four = [(0, 2), (1, 8189)], [(0, 2), (1, 8188)], [(0, 1), (1, 1), (2, 1), (3, 1)]
    calls = [*take_at(full, 0x03, 8191, 0, 0), show_weights(2, "0:2", "1:4095"), inner(get_dynamic(2, 0, 0)),
             *take_at(less, 0x03, 8190, 0, 0), show_weights(2, "0:2", "1:8189")]
    calls += not_taken_at(less, 0x03, 8191) + not_taken_at(full, 0x03, 8190) + not_taken_at(full, 0x03, 8192)
    for total in (4, 5, 6):
        calls += not_taken_at([(0, 0), (1, 5)], 0x02, total)
    return calls + [
        # 1, and with half the total done: the part is larger, and settles one bit.
        start(1), *weights_of(four, 2), byte(0, 0x80), reader_at(0, TOP, 0, 7),
        take_dynamic(2, 4, 1, 0, 0, TOP, 0, 7, 0, 4), show_weights(2, *shown(four)),
        take_dynamic(2, 2, 0, 0, 0, TOP, 0, 8, 0, 3),
        # 10 and 1 after an escape; a bad state is judged first.
        start(), put_plain(4, 256), take_dynamic(2, 1, 10, 0, *FRESH, 0, 1), length(3),
        take_dynamic(2, 1, 1, 0, *FRESH, 0, 1), show_weights(2, "0:1"), length(0), reader_at(0x8000),
        take_dynamic(2, 1, 18, 0, 0x8000, TOP, 0, 0, 0, 1), take_dynamic(2, 2, 18),
    ]


def bad_values():
    """10, each way."""
    beyond = (256, 257, 0x10000, 0x7FFFFFFF, HUGE)
    calls = [start(fill=0xFF)]
    calls += [put_static(0, value, 10, 0, TOP, 0, 0, 0) for value in (0, 1, HUGE)]
    calls += [put_static(top, top, 10, 0, TOP, 0, 0, 0) for top in (1, 2, 256, 0x3FFE, 0x3FFF, 0x4000, HUGE)]
    calls += [put_dynamic(0, value, 10, 0, TOP, 0, 0, 0) for value in beyond]
    calls += [end(0, 0), show_bytes(4, "ffffffff"), show_weights(0, "0:1")]
    calls += [get_static(0, 10, 0, *FRESH, 0), inner(get_static(0, 10, 0, *FRESH, 0))]
    # A range above 0x3FFE is a U32 for the reader, judged when it is read.
    for value, top in ((0x3FFF, 0x3FFF), (HUGE, 0x3FFF), (HUGE, HUGE), (0x80000000, 0x80000000)):
        calls += [start(), put_plain(4, value), get_static(top, 10, 0, *FRESH, 0),
                  inner(get_static(top, 10, 0, *FRESH, 0)), length(3), get_static(top, 1), length(4)]
        calls += [get_static(top + 1, 0, value)] if value == top < HUGE else []
    # So is the value after an escape; the histogram stays.
    for value in beyond:
        calls += [start(), put_plain(4, value), get_dynamic(2, 10, 0, *FRESH, 0),
                  inner(get_dynamic(2, 10, 0, *FRESH, 0)), show_weights(2, "0:1"), length(3),
                  get_dynamic(2, 1)]
    return calls + [start(), put_plain(4, 255), get_dynamic(2, 0, 255), show_weights(2, "0:2", "256:1")]


def refused_order():
    """Two faults: the one that is judged first decides."""
    bad = (0x8000, TOP, 0, 0)
    return [
        # Writer: 18, 10, 12.
        start(0), writer_at(*bad), put_static(0, 0, 18), put_static(256, 300, 18), put_dynamic(0, 256, 18),
        put_plain(4, 0, 18), end(18), writer_at(), put_static(0, 0, 10), put_static(256, 300, 10),
        put_static(0x4000, 0x4000, 10), put_dynamic(0, 256, 10), put_static(256, 3, 12),
        put_static(0x4000, 3, 12), put_dynamic(0, 3, 12), weight(0, 0, 0), put_dynamic(0, 3, 18),
        put_dynamic(0, 256, 18), writer_at(*bad), put_dynamic(0, 3, 18), show_weights(0),
        # Reader: 18, 10 for range 0, 1, 10 for the value.
        start(4, 0xFF), reader_at(*bad), get_static(0, 18), get_static(0x4000, 18), get_dynamic(2, 18),
        inner(get_static(0, 18)), length(3), get_plain(4, 18), reader_at(), get_static(0, 10),
        get_static(0x4000, 1), get_dynamic(2, 1), get_plain(4, 1), weight(2, 0, 0), get_dynamic(2, 18),
        inner(get_dynamic(2, 18)), length(0), get_dynamic(2, 18), get_static(0, 10), get_static(2, 1),
        length(4), get_static(0x4000, 10), weight(2, 0, 1), get_dynamic(2, 10), get_plain(4, 0, HUGE),
    ]


def refusal_cases():
    return [
        Case("refuse-writer-states", bad_writer_states()), Case("refuse-reader-states", bad_reader_states()),
        Case("refuse-pending", pending_not_inverted()), Case("refuse-counts", big_counts()),
        Case("refuse-histograms", bad_histograms()), Case("refuse-totals", other_totals() + total_limits()),
        Case("refuse-values", bad_values()),
        Case("refuse-order", refused_order())]


# Room: 12 and 1, exactly.

def bits_taken(state, weights, call, compressed):
    """How many bits, settled or pending, a call adds at a state."""
    machine = Machine()
    for each in [*weights_of(weights, 0), writer_at(*state, compressed), call]:
        machine.run(each)
    after = machine.writer.state
    return after.settled + after.pending - state[2] - state[3]


def at_room(limits, pending, call, weights=(), compressed=False):
    """The call where it just fits 20 bytes, and with one bit less."""
    taken = bits_taken((*limits, pending, 0), weights, call, compressed)
    if taken == 0:
        return []
    settled = 160 - pending - taken
    refused = (12, 0) if call == end() else (12,)
    set_up = [start(20, 0xFF), *weights_of(weights, 0)]
    state = (*limits, pending, settled + 1)
    return [
        *set_up, writer_at(*limits, pending, settled, compressed), call._replace(by_hand=(0,)),
        show_bytes(22),
        *set_up, writer_at(*state, compressed),
        call._replace(by_hand=(*refused, *state, int(compressed))), show_bytes(22, "ff" * 22),
        show_weights(0, *shown(weights or [(0, 1)]))]


def rooms():
    weights = [(0, 3), (6, 9), (256, 2)]
    puts = [put_static(2, 1), put_static(3, 1), put_static(3, 0), put_static(256, 77),
            put_static(0x3FFE, 5000), put_static(0x3FFF, 5), put_plain(1, 1), put_plain(2, 1),
            put_plain(4, 1), put_dynamic(0, 255), put_dynamic(0, 7)]
    calls = []
    for limits, pending in (((0, TOP), 0), ((0x2AAA, 0xD553), 1), ((0x7FFF, 0xC000), 11)):
        for put in puts:
            calls += at_room(limits, pending, put, weights if put.op == PUT_DYNAMIC else ())
        calls += at_room(limits, pending, end(), compressed=True)
    # The other end adds 16 bits to settled and pending ones.
    for pending in (0, 1, 5, 40):
        fits = (0x1234, TOP, pending, 160 - 16 - pending)
        past = (0x1234, TOP, pending, 160 - 15 - pending)
        calls += [start(20, 0xFF), writer_at(*fits), end(0, 20, 0, TOP, 0, 160, 0), show_bytes(22),
                  start(20, 0xFF), writer_at(*past), end(12, 0, *past, 0), show_bytes(22, "ff" * 22)]
    # Nothing is written, so full is enough.
    return calls + [start(20, 0xFF), writer_at(0, TOP, 0, 160), end(0, 20, 0, TOP, 0, 160, 0)]


def cut_static(static_range, count):
    """The data cut at every byte, read by both readers from the start."""
    put = put_static(static_range, 1, step=static_range // 3 + 1, more=count - 1, below=static_range)
    begin = [put, end()]
    calls = [*begin, show_bytes(used_by(begin))]
    for size in range(used_by(begin), -1, -1):
        calls += [length(size), reader_at(), get_static(static_range, more=count - 1),
                  reader_at(), inner(get_static(static_range, more=count - 1))]
    return calls


def cut_plain():
    """The number that is cut is not read; a number of 4 bytes ends at 32 bits each."""
    calls = [put_plain(4, 0x04030201, step=0x04040404, more=3), end(0, 16)]
    for size in range(16, -1, -1):
        whole = size // 4
        number, value = (0, 0x100F0E0D) if whole == 4 else (1, 0)
        calls += [length(size), reader_at(), get_plain(4, number, value, 0, TOP, 0, 32 * whole, more=3),
                  reader_at(), inner(get_plain(4, number, value, 0, TOP, 0, 32 * whole, more=3)),
                  reader_at(), get_plain(1, 0 if size == 16 else 1, more=15)]
    return calls


def cut_mixed(puts):
    """Every context: written again for each cut, as the histograms change."""
    begin = [*puts, end()]
    calls = []
    for size in range(used_by(begin), -1, -1):
        reads = [read._replace(by_hand=()) for read in reads_of(puts, size)]
        calls += [start(), *begin, length(size), *reads, show_weights(2)]
    return calls


def reading_bits():
    """One bit at a time to the end of 2 bytes."""
    calls = [start(2), put_plain(2, 0xA53C)]
    calls += [get_static(2, 0, 0xA53C >> place & 1, 0, TOP, 0, place + 1) for place in range(16)]
    calls += [get_static(2, 1, 0, 0, TOP, 0, 16, 0), get_static(1, 0), get_static(3, 1), get_plain(1, 1)]
    for settled in range(18):
        calls += [reader_at(0, TOP, 0, settled), get_static(256, 0 if settled <= 8 else 1)]
    return calls


def room_cases():
    mixed = [put_dynamic(0, 5, step=1, more=3, below=7), put_static(3, 1, more=5), put_plain(2, 0xBEEF),
             put_dynamic(0, 6, more=4), put_static(0x3FFF, 0x1234), put_dynamic(0, 200)]
    dynamic = [put_dynamic(0, 3, step=1, more=2, below=256), put_dynamic(0, 4, more=9)]
    return [
        Case("room", rooms()), Case("cut-3", cut_static(3, 40)), Case("cut-5000", cut_static(5000, 12)),
        Case("cut-65536", cut_static(0x10000, 4)), Case("cut-plain", cut_plain()),
        Case("cut-mixed", cut_mixed(mixed)), Case("cut-dynamic", cut_mixed(dynamic)),
        Case("cut-bits", reading_bits())]


def cases():
    return refusal_cases() + room_cases()
