"""The bit coder of Universal 3D: a writer and a reader to compare with.

Written from ECMA-363 (4th edition), clause 10.4, and from document 01, whose sentences
the comments quote. Shares nothing with the proved code. The writer goes bit by bit, as
10.4.4 tells it; the reader counts the same steps in another way. Every function answers
01's number first; after a refusal nothing is changed.
"""

from bisect import bisect_right
from itertools import accumulate
from typing import NamedTuple

# 01, "Numbers given back".
DONE = 0
CUT = 1
TOO_LARGE = 9
NOT_BELOW = 10
NO_ROOM = 12
NOT_WELL_FORMED = 18

BUFFER_LIMIT = 16 * 1024 * 1024
TOP = 0xFFFF  # the high limit at the start of a block
HALF = 0x8000
QUARTER = 0x4000
MOST_RANGE = 0x3FFE  # 10.4: a static range above it is a plain U32
MOST_WEIGHT = 0x1FFF  # 10.4.9
ESCAPE = 0
MOST_DYNAMIC = 255
SYMBOLS = MOST_DYNAMIC + 2  # escape, then the values upward


class State(NamedTuple):
    """10.4.3: the limits, the bits put off (underflow), and the bits settled so far."""

    low: int = 0
    high: int = TOP
    pending: int = 0
    settled: int = 0


class Writer(NamedTuple):
    """10.4.10 asks whether a compressed value was written."""

    state: State = State()
    compressed: bool = False


class Refused(Exception):
    """A refusal with its number."""

    def __init__(self, number):
        super().__init__(number)
        self.number = number


def fresh_histogram():
    """01: "A fresh dynamic context has escape weight 1, all else 0"."""
    return [1] + [0] * (SYMBOLS - 1)


def risen(histogram, symbol):
    """10.4.9: the weights after one more `symbol`."""
    weights = list(histogram)
    if sum(weights) >= MOST_WEIGHT:
        weights = [weight // 2 for weight in weights]
        weights[ESCAPE] += 1
    weights[symbol] += 1
    return weights


def reversed_byte(byte):
    """10.4.8: "most significant bit exchanged with least significant bit and so on"."""
    return sum(1 << 7 - place for place in range(8) if byte >> place & 1)


def limits_well_formed(state):
    """01: "low is below 0x8000, high is 0x8000 to 0xFFFF, low hasn't 0x4000 while high lacks it"."""
    crossed = state.low & QUARTER and not state.high & QUARTER
    return state.low < HALF <= state.high <= TOP and not crossed


def _judge_histogram(histogram):
    """01: "escape has weight 1 or more and the total is at most 0x1FFF"."""
    if histogram[ESCAPE] < 1 or sum(histogram) > MOST_WEIGHT:
        raise Refused(NOT_WELL_FORMED)


# Writer. Each call answers (number, writer), `end` (number, bytes used, writer).

def write_static(writer, buffer, static_range, value):
    return _write(_write_static, writer, buffer, static_range, value)


def write_dynamic(writer, buffer, histogram, value):
    """`histogram`, a list of weights, is changed when the call is granted."""
    return _write(_write_dynamic, writer, buffer, histogram, value)


def write_plain(writer, buffer, count, value):
    """U8, U16, U32: `count` is 1, 2 or 4."""
    return _write(_write_plain, writer, buffer, count, value)


def end(writer, buffer):
    number, after = _write(_write_end, writer, buffer)
    used = (after.state.settled + 7) // 8
    return number, used if number == DONE else 0, after


def _write(write, writer, buffer, *operands):
    try:
        _judge_writer(writer, buffer)
        return DONE, write(writer, buffer, *operands)
    except Refused as refused:
        return refused.number, writer


def _judge_writer(writer, buffer):
    """9, then 18: "settled plus pending bits fit the lent buffer"."""
    if len(buffer) > BUFFER_LIMIT:
        raise Refused(TOO_LARGE)
    state = writer.state
    if not limits_well_formed(state) or state.settled + state.pending > 8 * len(buffer):
        raise Refused(NOT_WELL_FORMED)


def _write_static(writer, buffer, static_range, value):
    if not value < static_range:
        raise Refused(NOT_BELOW)
    if static_range > MOST_RANGE:
        state, bits = _plain_bits(writer.state, 4, value)
    else:
        state, bits = _symbol_bits(writer.state, value, 1, static_range)
    _store(buffer, writer.state, state, bits)
    return Writer(state, True)


def _write_dynamic(writer, buffer, histogram, value):
    _judge_histogram(histogram)
    if value > MOST_DYNAMIC:
        raise Refused(NOT_BELOW)
    escaped = histogram[value + 1] == 0
    symbol = ESCAPE if escaped else value + 1
    state, bits = _symbol_bits(
        writer.state, sum(histogram[:symbol]), histogram[symbol], sum(histogram))
    weights = risen(histogram, symbol)
    if escaped:
        state, more = _plain_bits(state, 4, value)
        bits += more
        weights = risen(weights, value + 1)
    _store(buffer, writer.state, state, bits)
    histogram[:] = weights
    return Writer(state, True)


def _write_plain(writer, buffer, count, value):
    state, bits = _plain_bits(writer.state, count, value)
    _store(buffer, writer.state, state, bits)
    return Writer(state, writer.compressed)


def _write_end(writer, buffer):
    """10.4.10, or 01's other bits where a reader would not find a number after it."""
    state, bits = writer.state, []
    if writer.compressed:
        state, bits = _plain_bits(state, 4, 0)
    if not _finds_number(writer.state, bits):
        state, bits = _other_end(writer.state)
    _store(buffer, writer.state, state, bits)
    return Writer(state, writer.compressed)


def _finds_number(state, bits):
    """Whether a reader at `state` finds a number from low to high in `bits` and zeros."""
    seen = bits + [0] * (state.pending + 16)
    bit, skipped = seen[0], seen[1:1 + state.pending]
    number = _number([bit] + seen[1 + state.pending:16 + state.pending])
    return all(other != bit for other in skipped) and state.low <= number <= state.high


def _other_end(state):
    """01: "low's top bit, the pending ones inverted, low's other fifteen"."""
    top, *others = [state.low >> place & 1 for place in range(15, -1, -1)]
    bits = [top] + [1 - top] * state.pending + others
    return State(settled=state.settled + len(bits)), bits


def _plain_bits(state, count, value):
    """10.4.2, 10.4.8: low byte first, each reversed and in static range 256."""
    bits = []
    for place in range(count):
        state, more = _symbol_bits(state, reversed_byte(value >> 8 * place & 0xFF), 1, 256)
        bits += more
    return state, bits


def _symbol_bits(state, before, weight, total):
    """10.4.4.2 to 10.4.4.5: a symbol of `weight`, with the weights `before` it, of `total`."""
    low, high, pending, settled = state
    bits = []
    width = high - low + 1
    high = low + width * (before + weight) // total - 1
    low = low + width * before // total
    while low & HALF == high & HALF:
        bit = low >> 15
        bits += [bit] + [1 - bit] * pending
        pending = 0
        low, high = 2 * (low % HALF), 2 * (high % HALF) + 1
    while low & QUARTER and not high & QUARTER:
        pending += 1
        low, high = 2 * (low % QUARTER), HALF + 2 * (high % QUARTER) + 1
    return State(low, high, pending, settled + len(bits)), bits


def _store(buffer, before, after, bits):
    """01: "Bits fill each byte from its lowest"; those of the last one not settled are 0."""
    if after.settled + after.pending > 8 * len(buffer):
        raise Refused(NO_ROOM)
    unsettled = [0] * (-after.settled % 8)
    for place, bit in enumerate(bits + unsettled, before.settled):
        at, mask = place // 8, 1 << place % 8
        buffer[at] = buffer[at] & ~mask | bit * mask


# Reader. Each call answers (number, value, state).

def read_static(state, data, static_range):
    return _read(_read_static, state, data, static_range, True)


def read_dynamic(state, data, histogram):
    """`histogram`, a list of weights, is changed when the call is granted."""
    return _read(_read_dynamic, state, data, histogram, True)


def read_plain(state, data, count):
    return _read(_read_plain, state, data, count, True)


# The inner reader: the same, but it does not look whether the pending bits are inverted,
# and a dynamic context comes with the total that its caller keeps.

class Counted:
    """A dynamic context's weights and their total; a granted call changes both."""

    def __init__(self, weights, total=None):
        self.weights = weights
        self.total = sum(weights) % 2 ** 32 if total is None else total


def take_static(state, data, static_range):
    return _read(_read_static, state, data, static_range, False)


def take_dynamic(state, data, counted):
    return _read(_take_dynamic, state, data, counted, False)


def take_plain(state, data, count):
    return _read(_read_plain, state, data, count, False)


def _read(read, state, data, operand, look):
    try:
        _judge_reader(state, data, look)
        value, after = read(state, data, operand)
        return DONE, value, after
    except Refused as refused:
        return refused.number, 0, state


def _judge_reader(state, data, look):
    """9, then 18; `look` at the pending bits, too."""
    if len(data) > BUFFER_LIMIT:
        raise Refused(TOO_LARGE)
    counts_fit = state.settled < 2 ** 32 and state.pending < 2 ** 32
    if not limits_well_formed(state) or not counts_fit:
        raise Refused(NOT_WELL_FORMED)
    if not state.low <= _code(state, data) <= state.high:
        raise Refused(NOT_WELL_FORMED)
    if look and not _pending_inverted(state, data):
        raise Refused(NOT_WELL_FORMED)


def _bit(data, place):
    """01: "A reader sees zeros past the end"."""
    return data[place // 8] >> place % 8 & 1 if place < 8 * len(data) else 0


def _number(bits):
    return sum(bit << place for place, bit in enumerate(reversed(bits)))


def _code(state, data):
    """01: the next bit "makes with the next fifteen", after the pending ones, a number."""
    after = state.settled + 1 + state.pending
    return _number([_bit(data, state.settled)]
                   + [_bit(data, place) for place in range(after, after + 15)])


def _pending_inverted(state, data):
    """Whether each pending bit is the inverse of the next bit; past the end all are 0."""
    bit = _bit(data, state.settled)
    places = range(state.settled + 1, state.settled + 1 + state.pending)
    inside = range(places.start, min(places.stop, 8 * len(data)))
    if bit == 0 and len(inside) < len(places):
        return False
    return all(_bit(data, place) != bit for place in inside)


def _judge_settled(state, data):
    """01, 1: "a coded value's settled bits pass the end of the data"."""
    if state.settled > 8 * len(data):
        raise Refused(CUT)


def _read_static(state, data, static_range):
    if static_range == 0:
        raise Refused(NOT_BELOW)
    if static_range > MOST_RANGE:
        value, after = _next_plain(state, data, 4)
    else:
        value, after = _next_symbol(state, data, range(static_range + 1))
    _judge_settled(after, data)
    if value >= static_range:
        raise Refused(NOT_BELOW)
    return value, after


def _read_dynamic(state, data, histogram):
    _judge_histogram(histogram)
    symbol, after = _next_symbol(state, data, [0, *accumulate(histogram)])
    value, weights = symbol - 1, risen(histogram, symbol)
    if symbol == ESCAPE:
        value, after = _next_plain(after, data, 4)
    _judge_settled(after, data)
    if value > MOST_DYNAMIC:
        raise Refused(NOT_BELOW)
    histogram[:] = risen(weights, value + 1) if symbol == ESCAPE else weights
    return value, after


def _take_dynamic(state, data, counted):
    """A known value is read by the total as it is given; for all else it must be the sum."""
    starts = [0, *accumulate(counted.weights)]
    symbol = _known_symbol(state, data, starts, counted.total)
    if symbol is None:
        return _take_summed(state, data, counted)
    after = _part(state, starts[symbol], starts[symbol + 1], counted.total)
    _judge_settled(after, data)
    counted.weights[symbol] += 1
    counted.total += 1
    return symbol - 1, after


def _take_summed(state, data, counted):
    if sum(counted.weights) != counted.total:
        raise Refused(NOT_WELL_FORMED)
    value, after = _read_dynamic(state, data, counted.weights)
    counted.total = sum(counted.weights)
    return value, after


def _known_symbol(state, data, starts, total):
    """The symbol of a value that was seen, where its part ends within the total. None if
    there is no such, if escape has no weight, or if weights are halved at this total."""
    if starts[1] == 0 or not 0 < total < MOST_WEIGHT:
        return None
    symbol = bisect_right(starts, _place(state, data, total)) - 1
    if symbol == ESCAPE or symbol == SYMBOLS or starts[symbol + 1] > total:
        return None
    return symbol


def _read_plain(state, data, count):
    value, after = _next_plain(state, data, count)
    _judge_settled(after, data)
    return value, after


def _next_plain(state, data, count):
    value = 0
    for place in range(count):
        symbol, state = _next_symbol(state, data, range(257))
        value |= reversed_byte(symbol) << 8 * place
    return value, state


def _next_symbol(state, data, starts):
    """The symbol whose part holds the code. `starts` has the weights before each symbol,
    and the total last.

    The part of a symbol begins at width * start // total, from low on. That is at most the
    code's distance from low when start is at most the place: the last such symbol is it.
    """
    total = starts[-1]
    symbol = bisect_right(starts, _place(state, data, total)) - 1
    return symbol, _part(state, starts[symbol], starts[symbol + 1], total)


def _place(state, data, total):
    width = state.high - state.low + 1
    return ((_code(state, data) - state.low + 1) * total - 1) // width


def _part(state, begin, end, total):
    """The state after the part of the total from `begin` to `end`."""
    width = state.high - state.low + 1
    return _moved(state, state.low + width * begin // total, state.low + width * end // total - 1)


def _moved(state, low, high):
    """The state after the limits were narrowed to `low` and `high`, by counting bits:
    those that both begin with are settled, with the pending ones; those that then are 1
    in low and 0 in high, after the first, are pending."""
    agreed = 16 - (low ^ high).bit_length()
    low, high = low << agreed & TOP, (high + 1 << agreed) - 1 & TOP
    settled = state.settled + agreed + (state.pending if agreed else 0)
    crossed = 15 - (~(low & ~high) % HALF).bit_length()
    low, high = (low << crossed) % HALF, HALF + ((high + 1 << crossed) - 1) % HALF
    return State(low, high, crossed + (0 if agreed else state.pending), settled)
