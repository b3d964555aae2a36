"""Scripts of coder calls, and what the program `coder_runs` prints for them.

A script is a list of records of six U32: an operation and its operands a to e. It runs on
a buffer of 4096 bytes, of which the first `length` are lent to every call, a writer, a
reader's state and four histograms: 0 and 1 for the writer, 2 and 3 for the reader.
"""

import struct
from typing import NamedTuple

from u3d import coder
from u3d.coder import DONE, Counted, State, Writer

ROOM = 4096
PROGRAM_LIMIT = 64 * 1024

(START, WRITER, READER, WEIGHT, BYTE, LENGTH, PUT_STATIC, PUT_DYNAMIC, PUT_PLAIN, END,
 GET_STATIC, GET_DYNAMIC, GET_PLAIN, TAKE_STATIC, TAKE_DYNAMIC, TAKE_PLAIN,
 SHOW_BYTES, SHOW_WEIGHTS) = range(18)

WRITES = {PUT_STATIC: coder.write_static, PUT_DYNAMIC: coder.write_dynamic,
          PUT_PLAIN: coder.write_plain}
READS = {GET_STATIC: coder.read_static, GET_DYNAMIC: coder.read_dynamic,
         GET_PLAIN: coder.read_plain, TAKE_STATIC: coder.take_static,
         TAKE_DYNAMIC: coder.take_dynamic, TAKE_PLAIN: coder.take_plain}
DYNAMIC = (PUT_DYNAMIC, GET_DYNAMIC, TAKE_DYNAMIC)
INNER = TAKE_STATIC - GET_STATIC  # from a judged read to the same of the inner reader


class Differs(Exception):
    """An answer unlike the one by hand, or something written that is not read back."""


class Call(NamedTuple):
    """A record; `by_hand` are the first fields of its answer, or all of what is shown."""

    op: int
    a: int = 0
    b: int = 0
    c: int = 0
    d: int = 0
    e: int = 0
    by_hand: tuple = ()


def script(calls):
    return b"".join(struct.pack("<6I", *call[:6]) for call in calls)


# Records. `more` is how often a call is made again; each time the value rises by `step`,
# and it is taken modulo `below`, if that is above 0.

def start(length=ROOM, fill=0):
    return Call(START, length, fill)


def writer_at(low=0, high=coder.TOP, pending=0, settled=0, compressed=False):
    return Call(WRITER, low, high, *_counts(pending, settled, int(compressed)))


def reader_at(low=0, high=coder.TOP, pending=0, settled=0):
    return Call(READER, low, high, *_counts(pending, settled, 0))


def _counts(pending, settled, flag):
    """The two counts modulo 2^32, and the flag with their next bits."""
    flags = flag | (pending >> 32) << 1 | (settled >> 32) << 2
    return pending % 2 ** 32, settled % 2 ** 32, flags


def weight(histogram, symbol, value):
    return Call(WEIGHT, histogram, symbol, value)


def byte(at, value):
    return Call(BYTE, at, value)


def length(count):
    return Call(LENGTH, count)


def put_static(static_range, value, *by_hand, step=0, more=0, below=0):
    return Call(PUT_STATIC, static_range, value, step, more, below, by_hand)


def put_dynamic(histogram, value, *by_hand, step=0, more=0, below=0):
    return Call(PUT_DYNAMIC, histogram, value, step, more, below, by_hand)


def put_plain(count, value, *by_hand, step=0, more=0, below=0):
    return Call(PUT_PLAIN, count, value, step, more, below, by_hand)


def end(*by_hand):
    return Call(END, by_hand=by_hand)


def get_static(static_range, *by_hand, more=0):
    return Call(GET_STATIC, static_range, d=more, by_hand=by_hand)


def get_dynamic(histogram, *by_hand, more=0):
    return Call(GET_DYNAMIC, histogram, d=more, by_hand=by_hand)


def get_plain(count, *by_hand, more=0):
    return Call(GET_PLAIN, count, d=more, by_hand=by_hand)


def inner(call):
    """The same read by the inner reader, a dynamic one with the total that is the sum."""
    return call._replace(op=call.op + INNER)


def take_dynamic(histogram, total, *by_hand, more=0):
    """With a total of the caller's; the one after the call stands last in the answer."""
    return Call(TAKE_DYNAMIC, histogram, total, 1, more, by_hand=by_hand)


def show_bytes(count, *by_hand):
    return Call(SHOW_BYTES, count, by_hand=by_hand)


def show_weights(histogram, *by_hand):
    return Call(SHOW_WEIGHTS, histogram, by_hand=by_hand)


# Running.

class Machine:
    """`base` is the writer with its histograms before `written`: the values granted since,
    as (read operation, operand, value)."""

    def __init__(self):
        self._start(start())

    def run(self, call):
        """Answers the fields of the line that the call prints, None if it prints none."""
        if call.op in WRITES:
            return self._put(call)
        if call.op in READS:
            return self._get(call)
        if call.op == END:
            return self._end()
        if call.op == SHOW_BYTES:
            return ["bytes", self.buffer[:call.a].hex()]
        if call.op == SHOW_WEIGHTS:
            return ["weights", *_weights(self.histograms[call.a])]
        self._set(call)
        return None

    def _start(self, call):
        self.length = call.a
        self.buffer = bytearray([call.b % 256]) * ROOM
        self.writer = Writer()
        self.reader = State()
        self.histograms = [coder.fresh_histogram() for _ in range(4)]
        self._rebase()

    def _rebase(self):
        self.base = self.writer, [list(weights) for weights in self.histograms[:2]]
        self.written = []

    def _set(self, call):
        """Operations 0 to 5: what is read back ends before them."""
        self.read_back()
        if call.op == START:
            self._start(call)
        elif call.op == WRITER:
            self.writer = Writer(_state(call), call.e & 1 == 1)
        elif call.op == READER:
            self.reader = _state(call)
        elif call.op == WEIGHT:
            self.histograms[call.a][call.b] = call.c
        elif call.op == BYTE:
            self.buffer[call.a] = call.b % 256
        else:
            self.length = call.a
        self._rebase()

    def _operand(self, call):
        if call.op == TAKE_DYNAMIC:
            return Counted(self.histograms[call.a], call.b if call.c == 1 else None)
        return self.histograms[call.a] if call.op in DYNAMIC else call.a

    def _put(self, call):
        for index in range(call.d + 1):
            value = value_of(call, index)
            lent = self.buffer[:self.length]
            number, self.writer = WRITES[call.op](self.writer, lent, self._operand(call), value)
            self.buffer[:self.length] = lent
            if number != DONE:
                break
            self.written.append((call.op - PUT_STATIC + GET_STATIC, call.a, value))
        return ["write", number, *_writer_fields(self.writer)]

    def _end(self):
        self.read_back()
        before, lent = self.writer.state, self.buffer[:self.length]
        number, used, self.writer = coder.end(self.writer, lent)
        self.buffer[:self.length] = lent
        if number == DONE and coder.read_static(before, lent[:used], 1)[0] != DONE:
            raise Differs("no number found at the end")
        self._rebase()
        return ["end", number, used, *_writer_fields(self.writer)]

    def _get(self, call):
        values = 0
        lent, operand = bytes(self.buffer[:self.length]), self._operand(call)
        for _ in range(call.d + 1):
            number, value, self.reader = READS[call.op](self.reader, lent, operand)
            values += value
            if number != DONE:
                break
        counted = [operand.total] if call.op == TAKE_DYNAMIC else []
        return ["read", number, value, *self.reader, values % 2 ** 32, *counted]

    def read_back(self):
        """The values written since `base` must be found again, by both readers."""
        if not self.written:
            return
        data = self.buffer + bytes(16 + self.writer.state.pending // 8)
        _, used, _ = coder.end(self.writer, data)
        for step in (0, INNER):
            self._read_back(bytes(data[:used]), step)

    def _read_back(self, data, step):
        writer, histograms = self.base
        state, histograms = writer.state, [list(weights) for weights in histograms]
        contexts = [Counted(weights) for weights in histograms] if step == INNER else histograms
        for op, operand, value in self.written:
            given = contexts[operand] if op == GET_DYNAMIC else operand
            number, found, state = READS[op + step](state, data, given)
            if (number, found) != (DONE, value):
                raise Differs("written %d, read back %d (%d)" % (value, found, number))
        if (state, histograms) != (self.writer.state, self.histograms[:2]):
            raise Differs("read back to another state than written")


def _state(call):
    return State(call.a, call.b, call.c + (call.e >> 1 & 1) * 2 ** 32,
                 call.d + (call.e >> 2 & 1) * 2 ** 32)


def value_of(call, index):
    value = (call.b + index * call.c) % 2 ** 32
    value = value % call.e if call.e > 0 else value
    return value % 256 ** call.a if call.op == PUT_PLAIN else value


def _writer_fields(writer):
    return [*writer.state, int(writer.compressed)]


def _weights(histogram):
    return ["%d:%d" % (symbol, count) for symbol, count in enumerate(histogram) if count > 0]


def output(name, calls):
    """What the program prints for one script; answers by hand must agree."""
    machine = Machine()
    lines = [["file", name]]
    for index, call in enumerate(calls):
        fields = machine.run(call)
        if call.by_hand and not _agrees(call, fields[1:]):
            raise Differs("record %d answers %s, by hand %s" % (index, fields[1:], call.by_hand))
        lines += [fields] if fields else []
    machine.read_back()
    return "".join("\t".join(map(str, fields)) + "\n" for fields in lines).encode("ascii")


def _agrees(call, answer):
    whole = call.op in (SHOW_BYTES, SHOW_WEIGHTS)
    return tuple(answer if whole else answer[:len(call.by_hand)]) == call.by_hand
