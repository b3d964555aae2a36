"""Blocks of a Universal 3D file: builders for tests, and a reader to compare with.

Written from ECMA-363 (4th edition), clauses 9.1, 9.2, 9.4.1 and 9.4.3, and from
documents 01 and 02, whose sentences the comments quote. Shares nothing with the proved code.
"""

import struct

HEADER = 0x00443355
CHAIN = 0xFFFFFF14


def _under_ffffff(*last_bytes):
    return frozenset(0xFFFFFF00 | last for last in last_bytes)


# 01: "Known types, by last byte under 0xFFFFFF".
DECLARATIONS = _under_ffffff(
    0x12, 0x14, 0x16, *range(0x21, 0x25), 0x31, 0x36, 0x37,
    *range(0x41, 0x47), *range(0x51, 0x57))
CONTINUATIONS = _under_ffffff(0x15, 0x3B, 0x3C, 0x3E, 0x3F, 0x5C)
KNOWN = DECLARATIONS | CONTINUATIONS | {HEADER}

# 01, "Sizes".
LIBRARY_LIMIT = 16 * 1024 * 1024
PROGRAM_LIMIT = 64 * 1024
NAME_LIMIT = 255
CHAIN_LEVELS = 4

# 01, "Numbers given back".
DONE = 0
CUT = 1
NOT_A_HEADER = 2
WRONG_SIZE = 3
PROFILE = 4
PADDING = 5
UNKNOWN_TYPE = 6
CHAIN_CONTENTS = 7
LONG_NAME = 8
TOO_LARGE = 9
OUT_OF_ORDER = 11

HEAD_SIZE = 12  # 9.2: block type, data size, meta data size
DATA_WITHOUT_UNITS = 24  # 9.4.1 without the units scaling factor
HEADER_FIELDS = "<HHIIQI"  # 9.4.1.1 to 9.4.1.5, versions as bit patterns
EXTENSIBLE = 0x2
DEFINED_UNITS = 0x8
METRES = 0x3FF0000000000000  # the bit pattern of the F64 1.0


# Builders. Every field follows from the contents unless it is given.

def u16(value):
    return struct.pack("<H", value)


def u32(value):
    return struct.pack("<I", value)


def u64(value):
    return struct.pack("<Q", value)


def _given(value, otherwise):
    return otherwise if value is None else value


def _zeros_after(size):
    """The zero bytes that bring `size` to a multiple of 4."""
    return bytes(-size % 4)


def block(block_type, data=b"", meta=b"", data_size=None, meta_size=None,
          data_padding=None, meta_padding=None):
    """9.2: a block, of which each size and padding can be given."""
    head = (block_type, _given(data_size, len(data)), _given(meta_size, len(meta)))
    return (struct.pack("<III", *head)
            + data + _given(data_padding, _zeros_after(len(data)))
            + meta + _given(meta_padding, _zeros_after(len(meta))))


def header_block(file_size=0, declaration_size=0, major=0, minor=0, profile=0,
                 encoding=106, units=None, block_type=HEADER, **parts):
    """9.4.1: the file header block; `units` are the factor's bytes, `parts` those of `block`."""
    data = struct.pack(HEADER_FIELDS, major, minor, profile,
                       declaration_size, file_size, encoding)
    factor = u64(METRES) if profile & DEFINED_UNITS else b""
    return block(block_type, data + _given(units, factor), **parts)


def name_field(name, length=None):
    """A String: U16 length, then its bytes."""
    return u16(_given(length, len(name))) + name


def chain_data(name=b"", chain_type=0, attributes=0, padding=None, count=None,
               blocks=(), name_length=None):
    """9.4.3: a modifier chain's data."""
    fields = name_field(name, name_length) + u32(chain_type) + u32(attributes)
    return (fields + _given(padding, _zeros_after(len(fields)))
            + u32(_given(count, len(blocks))) + b"".join(blocks))


def file_of(declarations=b"", continuations=b"", **header):
    """9.1: a file. Both size fields count what is there, unless given."""
    declared = len(header_block(**header)) + len(declarations)
    sizes = {"declaration_size": declared, "file_size": declared + len(continuations)}
    return header_block(**{**sizes, **header}) + declarations + continuations


def with_file_size(data):
    """The same bytes with the file size field (24 to 31) set to their length."""
    if len(data) < 32:
        return data
    return data[:24] + u64(len(data)) + data[32:]


# Reader.

class Refused(Exception):
    """A refusal: the number given back, and the offending field's offset."""

    def __init__(self, number, place):
        super().__init__(number, place)
        self.number = number
        self.place = place


def walk(data, limit=LIBRARY_LIMIT):
    """Answers (number, place, rows); a row is (offset, type, data size, meta size, depth)."""
    try:
        _judge_length(data, limit)
        return DONE, 0, _read_file(data)
    except Refused as refused:
        return refused.number, refused.place, []


def header_fields(data):
    """(minor, profile, declaration size, file size, encoding, units), None if block 1 is refused.

    The first block is judged alone, before the rest of the file.
    """
    try:
        fields, _, _ = _read_header(data)
        return fields
    except Refused:
        return None


def listing(data, limit=PROGRAM_LIMIT):
    """The listing program's whole output (01, "Examples on each side")."""
    number, _, rows = walk(data, limit)
    lines = ["blocks\t1"]
    lines += ["block\t%d\t%08x\t%d\t%d\t%d" % row for row in rows]
    lines += ["end\t%d\t%d" % (number, len(rows))]
    return "".join(line + "\n" for line in lines).encode("ascii")


def data_part(data, at):
    """The data of the block at any offset, b"" where it isn't whole in the bytes."""
    if at + HEAD_SIZE > len(data):
        return b""
    start, end, _, _, _ = _edges(at, *_sizes(data, at))
    return data[start:end] if end <= len(data) else b""


def meta_part(data, at):
    """The meta data of the block at any offset, b"" where it isn't whole in the bytes."""
    if at + HEAD_SIZE > len(data):
        return b""
    _, _, start, end, _ = _edges(at, *_sizes(data, at))
    return data[start:end] if end <= len(data) else b""


def chain_name(data, at):
    """The name of the chain at any offset, b"" where that is no whole name to 255 bytes."""
    contents = data_part(data, at)
    if len(contents) < 2 or _u32(data, at) != CHAIN:
        return b""
    length = _u16(contents, 0)
    if length > NAME_LIMIT or 2 + length > len(contents):
        return b""
    return contents[2:2 + length]


def _u16(data, at):
    return int.from_bytes(data[at:at + 2], "little")


def _u32(data, at):
    return int.from_bytes(data[at:at + 4], "little")


def _sizes(data, at):
    return _u32(data, at + 4), _u32(data, at + 8)


def _edges(at, data_size, meta_size):
    """9.2: where data, its padding, meta data and its padding start, and the block's end."""
    start = at + HEAD_SIZE
    data_end = start + data_size
    meta = data_end + -data_size % 4
    meta_end = meta + meta_size
    return start, data_end, meta, meta_end, meta_end + -meta_size % 4


def _judge_length(data, limit):
    """01: "a file .. above 16 MiB (place 0, judged first)"."""
    if len(data) > limit:
        raise Refused(TOO_LARGE, 0)


def _read_file(data):
    """9.1: a header, then declarations, then continuations, to the end of the file."""
    _, row, at = _read_header(data)
    rows = [row]
    allowed = DECLARATIONS | CONTINUATIONS
    while at < len(data):
        block_type, at = _read_block(data, at, len(data), 0, allowed, rows)
        if block_type in CONTINUATIONS:
            allowed = CONTINUATIONS
    return rows


def _read_header(data):
    """The first block, in 02's order: its fields, its row, its end."""
    block_type, data_size, meta_size = _read_head(data, 0, len(data), CUT)
    if block_type != HEADER:
        raise Refused(NOT_A_HEADER, 0)
    _need(12, DATA_WITHOUT_UNITS, len(data), CUT)
    major, *fields = struct.unpack_from(HEADER_FIELDS, data, 12)
    _judge_version(major, fields[1])
    if data_size != _header_data_size(fields[1]):
        raise Refused(NOT_A_HEADER, 4)
    _need(12, data_size, len(data), CUT)
    _judge_sizes(fields[2], fields[3], len(data))
    edges = _edges(0, data_size, meta_size)
    _judge_room(edges, len(data), CUT)
    _judge_paddings(data, edges)
    return (*fields, _units(data, fields[1])), (0, block_type, data_size, meta_size, 0), edges[-1]


def _header_data_size(profile):
    """02: "profile bit 0x8 adds an F64 .., so the data is 32 bytes then and 24 otherwise"."""
    return 32 if profile & DEFINED_UNITS else DATA_WITHOUT_UNITS


def _judge_version(major, profile):
    """02: "major version, 4"."""
    if major != 0:
        raise Refused(NOT_A_HEADER, 12)
    if profile & ~(EXTENSIBLE | DEFINED_UNITS):
        raise Refused(PROFILE, 16)


def _judge_sizes(declaration_size, file_size, length):
    """01: "file size field differs from the file's length, or declaration size exceeds" it."""
    if declaration_size > length:
        raise Refused(WRONG_SIZE, 20)
    if file_size != length:
        raise Refused(WRONG_SIZE, 24)


def _units(data, profile):
    """02: "Hand the factor out as its 64-bit pattern, 0 when absent"; 9.4.1.6."""
    return int.from_bytes(data[36:44], "little") if profile & DEFINED_UNITS else 0


def _read_block(data, at, end, depth, allowed, rows):
    """A block after the first, in 01's order; answers its type and its end.

    `end` is that of the file, or of the chain's data that the block stands in.
    """
    past_end = CHAIN_CONTENTS if depth else CUT
    block_type, data_size, meta_size = _read_head(data, at, end, past_end)
    if block_type not in KNOWN:
        raise Refused(UNKNOWN_TYPE, at)
    if block_type not in allowed:
        raise Refused(OUT_OF_ORDER, at)
    if block_type == CHAIN and depth >= CHAIN_LEVELS:
        raise Refused(CHAIN_CONTENTS, at)
    edges = _edges(at, data_size, meta_size)
    _judge_room(edges, end, past_end)
    rows.append((at, block_type, data_size, meta_size, depth))
    if block_type == CHAIN:
        _read_chain(data, edges[0], edges[1], depth, rows)
    _judge_paddings(data, edges)
    return block_type, edges[-1]


def _read_chain(data, start, end, depth, rows):
    """9.4.3: a chain's contents, which fill its data from `start` to `end` exactly."""
    at = _read_chain_name(data, start, end)
    at = _read_chain_number(data, at, end, 2)
    at = _read_chain_number(data, at, end, 0)
    at = _read_chain_padding(data, at, end, -(at - start) % 4)
    _need(at, 4, end, CHAIN_CONTENTS)
    count = _u32(data, at)
    at += 4
    for _ in range(count):
        _, at = _read_block(data, at, end, depth + 1, DECLARATIONS, rows)
    if at != end:
        raise Refused(CHAIN_CONTENTS, at)


def _read_chain_name(data, at, end):
    """The name, length and bytes, is one field: cut before too long."""
    _need(at, 2, end, CHAIN_CONTENTS)
    length = _u16(data, at)
    _need(at, 2 + length, end, CHAIN_CONTENTS)
    if length > NAME_LIMIT:
        raise Refused(LONG_NAME, at)
    return at + 2 + length


def _read_chain_number(data, at, end, highest):
    """01: "chain type above 2; chain attributes not 0"."""
    _need(at, 4, end, CHAIN_CONTENTS)
    if _u32(data, at) > highest:
        raise Refused(CHAIN_CONTENTS, at)
    return at + 4


def _read_chain_padding(data, at, end, size):
    """9.4.3.6: zero bytes before the modifier count."""
    _need(at, size, end, CHAIN_CONTENTS)
    _judge_zeros(data, at, at + size)
    return at + size


def _read_head(data, at, end, past_end):
    """9.2: a block's first three numbers, refused at the first that is cut."""
    for field in (at, at + 4, at + 8):
        _need(field, 4, end, past_end)
    return struct.unpack_from("<III", data, at)


def _need(at, size, end, past_end):
    """What starts at `at` must not pass `end`."""
    if at + size > end:
        raise Refused(past_end, at)


def _judge_room(edges, end, past_end):
    """Refused at the start of what is cut first: data, padding, meta data, padding."""
    for start, stop in zip(edges, edges[1:]):
        _need(start, stop - start, end, past_end)


def _judge_paddings(data, edges):
    """9.2.5, 9.2.7: zero bytes after data and after meta data."""
    _, data_end, meta, meta_end, block_end = edges
    _judge_zeros(data, data_end, meta)
    _judge_zeros(data, meta_end, block_end)


def _judge_zeros(data, start, end):
    for place in range(start, end):
        if data[place] != 0:
            raise Refused(PADDING, place)
