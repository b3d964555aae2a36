"""Mesh declarations and base meshes of Universal 3D: builders for tests, and a reader to
compare with.

Written from ECMA-363 (4th edition), clauses 9.6.1.1 and 9.6.1.2, and from document 01,
whose sentences the comments quote. Shares nothing with the proved code. A mesh is read from
the data of two blocks; a refusal says in which part its place counts.
"""

import struct
from typing import NamedTuple

from u3d import blocks, coder
from u3d.blocks import PROGRAM_LIMIT, name_field, u32

# 01, "Numbers given back".
DONE = 0
CUT = 1
BAD_NAME = 8
TOO_LARGE = 9
NOT_BELOW = 10
DISAGREES = 11
NO_ROOM = 12
BYTES_LEFT = 17

# The two parts.
DECLARATION = 0
CONTINUATION = 1

# 01, "Sizes".
DATA_LIMIT = 16 * 1024 * 1024
NAME_LIMIT = 255
COUNT_LIMIT = 65536
SHADING_LIMIT = 64
LAYER_LIMIT = 2

NO_NORMALS = 1  # 9.6.1.1.3.1
DIFFUSE = 1  # 9.6.1.1.3.9.1
SPECULAR = 2

# Tables, in the order of the counts.
TABLES = ("faces", "positions", "normals", "diffuse", "specular", "texture")
FACES, POSITIONS, NORMALS, DIFFUSES, SPECULARS, TEXTURES = range(6)
CORNER_SIZE = 4 + LAYER_LIMIT
FACE_SIZE = 1 + 3 * CORNER_SIZE
WIDTHS = (FACE_SIZE, 3, 3, 4, 4, 4)
ABSENT = 0xFFFFFFFF

DECLARATION_BLOCK = 0xFFFFFF31
BASE_MESH_BLOCK = 0xFFFFFF3B


class Shading(NamedTuple):
    """9.6.1.1.3.9, with a dimension for each texture layer."""

    attributes: int = 0
    dimensions: tuple = ()
    original_id: int = 0


class Declaration(NamedTuple):
    """9.6.1.1; quantization factors and parameters are F32 bit patterns."""

    name: bytes = b""
    chain_index: int = 0
    attributes: int = 0
    counts: tuple = (0,) * 6
    shadings: tuple = ()
    minimum_resolution: int = 0
    maximum_resolution: int = 0
    quality_factors: tuple = (0,) * 3
    inverse_quants: tuple = (0,) * 5
    normal_parameters: tuple = (0,) * 3
    bone_count: int = 0


# Builders. Every field follows from the contents unless it is given.

def _given(value, otherwise):
    return otherwise if value is None else value


def words(values):
    return struct.pack("<%dI" % len(values), *values)


def shading_data(shading, layer_count=None):
    layers = _given(layer_count, len(shading.dimensions))
    return words([shading.attributes, layers, *shading.dimensions, shading.original_id])


def declaration_data(declaration, name_length=None, shading_count=None, shadings=None, tail=b""):
    """A declaration's data; `shadings` are the bytes of all shading descriptions."""
    described = b"".join(shading_data(shading) for shading in declaration.shadings)
    closing = (declaration.minimum_resolution, declaration.maximum_resolution,
               *declaration.quality_factors, *declaration.inverse_quants,
               *declaration.normal_parameters, declaration.bone_count)
    return (name_field(declaration.name, name_length)
            + words([declaration.chain_index, declaration.attributes, *declaration.counts])
            + u32(_given(shading_count, len(declaration.shadings)))
            + _given(shadings, described) + words(closing) + tail)


def continuation_data(name, counts, pools=(), coded=b"", chain_index=0, name_length=None):
    """A base mesh's data; `pools` are lists of F32 bit patterns."""
    return (name_field(name, name_length) + words([chain_index, *counts])
            + b"".join(words(pool) for pool in pools) + coded)


def corner_fields(declaration, counts, shading_id):
    """9.6.1.2.4.6.2: the fields of a corner that are present, as (field, static range)."""
    shading = declaration.shadings[shading_id]
    fields = [(0, counts[POSITIONS])]
    if not declaration.attributes & NO_NORMALS:
        fields.append((1, counts[NORMALS]))
    if shading.attributes & DIFFUSE:
        fields.append((2, counts[DIFFUSES]))
    if shading.attributes & SPECULAR:
        fields.append((3, counts[SPECULARS]))
    return fields + [(4 + layer, counts[TEXTURES]) for layer in range(len(shading.dimensions))]


def face_record(declaration, shading_id, *corners):
    """A record of 19 numbers; a corner is given by the fields that it has."""
    record = [shading_id] + [ABSENT] * (FACE_SIZE - 1)
    fields = corner_fields(declaration, (0,) * 6, shading_id)
    for start, corner in zip(range(1, FACE_SIZE, CORNER_SIZE), corners):
        for (field, _), value in zip(fields, corner):
            record[start + field] = value
    return record


def face_numbers(declaration, counts, records):
    """The numbers that are written for faces: (None, id) in context cShading, (range, value)."""
    for record in records:
        yield None, record[0]
        fields = corner_fields(declaration, counts, record[0])
        for start in range(1, FACE_SIZE, CORNER_SIZE):
            yield from ((static_range, record[start + field]) for field, static_range in fields)


class FaceWriter:
    """The coder's writer at the start of the faces, with context cShading."""

    def __init__(self, room):
        self.buffer = bytearray(room)
        self.writer = coder.Writer()
        self.context = coder.fresh_histogram()

    def put(self, static_range, value):
        if static_range is None:
            number, self.writer = coder.write_dynamic(self.writer, self.buffer, self.context, value)
        else:
            number, self.writer = coder.write_static(self.writer, self.buffer, static_range, value)
        if number != coder.DONE:
            raise ValueError("%s in range %s: %d" % (value, static_range, number))

    def settled_bytes(self):
        """The bytes that hold settled bits, without an end."""
        return bytes(self.buffer[:(self.writer.state.settled + 7) // 8])

    def end(self):
        """10.4.10: the bytes, and all that the end adds to them."""
        number, used, _ = coder.end(self.writer, self.buffer)
        if number != coder.DONE:
            raise ValueError("no room for the end")
        return bytes(self.buffer[:used])


def coded_faces(declaration, counts, records, room=65536):
    writer = FaceWriter(room)
    for static_range, value in face_numbers(declaration, counts, records):
        writer.put(static_range, value)
    return writer.end()


# Reader.

class Refused(Exception):
    """A refusal: the number given back, the part, and the offending field's offset in it."""

    def __init__(self, number, part, place):
        super().__init__(number, part, place)
        self.number = number
        self.part = part
        self.place = place


class Mesh(NamedTuple):
    """What a read answers; `tables` are those lent, after the read."""

    number: int
    part: int
    place: int
    counts: tuple
    shading_count: int
    tables: list


def read_declaration(data):
    """Answers (number, place, declaration), the last empty on a refusal."""
    try:
        _judge_length(data, DECLARATION)
        return DONE, 0, _Part(data, DECLARATION).declaration()
    except Refused as refused:
        return refused.number, refused.place, Declaration()


def read_mesh(declaration_bytes, continuation, tables):
    """Reads a mesh into `tables`, six lists of words. A refusal leaves them as they are."""
    try:
        _judge_length(declaration_bytes, DECLARATION)
        _judge_length(continuation, CONTINUATION)
        declaration = _Part(declaration_bytes, DECLARATION).declaration()
        counts, contents = _Part(continuation, CONTINUATION).base_mesh(
            declaration, [len(table) for table in tables])
    except Refused as refused:
        return Mesh(refused.number, refused.part, refused.place, (0,) * 6, 0, tables)
    filled = [held + [0] * (len(table) - len(held)) for held, table in zip(contents, tables)]
    return Mesh(DONE, 0, 0, counts, len(declaration.shadings), filled)


def mesh_name(data):
    """The name at the start of either part, None where it is cut or too long."""
    try:
        return _Part(data, CONTINUATION).name()
    except Refused:
        return None


def _judge_length(data, part):
    """01: "mesh data .. above 16 MiB (place 0, judged first)"."""
    if len(data) > DATA_LIMIT:
        raise Refused(TOO_LARGE, part, 0)


class _Part:
    """One of the two parts, read in file order: "the first bad one decides"."""

    def __init__(self, data, part):
        self.data = data
        self.part = part
        self.at = 0

    def refuse(self, number, place):
        raise Refused(number, self.part, place)

    def name(self):
        """A name, length and bytes, is one field: cut before too long."""
        length = int.from_bytes(self.data[:2], "little")
        if len(self.data) < 2 + length:
            self.refuse(CUT, 0)
        if length > NAME_LIMIT:
            self.refuse(BAD_NAME, 0)
        self.at = 2 + length
        return self.data[2:self.at]

    def word(self):
        place = self.at
        if place + 4 > len(self.data):
            self.refuse(CUT, place)
        self.at += 4
        return int.from_bytes(self.data[place:self.at], "little")

    def several(self, count):
        return tuple(self.word() for _ in range(count))

    def limited(self, limit):
        """01, 9: "a count above its limit, or bone count not 0"."""
        value = self.word()
        if value > limit:
            self.refuse(TOO_LARGE, self.at - 4)
        return value

    def flags(self, known):
        """01: "other bits of either 0, else 11"; a chain index has none at all."""
        value = self.word()
        if value & ~known:
            self.refuse(DISAGREES, self.at - 4)
        return value

    def shading(self):
        attributes = self.flags(DIFFUSE | SPECULAR)
        dimensions = self.several(self.limited(LAYER_LIMIT))
        return Shading(attributes, dimensions, self.word())

    def declaration(self):
        """9.6.1.1; 01: "from name to bone count"; then 17 at the first byte left."""
        name, chain_index, attributes = self.name(), self.flags(0), self.flags(NO_NORMALS)
        counts = tuple(self.limited(COUNT_LIMIT) for _ in range(6))
        shadings = tuple([self.shading() for _ in range(self.limited(SHADING_LIMIT))])
        closing = self.several(2) + (self.several(3), self.several(5), self.several(3))
        bone_count = self.limited(0)
        if self.at != len(self.data):
            self.refuse(BYTES_LEFT, self.at)
        return Declaration(name, chain_index, attributes, counts, shadings, *closing, bone_count)

    def base_count(self, declaration, table):
        """01: "none above the declared one, positions equal to minimum resolution, else 11"."""
        value = self.limited(COUNT_LIMIT)
        unlike = table == POSITIONS and value != declaration.minimum_resolution
        if unlike or value > declaration.counts[table]:
            self.refuse(DISAGREES, self.at - 4)
        return value

    def base_mesh(self, declaration, lengths):
        """9.6.1.2: the counts, and what each table holds of the base mesh."""
        if self.name() != declaration.name:
            self.refuse(BAD_NAME, 0)
        self.flags(0)
        counts = tuple([self.base_count(declaration, table) for table in range(6)])
        if any(count * width > length for count, width, length in zip(counts, WIDTHS, lengths)):
            self.refuse(NO_ROOM, 0)
        pools = [list(self.several(counts[table] * WIDTHS[table])) for table in range(1, 6)]
        return counts, [self.faces(declaration, counts), *pools]

    def faces(self, declaration, counts):
        """01: "in the coded faces, the first byte after the pools" is every place."""
        reader = _FaceReader(self.data[self.at:])
        try:
            for _ in range(counts[FACES]):
                reader.face(declaration, counts)
        except coder.Refused as refused:
            self.refuse(refused.number, self.at)
        return reader.table


class _FaceReader:
    """9.6.1.2.4.6: the coder at the start of the faces, and the records so far."""

    def __init__(self, data):
        self.data = data
        self.state = coder.State()
        self.context = coder.Counted(coder.fresh_histogram())
        self.table = []

    def _taken(self, number, value, state):
        if number != coder.DONE:
            raise coder.Refused(number)
        self.state = state
        return value

    def face(self, declaration, counts):
        shading_id = self._taken(*coder.take_dynamic(self.state, self.data, self.context))
        if shading_id >= len(declaration.shadings):
            raise coder.Refused(NOT_BELOW)
        self.table.append(shading_id)
        fields = corner_fields(declaration, counts, shading_id)
        for _ in range(3):
            self._corner(fields)

    def _corner(self, fields):
        corner = [ABSENT] * CORNER_SIZE
        for field, static_range in fields:
            corner[field] = self._static(static_range)
        self.table += corner

    def _static(self, static_range):
        """A range of 1 leaves the limits, so after a number that was taken it is 0."""
        if static_range == 1:
            return 0
        return self._taken(*coder.take_static(self.state, self.data, static_range))


# The program read_mesh.

# Lengths of its tables: all faces, and more than a file of 64 KiB can hold of a pool.
LISTING_ROOM = (COUNT_LIMIT * FACE_SIZE, *(PROGRAM_LIMIT // 4,) * 5)
PARTS = ("declaration", "continuation")


def listing(data):
    """The program's whole output."""
    number, _, rows = blocks.walk(data, PROGRAM_LIMIT)
    bases = base_meshes(rows)
    lines = ["meshes\t1"]
    for at in bases:
        lines += _mesh_lines(data, rows, at)
    lines += ["end\t%d\t%d" % (number, len(bases))]
    return "".join(line + "\n" for line in lines).encode("ascii")


def base_meshes(rows):
    """The offsets of a file's base meshes."""
    return [at for at, block_type, *_ in rows if block_type == BASE_MESH_BLOCK]


def read_base(data, rows, at, room):
    """A base mesh under the last declaration of its name; 8 where there is none."""
    continuation = blocks.data_part(data, at)
    name = mesh_name(continuation)
    same = [declaration for declaration in _declared(data, rows, at)
            if name is not None and mesh_name(declaration) == name]
    if not same:
        return _answer_without(continuation)
    return read_mesh(same[0], continuation, [[0] * length for length in room])


def _declared(data, rows, before):
    """The data of the mesh declarations before a block, the last one first."""
    return [blocks.data_part(data, at) for at, block_type, *_ in reversed(rows)
            if block_type == DECLARATION_BLOCK and at < before]


def _mesh_lines(data, rows, at):
    mesh = read_base(data, rows, at, LISTING_ROOM)
    yield "mesh\t%s" % _escaped(mesh_name(blocks.data_part(data, at)) or b"")
    if mesh.number != DONE:
        yield "answer\t%d\t%s\t%d" % (mesh.number, PARTS[mesh.part], mesh.place)
        return
    yield "answer\t0\tnone\t0"
    yield "counts\t" + "\t".join(map(str, (*mesh.counts, mesh.shading_count)))
    ids = mesh.tables[FACES][:mesh.counts[FACES] * FACE_SIZE:FACE_SIZE]
    yield from ("shading\t%d\t%d" % (used, ids.count(used)) for used in sorted(set(ids)))


def _answer_without(continuation):
    """The answer where no declaration has the name: that of the name itself, or 8."""
    try:
        _Part(continuation, CONTINUATION).name()
        number = BAD_NAME
    except Refused as refused:
        number = refused.number
    return Mesh(number, CONTINUATION, 0, (0,) * 6, 0, [])


def _escaped(name):
    """Printable ASCII as it is, but for the backslash; all else as \\x and two digits."""
    return "".join(chr(byte) if 0x20 <= byte < 0x7F and byte != 0x5C else "\\x%02x" % byte
                   for byte in name)
