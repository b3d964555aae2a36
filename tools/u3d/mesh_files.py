"""Declarations and continuations that show how a mesh is read and judged.

Each case gives the answer that document 01 asks for, worked out by hand: number, part (0 the
declaration, 1 the continuation) and place. Most meshes are named "ab": their chain index is at
4 in both parts. The declaration has mesh attributes at 8, counts at 12 to 32, the shading count
at 36 and the first shading at 40; if that is the only one and has no layers, the resolutions
are at 52 and 56, the bone count at 104, and the end is 108. The continuation has its counts at
8 to 28 and its pools from 32 on.

Data above 16 MiB (9) can't be stored here. Nor can a static value not below its range (10): it
takes a range above 0x3FFE, and so a pool above 0x3FFE entries.
"""

import struct
from typing import NamedTuple

from u3d.block_files import (
    BASE_MESH, GROUP_NODE, MESH_DECLARATION, Dice, chain, cut_end, drop_words, flip_bit, repeat_words)
from u3d.blocks import PROGRAM_LIMIT, block, file_of, name_field, u32
from u3d.mesh import (
    CONTINUATION, COUNT_LIMIT, DECLARATION, DIFFUSE, FACE_SIZE, NO_NORMALS, SPECULAR, TABLES, WIDTHS,
    Declaration, FaceWriter, Shading, coded_faces, continuation_data, declaration_data, face_record,
    read_mesh, shading_data, words)

HUGE = 0xFFFFFFFF
FILL = 0xA5A5A5A5  # what every word of a table holds before the call
# Room for eight faces and ten of each pool, and numbers past the last whole record.
ROOM = (8 * FACE_SIZE + 7, 31, 32, 41, 42, 43)
FRESH_FACE = u32(0)  # a fresh context: shading id 0 is an escape, no bits, and a U32


class Case(NamedTuple):
    """`lengths` are those of the six tables; with `cut` both parts are cut at every length."""

    name: str
    number: int
    part: int
    place: int
    declaration: bytes
    continuation: bytes
    lengths: tuple = ROOM
    cut: bool = False


def stored(case):
    """The file that the program reads."""
    head = words([int(case.cut), *case.lengths, len(case.declaration)])
    data = head + case.declaration + case.continuation
    if len(data) > PROGRAM_LIMIT:
        raise ValueError("%s: %d bytes" % (case.name, len(data)))
    return data


# Builders.

def declared(counts, shadings=(Shading(),), attributes=NO_NORMALS, name=b"ab", **fields):
    """A declaration of a mesh that is all base, unless fields are given."""
    usual = {"minimum_resolution": counts[1], "maximum_resolution": counts[1],
             "quality_factors": (1000, 1000, 1000), "inverse_quants": (0x3A800000,) * 5,
             "normal_parameters": (0x3F000000, 0x3F400000, 0x3F7FFFFF)}
    return Declaration(name=name, attributes=attributes, counts=counts, shadings=shadings,
                       **{**usual, **fields})


def pools_of(counts):
    """F32 bit patterns, no two alike."""
    start, pools = 0x3F800000, []
    for count, width in zip(counts[1:], WIDTHS[1:]):
        pools.append([start + 0x101 * index for index in range(count * width)])
        start += 0x100000
    return pools


def base_of(declaration, counts, records=(), coded=None, pools=None, **fields):
    """The continuation of these faces, or with the given bytes for them."""
    coded = coded_faces(declaration, counts, records) if coded is None else coded
    pools = pools_of(counts) if pools is None else pools
    return continuation_data(**{"name": declaration.name, "counts": counts, "pools": pools,
                                "coded": coded, **fields})


def good(name, declaration, counts, records, lengths=ROOM, cut=False):
    return Case(name, 0, 0, 0, declaration_data(declaration), base_of(declaration, counts, records),
                lengths, cut)


def wrong_declaration(name, number, place, declaration, **fields):
    """A refused declaration, with the triangle's continuation."""
    return Case(name, number, DECLARATION, place, declaration_data(declaration, **fields), TRIANGLE_BASE)


def wrong_base(name, number, place, continuation, declaration=None, lengths=ROOM):
    """A refused continuation; the declaration is the triangle's unless given."""
    data = TRIANGLE_DATA if declaration is None else declaration_data(declaration)
    return Case(name, number, CONTINUATION, place, data, continuation, lengths)


# A triangle: its pool is at 32, its faces at 68.
TRIANGLE_COUNTS = (1, 3, 0, 0, 0, 0)
TRIANGLE = declared(TRIANGLE_COUNTS)
TRIANGLE_FACES = [face_record(TRIANGLE, 0, (0,), (1,), (2,))]
TRIANGLE_DATA = declaration_data(TRIANGLE)
TRIANGLE_BASE = base_of(TRIANGLE, TRIANGLE_COUNTS, TRIANGLE_FACES)

# A mesh with all fields: pools at 32, 68, 92, 124 and 172, faces at 236. Its shading has two
# layers, so dimensions are at 48 and 52, its id at 56, the bone count at 112, and the end is 116.
ALL_COUNTS = (2, 3, 2, 2, 3, 4)
ALL = declared(ALL_COUNTS, (Shading(DIFFUSE | SPECULAR, (2, 3), 7),), attributes=0)
ALL_FACES = [face_record(ALL, 0, (0, 1, 0, 2, 3, 0), (1, 0, 1, 1, 2, 1), (2, 1, 0, 0, 1, 3)),
             face_record(ALL, 0, (2, 0, 1, 1, 0, 2), (1, 1, 1, 0, 3, 3), (0, 0, 0, 2, 1, 2))]
ALL_DATA = declaration_data(ALL)
ALL_BASE = base_of(ALL, ALL_COUNTS, ALL_FACES)

# Every kind of shading, with normals.
KINDS = tuple(Shading(attributes, (2,) * layers, 10 * attributes + layers)
              for attributes in range(4) for layers in range(3))
KINDS_COUNTS = (12, 5, 4, 3, 2, 7)


# Meshes that are read.

def random_face(dice, declaration, counts, shading_id):
    """A face of any numbers below their counts."""
    shading = declaration.shadings[shading_id]
    asked = [True, not declaration.attributes & NO_NORMALS, shading.attributes & DIFFUSE,
             shading.attributes & SPECULAR] + [True] * len(shading.dimensions)
    ranges = [count for count, ask in zip((*counts[1:5], counts[5], counts[5]), asked) if ask]
    corners = [[dice.below(static_range) for static_range in ranges] for _ in range(3)]
    return face_record(declaration, shading_id, *corners)


def random_faces(dice, declaration, counts, ids):
    return [random_face(dice, declaration, counts, shading_id) for shading_id in ids]


def good_kinds():
    """One mesh for each kind of shading, with and without normals; then all in one mesh."""
    cases, dice, counts = [], Dice(31), (3, 4, 3, 2, 3, 5)
    for attributes in (0, NO_NORMALS):
        for index, shading in enumerate(KINDS):
            declaration = declared(counts, (shading,), attributes)
            records = random_faces(dice, declaration, counts, (0, 0, 0))
            cases.append(good("00-kind-%d-%02d.mesh" % (attributes, index), declaration, counts, records))
    room = (12 * FACE_SIZE, 15, 12, 12, 8, 28)
    for attributes in (0, NO_NORMALS):
        declaration = declared(KINDS_COUNTS, KINDS, attributes)
        records = random_faces(dice, declaration, KINDS_COUNTS, (3, 0, 11, 11, 5, 7, 1, 3, 2, 9, 10, 8))
        cases.append(good("00-kinds-%d.mesh" % attributes, declaration, KINDS_COUNTS, records, room))
    return cases


def good_meshes():
    degenerate = [face_record(TRIANGLE, 0, (2,), (2,), (2,))]
    more = declared((9, 9, 8, 7, 6, 5), minimum_resolution=3, maximum_resolution=9)
    unasked, one = (1, 3, 2, 1, 1, 1), (1, 1, 0, 0, 0, 0)  # the first has pools that no face asks for
    patterns = [0x7FC00000, 0xFFFFFFFF, 0x7F800000, 0xFF800000, 0x80000000, 1, 0x7F800001, 0, 0x7FFFFFFF]
    long_name = declared(TRIANGLE_COUNTS, name=b"n" * 255)
    no_name = declared(TRIANGLE_COUNTS, name=b"")
    any_bytes = declared(TRIANGLE_COUNTS, name=bytes([0, 9, 10, 255, 92]))
    return [
        good("00-triangle.mesh", TRIANGLE, TRIANGLE_COUNTS, TRIANGLE_FACES),
        good("00-degenerate.mesh", TRIANGLE, TRIANGLE_COUNTS, degenerate),
        good("00-all.mesh", ALL, ALL_COUNTS, ALL_FACES),
        good("00-base-is-less.mesh", more, TRIANGLE_COUNTS, TRIANGLE_FACES),
        good("00-unasked-pools.mesh", declared(unasked), unasked, TRIANGLE_FACES),
        good("00-name-255.mesh", long_name, TRIANGLE_COUNTS, TRIANGLE_FACES),
        good("00-name-0.mesh", no_name, TRIANGLE_COUNTS, TRIANGLE_FACES),
        good("00-name-bytes.mesh", any_bytes, TRIANGLE_COUNTS, TRIANGLE_FACES),
        Case("00-patterns.mesh", 0, 0, 0, TRIANGLE_DATA,
             base_of(TRIANGLE, TRIANGLE_COUNTS, TRIANGLE_FACES, pools=[patterns])),
        # 01: "Bits after the last face aren't judged".
        Case("00-bytes-after.mesh", 0, 0, 0, TRIANGLE_DATA, TRIANGLE_BASE + b"\xff" * 9),
        # The id takes four bytes; corners in range 1 take no bits, and nothing follows.
        Case("00-one-position.mesh", 0, 0, 0, declaration_data(declared(one)),
             base_of(declared(one), one, coded=FRESH_FACE)),
    ]


def good_unjudged():
    """Fields on which 01 sets no rule."""
    shading = Shading(0, (0, HUGE), HUGE)
    wild = declared(TRIANGLE_COUNTS, (shading,), maximum_resolution=HUGE, quality_factors=(HUGE, 0, 1),
                    inverse_quants=(HUGE, 0x7FC00000, 0, 0x80000000, 5), normal_parameters=(0, 1, HUGE))
    counts = (1, 3, 0, 0, 0, 1)
    textured = wild._replace(counts=counts)
    records = [face_record(textured, 0, (0, 0, 0), (1, 0, 0), (2, 0, 0))]
    return [
        good("00-unjudged.mesh", textured, counts, records),
        # The maximum resolution is not compared with the position count.
        good("00-maximum-resolution-0.mesh", TRIANGLE._replace(maximum_resolution=0), TRIANGLE_COUNTS,
             TRIANGLE_FACES),
    ]


def good_empty():
    none = (0,) * 6
    empty, more = declared(none, ()), declared((5, 5, 5, 5, 5, 5), KINDS, 0, minimum_resolution=0)
    points = (0, 3, 1, 1, 1, 1)
    return [
        good("00-empty.mesh", empty, none, ()),
        good("00-empty-no-tables.mesh", empty, none, (), none),
        good("00-empty-of-more.mesh", more, none, ()),
        good("00-empty-1-number.mesh", empty, none, (), (1,) * 6),
        good("00-no-faces.mesh", declared(points), points, (), (0, 9, 3, 4, 4, 4)),
        good("00-no-faces-no-shadings.mesh", declared(points, ()), points, ()),
        Case("00-empty-bytes-after.mesh", 0, 0, 0, declaration_data(empty),
             base_of(empty, none, coded=b"\xff")),
    ]


def good_limits():
    """Counts at their limits."""
    limits = (COUNT_LIMIT,) * 6
    wide = declared(limits, minimum_resolution=3, maximum_resolution=COUNT_LIMIT)
    shadings = tuple(Shading(index % 4, (2,) * (index % 3), index) for index in range(64))
    counts = (8, 3, 2, 2, 2, 2)
    many = declared(counts, shadings, 0)
    records = random_faces(Dice(64), many, counts, (63, 0, 63, 1, 62, 32, 63, 63))
    return [
        good("00-limit-declared.mesh", wide, TRIANGLE_COUNTS, TRIANGLE_FACES),
        good("00-limit-shadings.mesh", many, counts, records),
        good("00-limit-shadings-no-faces.mesh", many, (0, 3, 0, 0, 0, 0), ()),
    ]


def many_faces():
    """65,536 faces of one shading and one position, in 15 bytes. The corners take no bits."""
    counts = (COUNT_LIMIT, 1, 0, 0, 0, 0)
    declaration = declared(counts)
    writer = FaceWriter(64)
    for _ in range(COUNT_LIMIT):
        writer.put(None, 0)
    coded = writer.end()
    assert len(coded) == 15
    lengths = (COUNT_LIMIT * FACE_SIZE, 3, 0, 0, 0, 0)
    data = declaration_data(declaration)
    whole, short = (base_of(declaration, counts, coded=part) for part in (coded, coded[:4]))
    return [
        Case("00-limit-faces.mesh", 0, 0, 0, data, whole, lengths),
        # The pool ends at 44. The second id is seen as zeros: an escape, whose U32 passes the end.
        Case("01-limit-faces-cut.mesh", 1, CONTINUATION, 44, data, short, lengths),
        Case("12-limit-faces.mesh", 12, CONTINUATION, 0, data, whole, (lengths[0] - 1, *lengths[1:])),
    ]


# Numbers that only narrow the limits around the middle: none settles a bit.
PENDING_POSITIONS = 5
PENDING_BEGIN = 596
PENDING_FACES = 2000


def middle_symbol(state, total):
    """The place among `total` parts that holds the middle of all numbers."""
    return ((0x8000 - state.low + 1) * total - 1) // (state.high - state.low + 1)


def pending_writer():
    """Faces that first let the context grow, then faces that let pending rise."""
    writer = FaceWriter(8192)
    for _ in range(PENDING_BEGIN):
        for static_range in (None, *[PENDING_POSITIONS] * 3):
            writer.put(static_range, 0)
    settled = writer.writer.state.settled
    for _ in range(PENDING_FACES):
        writer.put(None, 0)
        for _ in range(3):
            writer.put(PENDING_POSITIONS, middle_symbol(writer.writer.state, PENDING_POSITIONS))
    assert writer.writer.state.settled == settled
    return writer


def pending_faces():
    """Some 14,000 bits wait for the last one; or for one that never comes, since the data ends
    after a single bit 1 and the reader sees zeros, which are the pending bits inverted."""
    counts = (PENDING_BEGIN + PENDING_FACES, PENDING_POSITIONS, 0, 0, 0, 0)
    declaration = declared(counts)
    lengths = (counts[0] * FACE_SIZE + 5, 15, 0, 0, 0, 0)
    writer = pending_writer()
    at, data = writer.writer.state.settled, bytearray(writer.settled_bytes() + b"\0")
    data[at // 8] |= 1 << at % 8
    return [
        Case("00-%s.mesh" % name, 0, 0, 0, declaration_data(declaration),
             base_of(declaration, counts, coded=coded), lengths)
        for name, coded in (("pending", writer.end()), ("pending-never-settled", bytes(data)))]


def escapes():
    """Zeros are an escape and the U32 0 for every face, though 0 was seen. Its part grows from
    all to two thirds, three fifths and so on, so four faces take 128 bits and some more."""
    counts = (4, 1, 0, 0, 0, 0)
    declaration = declared(counts)
    data = declaration_data(declaration)
    return [
        Case("00-seen-escapes.mesh", 0, 0, 0, data, base_of(declaration, counts, coded=bytes(20))),
        Case("01-seen-escapes-cut.mesh", 1, CONTINUATION, 44, data,
             base_of(declaration, counts, coded=bytes(15))),
    ]


def exact_rooms():
    """12 is judged by the lengths in numbers: just enough, then one less in each table."""
    exact = tuple(count * width for count, width in zip(ALL_COUNTS, WIDTHS))
    cases = [Case("00-exact-room.mesh", 0, 0, 0, ALL_DATA, ALL_BASE, exact)]
    for index, table in enumerate(TABLES):
        short = tuple(length - (table == other) for other, length in zip(TABLES, exact))
        none = tuple(0 if table == other else length for other, length in zip(TABLES, ROOM))
        cases.append(Case("12-%s.mesh" % table, 12, CONTINUATION, 0, ALL_DATA, ALL_BASE, short))
        cases.append(Case("12-%s-none.mesh" % table, 12, CONTINUATION, 0, ALL_DATA, ALL_BASE, none))
        # Two numbers more than the records take: they are set to 0, too.
        more = tuple(length + 2 * (table == other) for other, length in zip(TABLES, exact))
        cases.append(Case("00-room-%d.mesh" % index, 0, 0, 0, ALL_DATA, ALL_BASE, more))
    cases.append(Case("12-no-tables.mesh", 12, CONTINUATION, 0, ALL_DATA, ALL_BASE, (0,) * 6))
    return cases


def cut_runs():
    """Small meshes, cut at every length of either part."""
    dice, counts = Dice(5), (4, 3, 2, 1, 1, 2)
    mixed = declared(counts, (Shading(1), Shading(2, (4,)), Shading()), 0)
    return [
        good("cut-triangle.mesh", TRIANGLE, TRIANGLE_COUNTS, TRIANGLE_FACES, cut=True),
        good("cut-all.mesh", ALL, ALL_COUNTS, ALL_FACES, cut=True),
        good("cut-mixed.mesh", mixed, counts, random_faces(dice, mixed, counts, (1, 0, 2, 1)), cut=True),
        good("cut-empty.mesh", declared((0,) * 6, ()), (0,) * 6, (), cut=True),
    ]


# Fields that are cut: 1 at the field.

def cut_declarations():
    places = {"chain-index": 4, "attributes": 8, "faces": 12, "positions": 16, "normals": 20,
              "diffuse": 24, "specular": 28, "texture": 32, "shading-count": 36,
              "shading-attributes": 40, "layer-count": 44, "first-dimension": 48,
              "second-dimension": 52, "original-id": 56, "minimum": 60, "maximum": 64,
              "position-quality": 68, "normal-quality": 72, "texture-quality": 76,
              "position-quant": 80, "normal-quant": 84, "texture-quant": 88, "diffuse-quant": 92,
              "specular-quant": 96, "crease": 100, "update": 104, "tolerance": 108, "bone-count": 112}
    sizes = {"name-missing": 0, "name-length": 1, "name-bytes-missing": 2, "name-bytes": 3}
    return [Case("01-declaration-%s.mesh" % name, 1, DECLARATION, 0, ALL_DATA[:size], ALL_BASE)
            for name, size in sizes.items()] + [
        Case("01-declaration-%s.mesh" % name, 1, DECLARATION, place, ALL_DATA[:place + index % 4], ALL_BASE)
        for index, (name, place) in enumerate(places.items())]


def cut_continuations():
    places = {"chain-index": 4, "faces": 8, "positions": 12, "normals": 16, "diffuse": 20,
              "specular": 24, "texture": 28, "first-position": 32, "last-position": 64,
              "first-normal": 68, "last-normal": 88, "first-diffuse": 92, "last-diffuse": 120,
              "first-specular": 124, "last-specular": 168, "first-texture": 172, "last-texture": 232}
    sizes = {"name-missing": 0, "name-length": 1, "name-bytes-missing": 2, "name-bytes": 3}

    def cut(name, place, size):
        return Case("01-base-%s.mesh" % name, 1, CONTINUATION, place, ALL_DATA, ALL_BASE[:size])

    # Of the faces at 236 the first id takes four bytes; with three the last is seen as 0.
    return [cut(name, 0, size) for name, size in sizes.items()] + [
        cut(name, place, place + index % 4) for index, (name, place) in enumerate(places.items())] + [
        cut("faces-missing", 236, 236), cut("faces-1", 236, 237), cut("faces-3", 236, 239)]


def cut_faces():
    """Places are the first byte after the pools."""
    no_shadings = declared(TRIANGLE_COUNTS, ())
    return [
        wrong_base("01-no-shadings.mesh", 1, 68, base_of(no_shadings, TRIANGLE_COUNTS, coded=b""),
                   no_shadings),
        # An id that is not below the shading count, cut: 1 comes first.
        wrong_base("01-id-cut.mesh", 1, 68, base_of(TRIANGLE, TRIANGLE_COUNTS, coded=u32(5)[:3])),
        # The first id is read; three numbers in range 3 settle at least two bits, and there are none.
        wrong_base("01-corners.mesh", 1, 68, base_of(TRIANGLE, TRIANGLE_COUNTS, coded=FRESH_FACE)),
    ]


# Wrong fields.

def wrong_names():
    long_name = b"n" * 256
    other = [(name, continuation_data(name, TRIANGLE_COUNTS, pools_of(TRIANGLE_COUNTS), FRESH_FACE))
             for name in (b"ac", b"bb", b"a", b"abc", b"", b"AB", b"ab\0")]
    return [Case("08-declaration-256.mesh", 8, DECLARATION, 0,
                 declaration_data(TRIANGLE._replace(name=long_name)), TRIANGLE_BASE),
            Case("08-both-256.mesh", 8, DECLARATION, 0,
                 declaration_data(TRIANGLE._replace(name=long_name)),
                 base_of(TRIANGLE, TRIANGLE_COUNTS, TRIANGLE_FACES, name=long_name)),
            wrong_base("08-base-256.mesh", 8, 0,
                       base_of(TRIANGLE, TRIANGLE_COUNTS, TRIANGLE_FACES, name=long_name)),
            wrong_base("08-base-300.mesh", 8, 0,
                       base_of(TRIANGLE, TRIANGLE_COUNTS, TRIANGLE_FACES, name=b"n" * 300))] + [
        wrong_base("08-unlike-%d.mesh" % index, 8, 0, data) for index, (_, data) in enumerate(other)] + [
        Case("08-unlike-no-name.mesh", 8, CONTINUATION, 0,
             declaration_data(TRIANGLE._replace(name=b"")), TRIANGLE_BASE)]


def with_count(counts, index, value):
    return (*counts[:index], value, *counts[index + 1:])


def large_counts():
    cases = []
    for index, table in enumerate(TABLES):
        for value in (COUNT_LIMIT + 1, HUGE):
            counts = with_count(TRIANGLE_COUNTS, index, value)
            cases.append(wrong_declaration("09-declared-%s-%x.mesh" % (table, value), 9, 12 + 4 * index,
                                           TRIANGLE._replace(counts=counts)))
            cases.append(wrong_base("09-base-%s-%x.mesh" % (table, value), 9, 8 + 4 * index,
                                    base_of(TRIANGLE, counts, coded=FRESH_FACE, pools=())))
    return cases


def large_lists():
    layers = shading_data(Shading(0, (2, 2, 2)))
    second = shading_data(Shading(0, (2, 2))) + shading_data(Shading(), HUGE)
    shadings = (Shading(),) * 65
    return [
        wrong_declaration("09-shadings-65.mesh", 9, 36, TRIANGLE._replace(shadings=shadings)),
        wrong_declaration("09-shadings-huge.mesh", 9, 36, TRIANGLE, shading_count=HUGE),
        wrong_declaration("09-layers-3.mesh", 9, 44, TRIANGLE, shadings=layers),
        # The first shading has 20 bytes, from 40 on; the second's layer count is at 64.
        wrong_declaration("09-second-layers.mesh", 9, 64, TRIANGLE, shading_count=2, shadings=second),
        wrong_declaration("09-bones-1.mesh", 9, 104, TRIANGLE._replace(bone_count=1)),
        wrong_declaration("09-bones-huge.mesh", 9, 104, TRIANGLE._replace(bone_count=HUGE)),
    ]


def base_limits():
    """65,536 of a pool is no 9, but needs room: 12, which is judged before the pools."""
    cases = []
    for index, table in enumerate(TABLES[1:], 1):
        counts = with_count(TRIANGLE_COUNTS, index, COUNT_LIMIT)
        cases.append(wrong_base("12-limit-%s.mesh" % table, 12, 0,
                                base_of(TRIANGLE, counts, coded=b"", pools=()), declared(counts)))
    return cases


def wrong_flags():
    cases = []
    for value in (1, 0x100, HUGE):
        cases.append(wrong_declaration("11-declaration-chain-index-%x.mesh" % value, 11, 4,
                                       TRIANGLE._replace(chain_index=value)))
        cases.append(wrong_base("11-base-chain-index-%x.mesh" % value, 11, 4,
                                base_of(TRIANGLE, TRIANGLE_COUNTS, TRIANGLE_FACES, chain_index=value)))
    for value in (2, 3, 0x80000001, HUGE):
        cases.append(wrong_declaration("11-mesh-attributes-%x.mesh" % value, 11, 8,
                                       TRIANGLE._replace(attributes=value)))
    for value in (4, 7, 0x80000000, HUGE):
        cases.append(wrong_declaration("11-shading-attributes-%x.mesh" % value, 11, 40,
                                       TRIANGLE._replace(shadings=(Shading(value),))))
    # Shadings of 12, 16 and 20 bytes from 40 on; the fourth is at 88.
    shadings = (Shading(1), Shading(2, (1,)), Shading(3, (1, 2)), Shading(4))
    return cases + [wrong_declaration("11-fourth-shading.mesh", 11, 88, TRIANGLE._replace(shadings=shadings))]


def disagreeing_counts():
    cases = []
    for index, table in enumerate(TABLES):
        # Positions then are unlike the minimum resolution, too.
        counts = with_count(ALL_COUNTS, index, ALL_COUNTS[index] + 1)
        cases.append(wrong_base("11-base-%s.mesh" % table, 11, 8 + 4 * index,
                                base_of(ALL, counts, coded=FRESH_FACE), ALL))
    few = (1, 2, 0, 0, 0, 0)
    two = declared(TRIANGLE_COUNTS, minimum_resolution=2)
    # The base has as many as the minimum resolution says, and more than were declared.
    more = declared(few, minimum_resolution=3)
    return cases + [
        wrong_base("11-positions-below-minimum.mesh", 11, 12, base_of(TRIANGLE, few, coded=FRESH_FACE)),
        wrong_base("11-positions-above-minimum.mesh", 11, 12, TRIANGLE_BASE, two),
        wrong_base("11-positions-above-declared.mesh", 11, 12, TRIANGLE_BASE, more),
        wrong_base("11-minimum-huge.mesh", 11, 12, TRIANGLE_BASE, TRIANGLE._replace(minimum_resolution=HUGE)),
        wrong_base("11-no-positions.mesh", 11, 12, continuation_data(b"ab", (0,) * 6)),
    ]


def bytes_left():
    lefts = (b"\0", b"\1", bytes(4), b"left", TRIANGLE_DATA)
    return [wrong_declaration("17-left-%d.mesh" % index, 17, 108, TRIANGLE, tail=left)
            for index, left in enumerate(lefts)] + [
        Case("17-all.mesh", 17, DECLARATION, 116, ALL_DATA + b"\0", ALL_BASE)]


# Numbers in the faces that are out of range: 10 at the first byte after the pools.

def wrong_ids():
    """A fresh context takes an escape without bits, and then a U32."""
    cases = [wrong_base("10-id-%x.mesh" % value, 10, 68,
                        base_of(TRIANGLE, TRIANGLE_COUNTS, coded=u32(value) + bytes(4)))
             for value in (1, 63, 64, 255, 256, 0x80000000, HUGE)]
    shadings = declared(TRIANGLE_COUNTS, KINDS[:3])
    none = declared(TRIANGLE_COUNTS, ())
    later = FaceWriter(64)
    for static_range, value in ((None, 0), (3, 0), (3, 1), (3, 2), (None, 1)):
        later.put(static_range, value)
    two = (2, 3, 0, 0, 0, 0)
    return cases + [
        wrong_base("10-id-is-count.mesh", 10, 68,
                   base_of(shadings, TRIANGLE_COUNTS, coded=u32(3) + bytes(4)), shadings),
        wrong_base("10-no-shadings.mesh", 10, 68,
                   base_of(none, TRIANGLE_COUNTS, coded=FRESH_FACE + bytes(4)), none),
        wrong_base("10-second-id.mesh", 10, 68, base_of(declared(two), two, coded=later.end()),
                   declared(two)),
    ]


def empty_ranges():
    """A face that needs an empty pool; the id is judged before."""
    asks = {"positions": (1, 0, 1, 1, 1, 1), "normals": (1, 1, 0, 1, 1, 1), "diffuse": (1, 1, 1, 0, 1, 1),
            "specular": (1, 1, 1, 1, 0, 1), "texture": (1, 1, 1, 1, 1, 0)}
    sizes = {"positions": 60, "normals": 60, "diffuse": 56, "specular": 56, "texture": 56}
    cases = []
    for table, counts in asks.items():
        declaration = declared(counts, (Shading(DIFFUSE | SPECULAR, (2, 2)),), 0)
        data = base_of(declaration, counts, coded=FRESH_FACE)
        cases.append(wrong_base("10-empty-%s.mesh" % table, 10, 32 + sizes[table], data, declaration))
    counts = (1, 0, 0, 0, 0, 0)
    return cases + [
        wrong_base("10-id-before-empty.mesh", 10, 32, base_of(declared(counts), counts, coded=u32(1)),
                   declared(counts)),
        wrong_base("01-id-before-empty.mesh", 1, 32, base_of(declared(counts), counts, coded=bytes(3)),
                   declared(counts)),
    ]


# Two faults: the one that 01's order judges first decides.

def declaration_priorities():
    late = {"bone_count": 1}
    bad_shading = (Shading(4, (), 0),)

    def order(name, number, place, declaration, continuation=TRIANGLE_BASE, **fields):
        return Case("order-%s.mesh" % name, number, DECLARATION, place,
                    declaration_data(declaration, **fields), continuation)

    return [
        order("1-name-before-8", 1, 0, TRIANGLE._replace(name=b"n" * 200), name_length=400),
        order("8-before-11", 8, 0, TRIANGLE._replace(name=b"n" * 256, chain_index=1)),
        order("11-chain-index-before-attributes", 11, 4, TRIANGLE._replace(chain_index=1, attributes=2)),
        order("11-attributes-before-9", 11, 8, TRIANGLE._replace(attributes=2, counts=(HUGE,) * 6)),
        order("9-faces-before-positions", 9, 12, TRIANGLE._replace(counts=(HUGE, HUGE, 0, 0, 0, 0))),
        order("9-texture-before-shadings", 9, 32, TRIANGLE._replace(counts=(1, 3, 0, 0, 0, HUGE)),
              shading_count=65),
        order("9-shadings-before-attributes", 9, 36, TRIANGLE._replace(shadings=bad_shading),
              shading_count=65),
        order("11-shading-before-9-layers", 11, 40, TRIANGLE, shadings=words([4, 3, 0])),
        order("9-layers-before-bones", 9, 44, TRIANGLE._replace(**late), shadings=words([3, 3, 0])),
        order("9-bones-before-17", 9, 104, TRIANGLE._replace(**late), tail=b"left"),
        # The shadings that the count asks for take the fields after them: 52 is no attribute.
        order("11-second-shading-before-1", 11, 52, TRIANGLE._replace(minimum_resolution=4), shading_count=2),
        # All of the declaration comes before the continuation.
        order("17-before-continuation-1", 17, 108, TRIANGLE, b"", tail=b"\0"),
        order("17-before-continuation-8", 17, 108, TRIANGLE, name_field(b"other"), tail=b"\0"),
        order("9-bones-before-continuation-11", 9, 104, TRIANGLE._replace(**late),
              continuation_data(b"ab", TRIANGLE_COUNTS, chain_index=1)),
        Case("order-1-declaration-before-1.mesh", 1, DECLARATION, 0, b"", b""),
    ]


def continuation_priorities():
    some = (HUGE,) * 6
    small = (0,) * 6
    zero_faces = base_of(TRIANGLE, TRIANGLE_COUNTS, coded=u32(9))

    def order(name, number, place, continuation, declaration=None, lengths=ROOM):
        return wrong_base("order-%s.mesh" % name, number, place, continuation, declaration, lengths)

    return [
        order("1-base-name-before-8", 1, 0, name_field(b"other", 300)),
        order("1-base-name-before-unlike", 1, 0, name_field(b"other", 6)),
        order("8-unlike-before-1", 8, 0, name_field(b"other")),
        order("8-unlike-before-11", 8, 0, continuation_data(b"ac", some, chain_index=1)),
        order("11-base-chain-index-before-9", 11, 4, continuation_data(b"ab", some, chain_index=1)),
        order("11-base-chain-index-before-1", 11, 4, name_field(b"ab") + u32(1)),
        order("9-base-before-11", 9, 8, continuation_data(b"ab", (COUNT_LIMIT + 1, 4, 0, 0, 0, 0))),
        order("11-faces-before-9-positions", 11, 8, continuation_data(b"ab", (2, HUGE, 0, 0, 0, 0))),
        order("9-positions-before-11", 9, 12, continuation_data(b"ab", (1, COUNT_LIMIT + 1, 1, 0, 0, 0))),
        order("11-before-12", 11, 28, continuation_data(b"ab", (1, 3, 0, 0, 0, 1)), lengths=small),
        order("11-before-later-1", 11, 8, name_field(b"ab") + words([0, 2])),
        order("1-count-before-12", 1, 28, TRIANGLE_BASE[:30], lengths=small),
        order("12-before-1-pools", 12, 0, TRIANGLE_BASE[:32], lengths=(18, 9, 0, 0, 0, 0)),
        order("12-before-1-faces", 12, 0, TRIANGLE_BASE[:68], lengths=(19, 8, 0, 0, 0, 0)),
        order("12-before-10", 12, 0, zero_faces, lengths=(18, 9, 0, 0, 0, 0)),
        order("1-pools-before-10", 1, 64, zero_faces[:67]),
        order("10-first-face-before-1", 10, 68, zero_faces),
    ]


def cases():
    groups = (
        good_kinds, good_meshes, good_unjudged, good_empty, good_limits, many_faces, pending_faces, escapes,
        exact_rooms, cut_runs, cut_declarations, cut_continuations, cut_faces, wrong_names, large_counts,
        large_lists, base_limits, wrong_flags, disagreeing_counts, bytes_left, wrong_ids, empty_ranges,
        declaration_priorities, continuation_priorities)
    return [case for group in groups for case in group()]


# The sample of the program read_mesh.

def sample():
    """A file of two base meshes: one is read, one has a shading id that is not below its count.
    Their declarations stand in chains, as exporters write them. The units are millimetres."""
    wall_counts, arch_counts = (5, 4, 2, 3, 0, 4), (2, 4, 0, 0, 0, 0)
    wall = declared(wall_counts, KINDS[:6], 0, name=b"wall")
    arch = declared(arch_counts, (Shading(),), name=b"arch\t2\\")
    wall_faces = random_faces(Dice(7), wall, wall_counts, (4, 0, 4, 2, 4))
    arch_base = base_of(arch, arch_counts, coded=u32(1) + bytes(8))
    inner = chain(arch.name, chain_type=1, blocks=[block(MESH_DECLARATION, declaration_data(arch))])
    outer = chain(wall.name, chain_type=1, blocks=[block(MESH_DECLARATION, declaration_data(wall)), inner])
    world = block(GROUP_NODE, name_field(b"world") + u32(0))
    return file_of(world + outer, block(BASE_MESH, base_of(wall, wall_counts, wall_faces))
                   + block(BASE_MESH, arch_base), profile=8, units=struct.pack("<d", 0.001))


# Good pairs, changed at random places: the reader alone gives their answers.

# How many of each answer.
MUTANTS = {0: 16, 1: 12, 8: 5, 9: 10, 10: 10, 11: 14, 12: 5, 17: 4}
TRIES = 3000
WORDS = (0, 1, 2, 3, 4, 5, 64, 65, 0xFFFF, 0x10000, 0x10001, 0x7FFFFFFF, HUGE)


def set_number(dice, data):
    """Fields stand at multiples of 4 for the name "ab"."""
    at = 4 * dice.below(len(data) // 4)
    return data[:at] + u32(dice.pick(WORDS)) + data[at + 4:]


def set_late_byte(dice, data):
    """Where the continuation has its faces."""
    at = len(data) - 1 - dice.below(min(len(data), 16))
    return data[:at] + bytes([dice.below(256)]) + data[at + 1:]


def mutate(dice, data):
    changes = (flip_bit, flip_bit, set_number, set_number, drop_words, repeat_words, cut_end,
               set_late_byte, set_late_byte)
    for _ in range(1 + dice.below(2)):
        if len(data) >= 36:
            data = dice.pick(changes)(dice, data)
    return data


def mutant(dice, pairs):
    declaration, continuation = dice.pick(pairs)
    lengths = ROOM if dice.below(8) else tuple(dice.below(length + 1) for length in ROOM)
    side = dice.below(3)
    if side == 0:
        return mutate(dice, declaration), continuation, lengths
    return declaration, mutate(dice, continuation), lengths


def mutants():
    """Changed pairs, no two with the same answer, up to `MUTANTS` of each number."""
    dice, counts = Dice(961), (6, 5, 4, 3, 2, 7)
    kinds = declared(counts, KINDS[:6], 0)
    records = random_faces(dice, kinds, counts, (3, 0, 5, 5, 1, 4))
    pairs = [(ALL_DATA, ALL_BASE), (TRIANGLE_DATA, TRIANGLE_BASE),
             (declaration_data(kinds), base_of(kinds, counts, records))]
    found = {number: {} for number in MUTANTS}
    for _ in range(TRIES):
        declaration, continuation, lengths = mutant(dice, pairs)
        if (declaration, continuation) not in pairs:
            mesh = read_mesh(declaration, continuation, filled(lengths))
            answer = (mesh.part, mesh.place, mesh.counts, *map(tuple, mesh.tables))
            if len(found[mesh.number]) < MUTANTS[mesh.number]:
                found[mesh.number].setdefault(answer, (mesh, declaration, continuation, lengths))
    return [Case("mutant-%02d-%02d.mesh" % (number, index), mesh.number, mesh.part, mesh.place, *pair)
            for number, answers in found.items()
            for index, (mesh, *pair) in enumerate(answers.values(), 1)]


def filled(lengths):
    """Tables as they are before a call."""
    return [[FILL] * length for length in lengths]
