"""Files that show how a walk over the blocks judges.

Each case gives the answer that documents 01 and 02 ask for, worked out by hand. In most
files the header ends at 36 (with units at 44), so the second block starts there and its
data at 48.
A chain named "ab" at 36 has its name at 48, type at 52, attributes at 56, no
padding, its modifier count at 60 and its first block at 64.
"""

import struct
from typing import NamedTuple

from u3d.blocks import (
    CHAIN, CONTINUATIONS, DECLARATIONS, HEADER, METRES, PROGRAM_LIMIT, block, chain_data,
    chain_name, file_of, header_block, name_field, u32, u64, walk, with_file_size)
from u3d.cube import CUBE

GROUP_NODE = 0xFFFFFF21
MESH_DECLARATION = 0xFFFFFF31
BASE_MESH = 0xFFFFFF3B
PRIORITY_UPDATE = 0xFFFFFF15
HUGE = 0xFFFFFFFF


class Case(NamedTuple):
    name: str
    number: int
    place: int
    data: bytes


def chain(name=b"ab", meta=b"", meta_padding=None, **fields):
    """A chain as a whole block; `fields` are those of `chain_data`."""
    return block(CHAIN, chain_data(name, **fields), meta, meta_padding=meta_padding)


def nest(levels, blocks):
    """Chains named "n" in one another: each starts 28 bytes after the one around it."""
    for _ in range(levels):
        blocks = [chain(b"n", blocks=blocks)]
    return blocks[0]


NODE = block(GROUP_NODE)
UPDATE = block(PRIORITY_UPDATE, u32(1))


# The listing program's sample.

def sample():
    """A small file as an exporter might write it: nodes, nested chains, two base meshes."""
    arch = chain(b"arch", chain_type=1, blocks=[mesh_declaration(b"arch", pair(b"year", b"1912"))])
    wall = chain(b"wall", chain_type=1, blocks=[mesh_declaration(b"wall"), arch])
    world = block(GROUP_NODE, name_field(b"world") + u32(0))
    return file_of(world + wall, base_mesh(b"wall") + base_mesh(b"arch"))


def pair(key, value):
    """9.2.6: meta data of one pair with a string value."""
    return u32(1) + u32(0) + name_field(key) + name_field(value)


def mesh_declaration(name, meta=b""):
    """9.6.1.1: a mesh of three positions, without normals, faces and shadings."""
    counts = struct.pack("<9I", 0, 1, 0, 3, 0, 0, 0, 0, 0)  # chain index to shading count
    resolutions = struct.pack("<2I", 3, 3)
    qualities = struct.pack("<3I", 1000, 1000, 1000)
    quants_and_parameters = struct.pack("<8f", *[1 / 1024] * 5, 0.5, 0.5, 0.5)
    data = name_field(name) + counts + resolutions + qualities + quants_and_parameters + u32(0)
    return block(MESH_DECLARATION, data, meta)


def base_mesh(name):
    """9.6.1.2: chain index, base counts of faces, positions and so on, the positions."""
    counts = struct.pack("<7I", 0, 0, 3, 0, 0, 0, 0)
    positions = struct.pack("<9f", 0, 0, 0, 1, 0, 0, 0, 1, 0)
    return block(BASE_MESH, name_field(name) + counts + positions)


# The file that is cut at every length.

def whole():
    """Nested chains, meta data and paddings; declaration size 0, so that no cut exceeds it."""
    inner = chain(b"a", meta=b"m", blocks=[block(GROUP_NODE, b"abc", b"me"), NODE])
    outer = chain(b"hall", meta=b"met", blocks=[block(GROUP_NODE, b"abcdef"), inner])
    deep = nest(4, [block(GROUP_NODE, b"d", b"m")])
    node = block(GROUP_NODE, b"abcde", b"meta!")
    return file_of(node + outer + deep, block(BASE_MESH, b"abcdefg", b"m") + UPDATE,
                   meta=b"header", declaration_size=0)


def cut(data, length):
    """The first bytes, with the file size field set to their number."""
    return with_file_size(data[:length])


# Files with one fault, or none.

def good_headers():
    return [
        Case("00-header-only.u3d", 0, 0, file_of()),
        Case("00-profile-2.u3d", 0, 0, file_of(profile=2)),
        Case("00-profile-8.u3d", 0, 0, file_of(profile=8)),
        Case("00-profile-10.u3d", 0, 0, file_of(NODE, profile=10)),
        Case("00-minor-version.u3d", 0, 0, file_of(minor=0x0102)),
        Case("00-minor-version-65535.u3d", 0, 0, file_of(minor=0xFFFF)),
        Case("00-encoding.u3d", 0, 0, file_of(encoding=HUGE)),
        Case("00-declaration-size-0.u3d", 0, 0, file_of(NODE, declaration_size=0)),
        Case("00-declaration-size-is-length.u3d", 0, 0, file_of(NODE, UPDATE, declaration_size=64)),
        Case("00-header-meta-1.u3d", 0, 0, file_of(meta=b"m")),
        Case("00-header-meta-3.u3d", 0, 0, file_of(NODE, meta=b"met")),
        Case("00-header-meta-4.u3d", 0, 0, file_of(NODE, meta=b"meta")),
    ]


def good_units():
    """The factor is handed out as it stands: nothing is asked of it."""
    patterns = {
        "millimetres": struct.pack("<d", 0.001), "zero": struct.pack("<d", 0.0),
        "negative": struct.pack("<d", -2.5), "infinite": struct.pack("<d", float("inf")),
        "not-a-number": u64(0x7FF8000000000001), "all-bits": u64(2 ** 64 - 1),
        "lowest-byte": u64(1),
    }
    return [Case("00-units-%s.u3d" % name, 0, 0, file_of(NODE, profile=8, units=pattern))
            for name, pattern in patterns.items()] + [
        Case("00-units-extensible.u3d", 0, 0, file_of(NODE, UPDATE, profile=10)),
        Case("00-units-header-meta.u3d", 0, 0, file_of(NODE, profile=8, meta=b"metre")),
        Case("00-units-declaration-size-44.u3d", 0, 0, file_of(profile=8, declaration_size=44)),
    ]


def good_blocks():
    sizes = [block(GROUP_NODE, b"12345"[:size], b"abcde"[:meta])
             for size in range(6) for meta in range(6)]
    known = [chain() if known_type == CHAIN else block(known_type, b"data")
             for known_type in sorted(DECLARATIONS)]
    continued = [block(known_type, b"data") for known_type in sorted(CONTINUATIONS)]
    most = block(GROUP_NODE, bytes(PROGRAM_LIMIT - 48))
    return [
        Case("00-data-and-meta-sizes.u3d", 0, 0, file_of(b"".join(sizes))),
        Case("00-known-types.u3d", 0, 0, file_of(b"".join(known), b"".join(continued))),
        Case("00-known-types-in-chain.u3d", 0, 0, file_of(chain(blocks=known))),
        Case("00-continuations-only.u3d", 0, 0, file_of(b"", UPDATE + block(BASE_MESH) + UPDATE)),
        Case("00-opaque-data.u3d", 0, 0, file_of(block(MESH_DECLARATION, b"\xff" * 9) + NODE)),
        Case("00-meta-of-chain-bytes.u3d", 0, 0, file_of(block(GROUP_NODE, meta=chain()))),
        Case("00-at-limit.u3d", 0, 0, file_of(most)),
    ]


def good_chains():
    lengths = b"".join(chain(b"abcde"[:length], blocks=[NODE]) for length in range(6))
    kinds = b"".join(chain(b"kind", chain_type=kind) for kind in range(3))
    siblings = chain(b"s", blocks=[NODE, nest(2, [NODE, NODE]), nest(3, []), NODE])
    noted = block(GROUP_NODE, b"123", b"inner")
    everywhere = chain(meta=b"chain", blocks=[noted, chain(meta=b"nested", blocks=[noted])])
    return [
        Case("00-chain-empty.u3d", 0, 0, file_of(chain())),
        Case("00-chain-no-name.u3d", 0, 0, file_of(chain(b""))),
        Case("00-chain-name-lengths.u3d", 0, 0, file_of(lengths)),
        Case("00-chain-name-255.u3d", 0, 0, file_of(chain(b"n" * 255, blocks=[NODE]))),
        Case("00-chain-types.u3d", 0, 0, file_of(kinds)),
        Case("00-chain-of-three.u3d", 0, 0, file_of(chain(blocks=[NODE, NODE, NODE]) + NODE)),
        Case("00-depth-4.u3d", 0, 0, file_of(nest(4, [NODE]))),
        Case("00-depth-4-empty.u3d", 0, 0, file_of(nest(4, []) + nest(4, [NODE, NODE]))),
        Case("00-nested-siblings.u3d", 0, 0, file_of(siblings + NODE, UPDATE)),
        Case("00-meta-everywhere.u3d", 0, 0,
             file_of(noted + everywhere, block(BASE_MESH, b"1", b"cont"), meta=b"header")),
    ]


def cut_first_blocks():
    head = file_of()
    return [
        Case("01-empty-file.u3d", 1, 0, b""),
        Case("01-type-cut.u3d", 1, 0, head[:3]),
        Case("01-data-size-missing.u3d", 1, 4, head[:4]),
        Case("01-data-size-cut.u3d", 1, 4, head[:7]),
        Case("01-meta-size-missing.u3d", 1, 8, head[:8]),
        Case("01-meta-size-cut.u3d", 1, 8, head[:11]),
        Case("01-header-data-missing.u3d", 1, 12, head[:12]),
        Case("01-header-data-cut.u3d", 1, 12, head[:35]),
        Case("01-header-data-cut-size-0.u3d", 1, 12, header_block(data_size=0)[:35]),
        Case("01-header-data-cut-size-7.u3d", 1, 12, header_block(data_size=7)[:19]),
        Case("01-units-missing.u3d", 1, 12, file_of(profile=8)[:36]),
        Case("01-units-cut.u3d", 1, 12, file_of(profile=10)[:43]),
        Case("01-header-meta-missing.u3d", 1, 36, file_of(meta_size=5)),
        Case("01-header-meta-cut.u3d", 1, 36, file_of(meta=b"meta", meta_size=5)),
        Case("01-units-meta-missing.u3d", 1, 44, file_of(profile=8, meta_size=5)),
        Case("01-units-meta-padding-cut.u3d", 1, 49,
             file_of(profile=8, meta=b"metad", meta_padding=b"\0\0")),
        Case("01-header-meta-size-huge.u3d", 1, 36, file_of(NODE, meta_size=HUGE)),
        Case("01-header-meta-padding-missing.u3d", 1, 41, file_of(meta=b"metad", meta_padding=b"")),
        Case("01-header-meta-padding-cut.u3d", 1, 41, file_of(meta=b"metad", meta_padding=b"\0\0")),
    ]


def cut_later_blocks():
    # Data from 48 to 53, padding to 56, meta data to 58, padding to 60.
    both = block(GROUP_NODE, b"12345", b"ab")
    return [
        Case("01-next-type-cut.u3d", 1, 36, file_of(both[:2])),
        Case("01-next-data-size-missing.u3d", 1, 40, file_of(both[:4])),
        Case("01-next-data-size-cut.u3d", 1, 40, file_of(both[:6])),
        Case("01-next-meta-size-missing.u3d", 1, 44, file_of(both[:8])),
        Case("01-next-meta-size-cut.u3d", 1, 44, file_of(both[:11])),
        Case("01-one-byte-after.u3d", 1, 48, file_of(NODE + b"\0")),
        Case("01-data-missing.u3d", 1, 48, file_of(both[:12])),
        Case("01-data-cut.u3d", 1, 48, file_of(both[:16])),
        Case("01-data-padding-missing.u3d", 1, 53, file_of(both[:17])),
        Case("01-data-padding-cut.u3d", 1, 53, file_of(both[:19])),
        Case("01-meta-missing.u3d", 1, 56, file_of(both[:20])),
        Case("01-meta-cut.u3d", 1, 56, file_of(both[:21])),
        Case("01-meta-padding-missing.u3d", 1, 58, file_of(both[:22])),
        Case("01-meta-padding-cut.u3d", 1, 58, file_of(both[:23])),
        Case("01-meta-without-data-cut.u3d", 1, 48, file_of(block(GROUP_NODE, meta=b"me", meta_size=5))),
        Case("01-data-size-huge.u3d", 1, 48, file_of(block(GROUP_NODE, b"data", data_size=HUGE))),
        Case("01-data-size-huge-meta-8.u3d", 1, 48,
             file_of(block(GROUP_NODE, b"data", b"metadata", data_size=HUGE - 3))),
        Case("01-meta-size-huge.u3d", 1, 52, file_of(block(GROUP_NODE, b"data", b"me", meta_size=HUGE))),
        Case("01-continuation-cut.u3d", 1, 48, file_of(b"", block(BASE_MESH, b"data", data_size=9))),
        Case("01-chain-data-cut.u3d", 1, 48, file_of(chain(blocks=[NODE])[:-4])),
        # The chain's data ends at 64; so does the file.
        Case("01-chain-meta-missing.u3d", 1, 64, file_of(chain(meta=b"meta")[:-4])),
        Case("01-second-of-two-cut.u3d", 1, 60, file_of(NODE + both[:15])),
    ]


def not_headers():
    return [
        Case("02-type-declaration.u3d", 2, 0, file_of(block_type=GROUP_NODE)),
        Case("02-type-unknown.u3d", 2, 0, file_of(block_type=0x00443356)),
        Case("02-zeros.u3d", 2, 0, bytes(36)),
        Case("02-data-size-23.u3d", 2, 4, file_of(data_size=23)),
        Case("02-data-size-28.u3d", 2, 4, file_of(units=bytes(4))),
        Case("02-data-size-32.u3d", 2, 4, file_of(units=u64(METRES))),
        Case("02-data-size-32-profile-2.u3d", 2, 4, file_of(profile=2, units=u64(METRES))),
        Case("02-data-size-0.u3d", 2, 4, file_of(data_size=0)),
        Case("02-data-size-huge.u3d", 2, 4, file_of(data_size=HUGE)),
        Case("02-units-24.u3d", 2, 4, file_of(profile=8, units=b"")),
        Case("02-units-24-profile-10.u3d", 2, 4, file_of(NODE, profile=10, units=b"")),
        Case("02-units-28.u3d", 2, 4, file_of(profile=8, units=bytes(4))),
        Case("02-units-36.u3d", 2, 4, file_of(profile=8, units=bytes(12))),
        Case("02-major-version-1.u3d", 2, 12, file_of(NODE, major=1)),
        Case("02-major-version-256.u3d", 2, 12, file_of(major=256)),
        Case("02-major-version-negative.u3d", 2, 12, file_of(major=0xFFFF)),
    ]


def wrong_sizes():
    return [
        Case("03-declaration-size-one-more.u3d", 3, 20, file_of(NODE, UPDATE, declaration_size=65)),
        Case("03-declaration-size-huge.u3d", 3, 20, file_of(declaration_size=HUGE)),
        Case("03-file-size-one-more.u3d", 3, 24, file_of(NODE, file_size=49)),
        Case("03-file-size-one-less.u3d", 3, 24, file_of(NODE, file_size=47)),
        Case("03-file-size-0.u3d", 3, 24, file_of(file_size=0)),
        Case("03-file-size-high-word.u3d", 3, 24, file_of(file_size=36 + 2 ** 32)),
        Case("03-file-size-high-byte.u3d", 3, 24, file_of(file_size=36 + 2 ** 56)),
        Case("03-units-declaration-size-45.u3d", 3, 20, file_of(profile=8, declaration_size=45)),
        Case("03-units-file-size-36.u3d", 3, 24, file_of(profile=8, file_size=36)),
        # With profile 8 in place of 0xC its units are taken; it states a byte less than it has.
        Case("03-annotated-cube-profile-8.u3d", 3, 24, CUBE[:16] + u32(8) + CUBE[20:]),
    ]


def wrong_profiles():
    bits = (0x1, 0x4, 0x6, 0xC, 0x10, 0x18, 0x100, 0x80000000)
    return [Case("04-profile-0x%x.u3d" % bit, 4, 16, file_of(NODE, profile=bit)) for bit in bits] + [
        Case("04-annotated-cube.u3d", 4, 16, CUBE),
    ]


def wrong_paddings():
    # Data at 48, its padding at 49 to 51, meta data at 52, its padding at 53 to 55.
    def padded(data_padding=b"\0\0\0", meta_padding=b"\0\0\0"):
        return block(GROUP_NODE, b"d", b"m", data_padding=data_padding, meta_padding=meta_padding)

    # Name at 48, type at 53, attributes at 57, padding at 61 to 63.
    def inner(padding):
        return file_of(chain(b"abc", padding=padding, blocks=[NODE]))

    return [
        Case("05-header-meta-padding.u3d", 5, 37, file_of(meta=b"m", meta_padding=b"\1\0\0")),
        Case("05-header-meta-padding-second.u3d", 5, 38, file_of(meta=b"m", meta_padding=b"\0\1\0")),
        Case("05-units-meta-padding.u3d", 5, 45, file_of(profile=8, meta=b"m", meta_padding=b"\1\0\0")),
        Case("05-data-padding.u3d", 5, 49, file_of(padded(b"\1\0\0"))),
        Case("05-data-padding-second.u3d", 5, 50, file_of(padded(b"\0\x80\1"))),
        Case("05-data-padding-third.u3d", 5, 51, file_of(padded(b"\0\0\xff"))),
        Case("05-meta-padding.u3d", 5, 53, file_of(padded(meta_padding=b"\1\0\0"))),
        Case("05-meta-padding-second.u3d", 5, 54, file_of(padded(meta_padding=b"\0\1\1"))),
        Case("05-both-paddings.u3d", 5, 51, file_of(padded(b"\0\0\1", b"\1\0\0"))),
        Case("05-continuation-padding.u3d", 5, 50,
             file_of(b"", block(BASE_MESH, b"12", data_padding=b"\1\0"))),
        Case("05-chain-inner-padding.u3d", 5, 61, inner(b"\1\0\0")),
        Case("05-chain-inner-padding-second.u3d", 5, 62, inner(b"\0\1\0")),
        Case("05-chain-inner-padding-third.u3d", 5, 63, inner(b"\0\0\1")),
        Case("05-chain-meta-padding.u3d", 5, 66, file_of(chain(meta=b"m", meta_padding=b"\0\1\0"))),
        Case("05-block-in-chain.u3d", 5, 77, file_of(chain(blocks=[padded(b"\1\0\0"), NODE]))),
        # The nested chain at 64 has its data at 76 to 92, meta data at 92.
        Case("05-nested-chain-meta-padding.u3d", 5, 95,
             file_of(chain(blocks=[chain(meta=b"m", meta_padding=b"\0\0\1")]))),
    ]


def unknown_types():
    last_bytes = (0x11, 0x13, 0x17, 0x20, 0x25, 0x30, 0x32, 0x35, 0x38, 0x3A, 0x3D,
                  0x40, 0x47, 0x50, 0x57, 0x5B, 0x5D)
    types = [0xFFFFFF00 | last for last in last_bytes]
    types += [0, 0x100, 0x31, 0x00443354, 0x00FFFF31, 0xFF00FF31, 0xFFFF0031, 0x14FFFFFF, HUGE]
    return [Case("06-type-%08x.u3d" % unknown, 6, 36, file_of(block(unknown))) for unknown in types] + [
        Case("06-second-block.u3d", 6, 48, file_of(NODE + block(0xFFFFFF3D))),
        Case("06-among-continuations.u3d", 6, 52, file_of(b"", UPDATE + block(0xFFFFFF3D))),
        Case("06-in-chain.u3d", 6, 76, file_of(chain(blocks=[NODE, block(0xFFFFFF3D)]))),
        Case("06-nested.u3d", 6, 148, file_of(nest(4, [block(0xFFFFFF20)]))),
    ]


def deep_chains():
    # Chains at 36, 64, 92, 120 and 148.
    after = chain(b"s", blocks=[nest(3, []), nest(3, [nest(1, [])])])
    return [
        Case("07-depth.u3d", 7, 148, file_of(nest(5, []))),
        Case("07-depth-6.u3d", 7, 148, file_of(nest(6, [NODE]))),
        Case("07-depth-second-nest.u3d", 7, 148 + 12, file_of(NODE + nest(4, [chain()]))),
        # Around: 28 bytes; three empty chains at 64: 84 bytes; then at 148, 176, 204, 232.
        Case("07-depth-after-siblings.u3d", 7, 232, file_of(after)),
    ]


def cut_chain_fields():
    # Name "abc": at 48 to 53, type at 53, attributes at 57, padding at 61, count at 64.
    def contents(size):
        return file_of(block(CHAIN, chain_data(b"abc")[:size]) + NODE)

    return [
        Case("07-name-missing.u3d", 7, 48, contents(0)),
        Case("07-name-length-cut.u3d", 7, 48, contents(1)),
        Case("07-name-bytes-missing.u3d", 7, 48, contents(2)),
        Case("07-name-bytes-cut.u3d", 7, 48, contents(4)),
        Case("07-name-length-65535.u3d", 7, 48, file_of(chain(b"abc", name_length=65535))),
        Case("07-chain-type-missing.u3d", 7, 53, contents(5)),
        Case("07-chain-type-cut.u3d", 7, 53, contents(8)),
        Case("07-attributes-missing.u3d", 7, 57, contents(9)),
        Case("07-attributes-cut.u3d", 7, 57, contents(12)),
        Case("07-padding-missing.u3d", 7, 61, contents(13)),
        Case("07-padding-cut.u3d", 7, 61, contents(15)),
        Case("07-count-missing.u3d", 7, 64, contents(16)),
        Case("07-count-cut.u3d", 7, 64, contents(19)),
    ]


def wrong_chain_fields():
    return [
        Case("07-chain-type-3.u3d", 7, 52, file_of(chain(chain_type=3))),
        Case("07-chain-type-256.u3d", 7, 51, file_of(chain(b"a", chain_type=256))),
        Case("07-chain-type-huge.u3d", 7, 50, file_of(chain(b"", chain_type=HUGE))),
        Case("07-attributes-1.u3d", 7, 56, file_of(chain(attributes=1))),
        Case("07-attributes-2.u3d", 7, 58, file_of(chain(b"abcd", attributes=2))),
        Case("07-attributes-high-bit.u3d", 7, 56, file_of(chain(attributes=0x80000000))),
        # The nested chain at 64 has its name at 76, type at 80, attributes at 84.
        Case("07-nested-chain-type.u3d", 7, 80, file_of(chain(blocks=[chain(chain_type=3)]))),
        Case("07-nested-attributes.u3d", 7, 84, file_of(chain(blocks=[chain(attributes=1)]))),
    ]


def blocks_past_chain():
    # Inner block at 64: data at 76 to 81, padding to 84, meta data to 86, padding to 88.
    both = block(GROUP_NODE, b"12345", b"ab")

    def holding(size):
        """The chain's data ends within its only block; the file goes on."""
        return file_of(block(CHAIN, chain_data(b"ab", count=1) + both[:size]) + NODE)

    return [
        Case("07-inner-type-cut.u3d", 7, 64, holding(3)),
        Case("07-inner-data-size-missing.u3d", 7, 68, holding(4)),
        Case("07-inner-meta-size-missing.u3d", 7, 72, holding(8)),
        Case("07-inner-meta-size-cut.u3d", 7, 72, holding(11)),
        Case("07-inner-data-missing.u3d", 7, 76, holding(12)),
        Case("07-inner-data-cut.u3d", 7, 76, holding(16)),
        Case("07-inner-data-padding-missing.u3d", 7, 81, holding(17)),
        Case("07-inner-data-padding-cut.u3d", 7, 81, holding(19)),
        Case("07-inner-meta-missing.u3d", 7, 84, holding(20)),
        Case("07-inner-meta-cut.u3d", 7, 84, holding(21)),
        Case("07-inner-meta-padding-missing.u3d", 7, 86, holding(22)),
        Case("07-inner-meta-padding-cut.u3d", 7, 86, holding(23)),
        Case("07-inner-data-size-huge.u3d", 7, 76,
             file_of(chain(blocks=[block(GROUP_NODE, b"data", data_size=HUGE)]))),
        # The outer chain's data ends at 76, after the nested one's first 12 bytes.
        Case("07-nested-chain-passes-end.u3d", 7, 76,
             file_of(block(CHAIN, chain_data(b"ab", count=1) + chain()[:12]) + bytes(16))),
        # The nested chain at 64 tells 12 bytes of data more than the outer one holds.
        Case("07-nested-data-size-more.u3d", 7, 76,
             file_of(chain(blocks=[block(CHAIN, chain_data(b"ab"), data_size=28)]) + NODE)),
    ]


def unfilled_chains():
    return [
        Case("07-count-0-block-left.u3d", 7, 64, file_of(chain(count=0, blocks=[NODE]))),
        Case("07-count-1-block-left.u3d", 7, 76, file_of(chain(count=1, blocks=[NODE, NODE]))),
        Case("07-one-byte-left.u3d", 7, 76, file_of(chain(count=1, blocks=[NODE, b"\0"]))),
        Case("07-four-bytes-left.u3d", 7, 64, file_of(chain(count=0, blocks=[bytes(4)]))),
        Case("07-too-few-blocks.u3d", 7, 76, file_of(chain(count=2, blocks=[NODE]))),
        Case("07-too-few-blocks-file-goes-on.u3d", 7, 76, file_of(chain(count=2, blocks=[NODE]) + NODE)),
        Case("07-no-blocks.u3d", 7, 64, file_of(chain(count=1) + NODE)),
        Case("07-count-huge.u3d", 7, 76, file_of(chain(count=HUGE, blocks=[NODE]) + NODE)),
        # The nested chain at 64 has its count at 88 and ends at 104; the outer one goes on.
        Case("07-nested-too-few.u3d", 7, 104,
             file_of(chain(blocks=[chain(count=2, blocks=[NODE]), NODE]))),
        Case("07-nested-left.u3d", 7, 92, file_of(chain(blocks=[chain(count=0, blocks=[NODE]), NODE]))),
    ]


def long_names():
    return [
        Case("08-name-256.u3d", 8, 48, file_of(chain(b"n" * 256))),
        Case("08-name-300.u3d", 8, 48, file_of(chain(b"n" * 300, blocks=[NODE]))),
        # The nested chain at 64 has its name at 76.
        Case("08-nested-name-256.u3d", 8, 76, file_of(chain(blocks=[chain(b"n" * 256)]))),
    ]


def large_files():
    return [
        Case("09-above-limit.u3d", 9, 0, file_of(bytes(PROGRAM_LIMIT - 35))),
        Case("09-before-2-zeros.u3d", 9, 0, bytes(PROGRAM_LIMIT + 1)),
    ]


def out_of_order():
    after = UPDATE  # a continuation at 36, 16 bytes
    return [
        Case("11-header-again.u3d", 11, 36, file_of(file_of())),
        Case("11-header-with-units-again.u3d", 11, 44, file_of(file_of(profile=8), profile=8)),
        Case("11-header-after-declaration.u3d", 11, 48, file_of(NODE + header_block())),
        Case("11-header-after-continuation.u3d", 11, 52, file_of(b"", after + header_block())),
        Case("11-header-in-chain.u3d", 11, 64, file_of(chain(blocks=[header_block()]))),
        Case("11-continuation-in-chain.u3d", 11, 76, file_of(chain(blocks=[NODE, UPDATE]))),
        Case("11-base-mesh-in-nest.u3d", 11, 148, file_of(nest(4, [block(BASE_MESH)]))),
        Case("11-declaration-after-continuation.u3d", 11, 52, file_of(b"", after + NODE)),
        Case("11-chain-after-continuation.u3d", 11, 52, file_of(b"", after + chain())),
        Case("11-declaration-between.u3d", 11, 64, file_of(NODE, after + NODE + after)),
    ]


# Two faults: the one that 01's order judges first decides.

def first_block_priorities():
    cut_meta = {"meta": b"m", "meta_size": 9, "meta_padding": b"\1\1\1"}
    return [
        Case("order-1-before-2-head.u3d", 1, 8, bytes(11)),
        Case("order-2-type-before-data-size.u3d", 2, 0, bytes(12)),
        Case("order-1-before-2-data-size.u3d", 1, 12, header_block(data_size=25)[:35]),
        Case("order-2-major-before-data-size.u3d", 2, 12, file_of(data_size=32, major=1)),
        Case("order-4-before-2-data-size.u3d", 4, 16, file_of(data_size=25, profile=4)),
        Case("order-4-before-2-units-24.u3d", 4, 16, file_of(profile=12, units=b"")),
        Case("order-2-data-size-before-1.u3d", 2, 4, file_of(data_size=40)),
        Case("order-2-units-24-before-1.u3d", 2, 4, header_block(profile=8, units=b"", declaration_size=HUGE)),
        Case("order-2-data-size-before-3.u3d", 2, 4, file_of(data_size=25, declaration_size=HUGE, file_size=0)),
        Case("order-1-units-before-3.u3d", 1, 12, header_block(profile=8, declaration_size=HUGE)[:40]),
        Case("order-3-before-units-meta.u3d", 3, 24, file_of(profile=8, file_size=0, meta_size=9)),
        Case("order-1-before-2-major.u3d", 1, 12, header_block(major=1)[:35]),
        Case("order-1-before-4.u3d", 1, 12, header_block(profile=4)[:20]),
        Case("order-2-before-4.u3d", 2, 12, file_of(major=1, profile=4)),
        Case("order-2-before-3.u3d", 2, 12, file_of(major=1, file_size=0)),
        Case("order-4-before-3.u3d", 4, 16, file_of(profile=1, declaration_size=HUGE, file_size=0)),
        Case("order-3-declaration-before-file-size.u3d", 3, 20, file_of(declaration_size=HUGE, file_size=0)),
        Case("order-3-before-1.u3d", 3, 24, file_of(file_size=0, **cut_meta)),
        Case("order-1-before-5-header.u3d", 1, 36, file_of(**cut_meta)),
        Case("order-3-before-6.u3d", 3, 24, file_of(block(0), file_size=36)),
        Case("order-5-header-before-6.u3d", 5, 37, file_of(block(0), meta=b"m", meta_padding=b"\1\0\0")),
    ]


def block_priorities():
    wrong = {"data_padding": b"\1\0\0", "meta_padding": b"\1\0\0"}
    late = b"d" * 5
    return [
        Case("order-1-before-6.u3d", 1, 44, file_of(block(0)[:11])),
        Case("order-6-before-1.u3d", 6, 36, file_of(block(0, late, data_size=HUGE))),
        Case("order-6-before-5.u3d", 6, 36, file_of(block(0, b"d", b"m", **wrong))),
        Case("order-1-before-11.u3d", 1, 60, file_of(b"", UPDATE + NODE[:11])),
        Case("order-11-before-1.u3d", 11, 52, file_of(b"", UPDATE + block(GROUP_NODE, late, data_size=9))),
        Case("order-11-before-5.u3d", 11, 52, file_of(b"", UPDATE + block(GROUP_NODE, b"d", b"m", **wrong))),
        Case("order-11-chain-before-contents.u3d", 11, 52, file_of(b"", UPDATE + chain(chain_type=3))),
        Case("order-11-header-before-1.u3d", 11, 36, file_of(header_block(data_size=HUGE))),
        # The data's padding, at 49, is not 0, but the meta data at 52 is cut.
        Case("order-1-before-5.u3d", 1, 52, file_of(block(GROUP_NODE, b"d", b"m", meta_size=9, **wrong))),
        Case("order-5-before-next-6.u3d", 5, 49, file_of(block(GROUP_NODE, b"d", b"m", **wrong) + block(0))),
        Case("order-5-before-next-1.u3d", 5, 49, file_of(block(GROUP_NODE, b"d", b"m", **wrong) + b"\0")),
        Case("order-6-before-later-5.u3d", 6, 36, file_of(block(0) + block(GROUP_NODE, b"d", b"m", **wrong))),
    ]


def chain_priorities():
    level_5 = block(CHAIN, chain_data(b"ab", chain_type=3), data_size=HUGE)
    header_deep = block(HEADER, data_size=HUGE)
    bad_type = chain_data(b"ab", chain_type=3)
    unknown = chain_data(b"ab", blocks=[block(0)])
    bad_meta = {"meta": b"m", "meta_padding": b"\1\0\0"}
    return [
        # The chain's data ends at 64 or, with a block in it, at 76; meta data comes then.
        Case("order-1-chain-meta-before-type.u3d", 1, 64, file_of(block(CHAIN, bad_type, b"m", meta_size=9))),
        Case("order-1-chain-meta-before-6.u3d", 1, 76, file_of(block(CHAIN, unknown, b"m", meta_size=9))),
        Case("order-1-chain-meta-padding-before-6.u3d", 1, 77,
             file_of(block(CHAIN, unknown, b"m", meta_padding=b"\0\0"))),
        # 15 bytes of data to 63, no padding: room before contents that lack the count.
        Case("order-1-chain-padding-before-7.u3d", 1, 63,
             file_of(block(CHAIN, chain_data(b"ab")[:15], data_padding=b""))),
        Case("order-7-count-cut-before-5.u3d", 7, 60,
             file_of(block(CHAIN, chain_data(b"ab")[:15], data_padding=b"\1"))),
        Case("order-7-chain-type-before-5.u3d", 7, 52, file_of(block(CHAIN, bad_type, **bad_meta))),
        Case("order-6-in-chain-before-5.u3d", 6, 64, file_of(block(CHAIN, unknown, **bad_meta))),
        Case("order-7-left-before-5.u3d", 7, 64, file_of(chain(count=0, blocks=[NODE], **bad_meta))),
        Case("order-7-depth-before-room.u3d", 7, 148, file_of(nest(4, [level_5]))),
        Case("order-11-before-7-room.u3d", 11, 148, file_of(nest(4, [header_deep]))),
        Case("order-6-before-7-room.u3d", 6, 64, file_of(chain(blocks=[block(0, data_size=HUGE)]))),
        Case("order-7-head-before-6.u3d", 7, 72, file_of(chain(count=1, blocks=[block(0)[:11]]))),
        Case("order-7-room-before-5-in-chain.u3d", 7, 80,
             file_of(chain(blocks=[block(GROUP_NODE, b"d", b"m", meta_size=9, data_padding=b"\1\0\0")]))),
    ]


def chain_field_priorities():
    return [
        Case("order-7-name-cut-before-8.u3d", 7, 48, file_of(chain(b"abc", name_length=300))),
        Case("order-8-before-chain-type.u3d", 8, 48, file_of(chain(b"n" * 256, chain_type=3))),
        Case("order-7-type-before-attributes.u3d", 7, 52, file_of(chain(chain_type=3, attributes=1))),
        # Name "abc": padding at 61 to 63, of which the chain's data holds two bytes.
        Case("order-7-padding-cut-before-5.u3d", 7, 61,
             file_of(block(CHAIN, chain_data(b"abc", padding=b"\1\1\1")[:15]))),
        Case("order-7-attributes-before-5.u3d", 7, 57,
             file_of(chain(b"abc", attributes=1, padding=b"\1\1\1"))),
        # Padding whole and not 0, count missing: file order.
        Case("order-5-before-count-missing.u3d", 5, 63,
             file_of(block(CHAIN, chain_data(b"abc", padding=b"\0\0\1")[:16]))),
        Case("order-5-inner-before-6.u3d", 5, 61,
             file_of(chain(b"abc", padding=b"\1\0\0", blocks=[block(0)]))),
        Case("order-6-before-too-few.u3d", 6, 64, file_of(chain(count=2, blocks=[block(0)]))),
        Case("order-7-in-chain-before-next-1.u3d", 7, 52, file_of(chain(chain_type=3) + b"\0")),
        Case("order-7-in-chain-before-next-6.u3d", 7, 64, file_of(chain(count=1) + block(0))),
    ]


def cases():
    groups = (
        good_headers, good_units, good_blocks, good_chains, cut_first_blocks, cut_later_blocks, not_headers,
        wrong_sizes, wrong_profiles, wrong_paddings, unknown_types, deep_chains,
        cut_chain_fields, wrong_chain_fields, blocks_past_chain, unfilled_chains, long_names,
        large_files, out_of_order, first_block_priorities, block_priorities, chain_priorities,
        chain_field_priorities)
    return [case for group in groups for case in group()]


# Good files, changed at random places: the reader alone gives their answers.

# How many of each answer. With the file size set right, 3 and 4 have a single place.
MUTANTS = {0: 10, 1: 9, 2: 3, 3: 1, 4: 1, 5: 9, 6: 7, 7: 14, 8: 1, 11: 6}
TRIES = 20000
WORDS = (0, 1, 2, 3, 4, 5, 12, 24, 0x100, HEADER, CHAIN, GROUP_NODE, BASE_MESH,
         PRIORITY_UPDATE, 0x7FFFFFFF, 0xFFFFFFFC, HUGE)


class Dice:
    """A fixed sequence of numbers, the same under every version of Python."""

    def __init__(self, seed):
        self.state = seed

    def below(self, limit):
        self.state = (self.state * 6364136223846793005 + 1442695040888963407) % 2 ** 64
        return (self.state >> 33) % limit

    def pick(self, choices):
        return choices[self.below(len(choices))]


def flip_bit(dice, data):
    at = dice.below(len(data))
    return data[:at] + bytes([data[at] ^ 1 << dice.below(8)]) + data[at + 1:]


def set_word(dice, data):
    at = 4 * dice.below(len(data) // 4)
    return data[:at] + u32(dice.pick(WORDS)) + data[at + 4:]


def drop_words(dice, data):
    at = 4 * dice.below(len(data) // 4)
    return data[:at] + data[at + 4 * (1 + dice.below(4)):]


def repeat_words(dice, data):
    at = 4 * dice.below(len(data) // 4)
    return data[:at + 4 * (1 + dice.below(8))] + data[at:]


def cut_end(dice, data):
    return data[:36 + dice.below(len(data) - 35)]


def mutate(dice, data):
    """One to three changes, the file size field set to the new length."""
    changes = (flip_bit, flip_bit, set_word, set_word, drop_words, repeat_words, cut_end)
    for _ in range(1 + dice.below(3)):
        if len(data) >= 36:
            data = dice.pick(changes)(dice, data)
    return with_file_size(data)


def plain_names(data, rows):
    """The chains' names are printable, so that the expected output stays text."""
    names = b"".join(chain_name(data, row[0]) for row in rows)
    return all(0x20 <= byte < 0x7F for byte in names)


def mutants():
    """(name, data) of changed files, no two with the same answer, up to `MUTANTS` of each."""
    inner = chain(b"n", blocks=[block(GROUP_NODE, b"12345", b"m")] * 11)
    good = (sample(), whole(), file_of(inner, UPDATE, meta=b"head"), file_of(nest(4, [NODE]), UPDATE, profile=8))
    dice, found = Dice(363), {number: {} for number in MUTANTS}
    for _ in range(TRIES):
        data = mutate(dice, dice.pick(good))
        number, place, rows = walk(data, PROGRAM_LIMIT)
        if len(found[number]) < MUTANTS[number] and data not in good and plain_names(data, rows):
            found[number].setdefault((place, tuple(rows)), data)
    return [("mutant-%02d-%02d.u3d" % (number, index), data)
            for number, answers in found.items()
            for index, data in enumerate(answers.values(), 1)]
