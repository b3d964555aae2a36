//! Damage to the bytes of a piece.

use super::piece::Piece;
use crate::random::Random;

/// Numbers at which an answer changes: small ones, each limit with its neighbours, and block types.
pub const INTERESTING: [u32; 36] = [
    0, 1, 2, 3, 4, 5, 8, 23, 24, 25, 32, 63, 64, 65, 255, 256, 257, 0x3FFD, 0x3FFE, 0x3FFF, 4095,
    4096, 4097, 0xFFFF, 0x10000, 0x10001, 0x7FFFFFFF, 0x80000000, 0xFFFFFFFC, 0xFFFFFFFE,
    0xFFFFFFFF, 0x00443355, 0xFFFFFF14, 0xFFFFFF21, 0xFFFFFF31, 0xFFFFFF3B,
];

/// Most bytes that one damage inserts, removes or cuts off.
const MOST_BYTES: usize = 16;
/// Damage anywhere in a piece seldom hits its last bytes; two times in three it is done there.
const LAST_BYTES: usize = 60;

/// Another value for a number, mostly near it or interesting.
pub fn other_value(random: &mut Random, value: u32) -> u32 {
    match random.below(5) {
        0 => value.wrapping_add(1),
        1 => value.wrapping_sub(1),
        2 => value ^ (1 << random.below(32)),
        _ => random.pick(&INTERESTING),
    }
}

fn any_place(random: &mut Random, length: usize) -> usize {
    let last = if random.once_in(3) {
        length
    } else {
        length.min(LAST_BYTES)
    };
    length - 1 - random.below(last)
}

/// Mostly zeros, as paddings are.
fn insert(piece: &mut Piece, random: &mut Random, at: usize) {
    let count = random.below(MOST_BYTES + 1);
    let byte = if random.once_in(3) { random.byte() } else { 0 };
    piece.bytes.splice(at..at, std::iter::repeat_n(byte, count));
}

fn remove(piece: &mut Piece, random: &mut Random, at: usize) {
    let count = random.below(MOST_BYTES + 1).min(piece.bytes.len() - at);
    piece.bytes.drain(at..at + count);
}

fn poke(piece: &mut Piece, random: &mut Random) {
    if piece.fields.is_empty() {
        return;
    }
    let at = random.pick(&piece.fields);
    let Some(value) = piece.u32_at(at) else {
        return;
    };
    piece.set_u32(at, other_value(random, value));
}

/// One damage: a byte, a bit, a field, a cut, bytes more or less.
pub fn damage(piece: &mut Piece, random: &mut Random) {
    let length = piece.bytes.len();
    if length == 0 {
        return;
    }
    let at = any_place(random, length);
    match random.below(9) {
        0 => piece.bytes[at] = random.byte(),
        1 => piece.bytes[at] ^= 1 << random.below(8),
        2 => piece.bytes.truncate(at),
        3 => piece
            .bytes
            .truncate(length - random.below(length.min(MOST_BYTES))),
        4 => insert(piece, random, at),
        5 => remove(piece, random, at),
        _ => poke(piece, random),
    }
}

/// So many damages at most, at times none.
pub fn damage_some(piece: &mut Piece, random: &mut Random, most: usize) {
    for _ in 0..random.below(most + 1) {
        damage(piece, random);
    }
}
