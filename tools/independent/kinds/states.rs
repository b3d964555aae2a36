//! States, histograms and data of the coder, well formed or not.

use super::random_length;
use crate::call::{Lent, Word};
use independent::coder::{fresh_histogram, SYMBOLS};
use independent::random::Random;

/// The place of the pending bits among the words of a state.
const PENDING: usize = 2;
const HALF: u64 = 0x8000;
const QUARTER: u64 = 0x4000;
const MOST_TOTAL: u32 = 0x1FFF;
/// The most bits, settled or pending, of a reader's state.
const MOST_BITS: u64 = 0xFFFF_FFFF;

/// Numbers at which a state is no longer well formed, or at which sums or casts go wrong.
const ODD_WORDS: [u64; 9] = [
    0,
    0x4000,
    0x8000,
    0xC000,
    0x10000,
    1 << 31,
    1 << 32,
    1 << 63,
    u64::MAX,
];

/// Limits of a well-formed state: the narrowest, fresh or any.
fn random_limits(random: &mut Random) -> (u64, u64) {
    match random.below(8) {
        0 => (QUARTER - 1, HALF),
        1 => (HALF - 1, HALF + QUARTER),
        2 => (0, 2 * HALF - 1),
        _ => {
            let low = random.u64() % HALF;
            (low, HALF + ((random.u64() % HALF) | (low & QUARTER)))
        }
    }
}

/// Another value for one of the words.
fn poke_word(random: &mut Random, words: &mut [u64]) {
    let at = random.below(words.len());
    let word = match random.below(4) {
        0 => words[at],
        1 => words[at] ^ (1 << 32),
        _ => random.pick(&ODD_WORDS),
    };
    words[at] = word.wrapping_add(random.u64() % 3).wrapping_sub(1);
}

/// The words of a state, seldom too few.
pub fn random_state(random: &mut Random, words: &[u64]) -> Lent<u64> {
    let length = random_length(random, words.len());
    patterned_after(words, length)
}

/// So many words: these, then a pattern.
fn patterned_after<T: Word>(words: &[T], length: usize) -> Lent<T> {
    let mut lent = Lent::patterned(length);
    let both = lent.lend().iter_mut().zip(words);
    both.for_each(|(lent, &word)| *lent = word);
    lent
}

/// Settled and pending bits mostly fit the buffer, often to its last bit.
pub fn writer_words(random: &mut Random, buffer_bytes: usize) -> Vec<u64> {
    let (low, high) = random_limits(random);
    let settled = random.below(8 * buffer_bytes + 1);
    let rest = 8 * buffer_bytes - settled;
    let pending = match random.below(6) {
        0 => random.below(rest + 1),
        1 => rest,
        2 => rest + 1,
        _ => random.below(rest.min(2) + 1),
    };
    let compressed = random.u64() % 2;
    let mut words = vec![low, high, pending as u64, settled as u64, compressed];
    if random.once_in(6) {
        poke_word(random, &mut words);
    }
    words
}

/// Weights that add up to `total`, spread over some symbols; escape has one at least.
fn random_weights(random: &mut Random, total: u32) -> Vec<u32> {
    let mut weights = vec![0; SYMBOLS];
    weights[0] = 1;
    let mut left = total - 1;
    for _ in 0..random.below(9) {
        let part = random.u32_below(left + 1);
        weights[random.below(SYMBOLS)] += part;
        left -= part;
    }
    let last = if random.once_in(2) { SYMBOLS } else { 1 };
    weights[random.below(last)] += left;
    weights
}

fn hostile_weights(random: &mut Random) -> Vec<u32> {
    let mut weights = random_weights(random, MOST_TOTAL);
    match random.below(5) {
        0 => weights[0] = 0,
        1 => weights[random.below(SYMBOLS)] += 1,
        2 => weights[random.below(SYMBOLS)] = random.pick(&[0x2000, 0x1_0000, u32::MAX]),
        3 => weights.fill(u32::MAX),
        // Two halves of 2^32: in 32 bits their sum is 0.
        _ => {
            weights.fill(0);
            weights[0] = 1 << 31;
            weights[1 + random.below(SYMBOLS - 1)] = 1 << 31;
        }
    }
    weights
}

pub fn random_histogram(random: &mut Random) -> Lent<u32> {
    let weights = match random.below(8) {
        0 => fresh_histogram().to_vec(),
        1 | 2 => random_weights(random, MOST_TOTAL),
        3 => random_weights(random, MOST_TOTAL - 1),
        4 => hostile_weights(random),
        _ => {
            let total = random.from_to(1, 100) as u32;
            random_weights(random, total)
        }
    };
    let length = random_length(random, SYMBOLS);
    patterned_after(&weights, length)
}

/// Bits of data, the first in the lowest place.
struct Bits {
    bytes: Vec<u8>,
    count: usize,
}

impl Bits {
    fn push(&mut self, bit: u64) {
        if self.count.is_multiple_of(8) {
            self.bytes.push(0);
        }
        self.bytes[self.count / 8] |= (bit as u8) << (self.count % 8);
        self.count += 1;
    }

    fn push_random(&mut self, random: &mut Random, count: usize) {
        (0..count).for_each(|_| self.push(random.u64() & 1));
    }

    /// A bit, then as many inverted ones as are pending, then the fifteen others of a number.
    fn push_number(&mut self, number: u64, pending: usize) {
        let first = number / HALF;
        self.push(first);
        (0..pending).for_each(|_| self.push(1 - first));
        (0..15).rev().for_each(|bit| self.push(number >> bit & 1));
    }
}

const FEW_PENDING: usize = 40;
const MANY_PENDING: usize = 2000;

/// Pending bits that are all in the data.
fn random_pending(random: &mut Random) -> usize {
    match random.below(24) {
        0 => random.below(MANY_PENDING),
        1..=11 => random.below(FEW_PENDING),
        _ => 0,
    }
}

/// A state that is well formed on its data.
fn formed_reader(random: &mut Random) -> (Vec<u64>, Vec<u8>) {
    let (low, high) = random_limits(random);
    let settled = random.below(20);
    let pending = random_pending(random);
    let number = low + random.u64() % (high - low + 1);
    let mut bits = Bits {
        bytes: Vec::new(),
        count: 0,
    };
    bits.push_random(random, settled);
    bits.push_number(number, pending);
    let after = if random.once_in(2) {
        0
    } else {
        random.below(60)
    };
    bits.push_random(random, after);
    (vec![low, high, pending as u64, settled as u64], bits.bytes)
}

/// A state whose pending bits, or all bits, lie past the end of the data, where they are 0.
fn reader_past_end(random: &mut Random) -> (Vec<u64>, Vec<u8>) {
    let (low, high) = random_limits(random);
    let past = match random.below(3) {
        0 => MOST_BITS - random.u64() % 3,
        _ => (random.u64() % MOST_BITS) >> random.below(32),
    };
    match random.once_in(2) {
        true => (vec![low, high, past, 7], vec![0x80]),
        false => (vec![0, high, 0, past], random.bytes(3)),
    }
}

/// Mostly well formed; at times the data is cut or changed, or a word of the state poked.
pub fn any_reader(random: &mut Random) -> (Vec<u64>, Vec<u8>) {
    let (mut words, mut data) = match random.once_in(8) {
        true => reader_past_end(random),
        false => formed_reader(random),
    };
    match random.below(8) {
        0 => data.truncate(random.below(data.len() + 1)),
        1 => poke_word(random, &mut words),
        2 => words[PENDING] += random.u64() % 2,
        3 if !data.is_empty() => {
            let at = random.below(data.len());
            data[at] ^= 1 << random.below(8);
        }
        _ => {}
    }
    (words, data)
}
