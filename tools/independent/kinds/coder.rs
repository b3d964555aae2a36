//! Single calls of the coder, with any state, histogram and buffer.

use super::coder_call::{CoderCall, Operation};
use super::random_result;
use super::states::{any_reader, random_histogram, random_state, writer_words};
use crate::call::{both, Lent};
use crate::report::Difference;
use crate::tally::Tally;
use independent::coder::SYMBOLS;
use independent::random::Random;
use sides::{RESULT_WORDS, WRITER_WORDS};

const ODD_RANGES: [u32; 16] = [
    0, 1, 2, 3, 4, 255, 256, 257, 0x1FFF, 0x3FFD, 0x3FFE, 0x3FFF, 0x4000, 0x10000, 0x80000000,
    0xFFFFFFFF,
];
const LARGEST_RANGE: usize = 0x3FFE;
const VALUES: u32 = 256;
pub const WIDTHS: [u32; 3] = [1, 2, 4];
const ODD_WIDTHS: [u32; 8] = [0, 3, 5, 8, 64, 0x100, 0x10001, u32::MAX];

fn random_range(random: &mut Random) -> u32 {
    match random.below(4) {
        0 => random.pick(&ODD_RANGES),
        1 => random.u32() >> random.below(32),
        _ => random.from_to(1, LARGEST_RANGE) as u32 >> random.below(12),
    }
}

/// Mostly a value below its range.
fn random_value(random: &mut Random, range: u32) -> u32 {
    match random.below(16) {
        0 => random.u32(),
        1 => range,
        2 => range.wrapping_sub(1),
        _ => random.u32_below(range.max(1)),
    }
}

fn random_width(random: &mut Random) -> u32 {
    match random.once_in(16) {
        true => random.pick(&ODD_WIDTHS),
        false => random.pick(&WIDTHS),
    }
}

/// Mostly a value that the width holds.
fn plain_value(random: &mut Random, bytes: u32) -> u32 {
    let bits = 8 * bytes.clamp(1, 4);
    match random.below(16) {
        0 => (1u64 << bits) as u32,
        1 => random.u32(),
        2 => (1u64 << bits).wrapping_sub(1) as u32,
        _ => random.u32() >> (32 - bits),
    }
}

/// Mostly one that has a weight, where there are few.
fn dynamic_value(random: &mut Random, histogram: &[u32]) -> u32 {
    let held: Vec<usize> = (1..histogram.len())
        .filter(|&at| histogram[at] > 0)
        .collect();
    match random.below(12) {
        0 => VALUES + random.u32_below(2),
        1 => random.u32(),
        2..=5 => random.u32_below(VALUES),
        _ if held.is_empty() => 0,
        _ => random.pick(&held) as u32 - 1,
    }
}

pub fn write_operation(random: &mut Random, histogram: &[u32]) -> Operation {
    match random.below(4) {
        0 => Operation::WriteDynamic {
            value: dynamic_value(random, histogram),
        },
        1 => {
            let bytes = random_width(random);
            Operation::WritePlain {
                bytes,
                value: plain_value(random, bytes),
            }
        }
        _ => {
            let range = random_range(random);
            Operation::WriteStatic {
                range,
                value: random_value(random, range),
            }
        }
    }
}

fn read_operation(random: &mut Random) -> Operation {
    match random.below(4) {
        0 | 1 => Operation::ReadDynamic,
        2 => Operation::ReadPlain {
            bytes: random_width(random),
        },
        _ => Operation::ReadStatic {
            range: random_range(random),
        },
    }
}

fn fresh_operation(random: &mut Random) -> Operation {
    random.pick(&[
        Operation::WriterFresh,
        Operation::ReaderFresh,
        Operation::HistogramFresh,
    ])
}

const FEW_BYTES: usize = 12;
const MANY_BYTES: usize = 400;

fn writer_call(random: &mut Random) -> CoderCall {
    let most = if random.once_in(12) {
        MANY_BYTES
    } else {
        FEW_BYTES
    };
    let length = random.below(most);
    let buffer = Lent::of(&random.bytes(length));
    let words = writer_words(random, length);
    CoderCall {
        operation: Operation::WriteEnd,
        state: random_state(random, &words),
        buffer,
        histogram: Lent::patterned(0),
        result: Lent::patterned(0),
    }
}

/// A fresh state or histogram, often into one that is too short.
fn fresh(random: &mut Random, tally: &mut Tally) -> Result<(), Difference> {
    let call = CoderCall {
        operation: fresh_operation(random),
        state: Lent::patterned(random.below(2 * WRITER_WORDS)),
        buffer: Lent::patterned(0),
        histogram: Lent::patterned(SYMBOLS - 2 + random.below(4)),
        result: Lent::patterned(0),
    };
    both(&call, tally).map(drop)
}

/// Static, dynamic and plain values, and now and then a fresh state.
pub fn write(random: &mut Random, tally: &mut Tally) -> Result<(), Difference> {
    if random.once_in(40) {
        return fresh(random, tally);
    }
    let mut call = writer_call(random);
    call.histogram = random_histogram(random);
    call.operation = write_operation(random, call.histogram.words());
    both(&call, tally).map(drop)
}

pub fn write_end(random: &mut Random, tally: &mut Tally) -> Result<(), Difference> {
    let mut call = writer_call(random);
    call.result = random_result(random, RESULT_WORDS);
    both(&call, tally).map(drop)
}

pub fn read(random: &mut Random, tally: &mut Tally) -> Result<(), Difference> {
    let (words, data) = any_reader(random);
    let call = CoderCall {
        operation: read_operation(random),
        state: random_state(random, &words),
        buffer: Lent::of(&data),
        histogram: random_histogram(random),
        result: random_result(random, RESULT_WORDS),
    };
    both(&call, tally).map(drop)
}
