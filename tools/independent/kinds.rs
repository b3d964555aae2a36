//! The kinds of inputs: each makes one input from a generator and compares both sides on it.

pub mod blocks;
pub mod climb;
pub mod coder;
mod coder_call;
pub mod fixed;
pub mod mesh;
pub mod plain;
pub mod sequence;
mod states;
mod step_call;
pub mod steps;

use crate::call::Lent;
use crate::report::Difference;
use crate::tally::Tally;
use independent::random::Random;

type Run = fn(&mut Random, &mut Tally) -> Result<(), Difference>;

/// Each kind stands here as often as it is its turn.
const TURNS: [Run; 22] = [
    blocks::walk,
    blocks::header,
    mesh::read_mesh,
    coder::write,
    blocks::listing,
    coder::read,
    mesh::read_mesh,
    climb::read_climb,
    steps::up_and_down,
    blocks::walk,
    coder::write,
    mesh::declaration,
    coder::read,
    mesh::read_mesh,
    sequence::write_and_read,
    coder::write_end,
    blocks::listing,
    climb::read_climb,
    mesh::declaration,
    coder::read,
    blocks::walk,
    plain::write_and_read,
];

/// One input; its index and the run's seed tell all of it.
pub fn run(seed: u64, index: u64, tally: &mut Tally) -> Result<(), Difference> {
    let turn = (index % TURNS.len() as u64) as usize;
    TURNS[turn](&mut Random::of_input(seed, index), tally)
}

/// Once in so many calls a result, state or histogram is lent that is too short.
const SHORT: usize = 50;
const MOST_SPARE: usize = 3;

/// A result of the words needed and at times a few more, seldom fewer.
fn random_result(random: &mut Random, needed: usize) -> Lent<u64> {
    Lent::patterned(random_length(random, needed))
}

fn random_length(random: &mut Random, needed: usize) -> usize {
    match random.once_in(SHORT) {
        true => random.below(needed),
        false => needed + random.below(MOST_SPARE),
    }
}

/// Words of a table past those needed, at most.
const MOST_MORE: usize = 40;

/// Mostly room for what is needed and a little more; at times just that, one word less, or far less.
fn random_room(random: &mut Random, needed: usize) -> usize {
    match random.below(8) {
        0 => random.below(needed + 1),
        1 | 2 => (needed + random.below(3)).saturating_sub(1),
        _ => needed + random.below(MOST_MORE),
    }
}
