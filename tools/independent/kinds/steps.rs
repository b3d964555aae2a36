//! Steps up and down and walks on a small mesh, with damage between them.

use super::random_result;
use super::step_call::{take, Asked, StepCall};
use crate::call::Lent;
use crate::report::Difference;
use crate::tally::Tally;
use independent::files::climb::{random_climb, Climb, MOVE_NUMBERS};
use independent::files::damage::other_value;
use independent::random::Random;
use independent::refusal::{FACE, MAX_STEPS, POSITION};
use independent::steps::{DOWN, UP};
use sides::{Request, COUNT_WORDS, RESULT_WORDS};

/// Calls on a mesh.
const CALLS: usize = 16;
/// Numbers of a table past all records, at most.
const SPARE: usize = 24;
/// Requests of a walk, at most.
const MOST_REQUESTS: usize = 5;
/// Steps of a usual request, at most.
const MOST_COUNT: usize = 3;
/// Records that a walk goes past before it comes to a damaged one, at most.
const MOST_PASSED: usize = 4;

/// The base records, then zeros for all steps, and at times a few more.
fn table(random: &mut Random, base: &[u32], all: usize) -> Lent<u32> {
    let mut table = Lent::of(base);
    table.set_len(all + random.below(SPARE));
    table
}

fn first_call(random: &mut Random, climb: &Climb) -> StepCall {
    let all_positions = (climb.base_positions + climb.steps) as usize * POSITION;
    let all_faces = climb.all_faces as usize * FACE;
    StepCall {
        asked: Asked::Up,
        list: climb.list.clone(),
        shadings: climb.shadings,
        faces: table(random, &climb.faces, all_faces),
        positions: table(random, &climb.positions, all_positions),
        counts: Lent::of(&[climb.base_positions, climb.base_faces]),
        result: Lent::patterned(RESULT_WORDS),
    }
}

/// Mostly a way in which there is a step.
fn is_up(random: &mut Random, climb: &Climb, level: u32) -> bool {
    if random.once_in(12) {
        return random.once_in(2);
    }
    level == 0 || (level < climb.steps && random.below(10) < 6)
}

/// Mostly a few of the steps that there are; at times none, one too many, or about the limit.
fn random_count(random: &mut Random, left: u32) -> u32 {
    match random.below(30) {
        0 => random.pick(&[MAX_STEPS - 1, MAX_STEPS, MAX_STEPS + 1, u32::MAX]),
        1 => left + 1,
        2 | 3 => 0,
        _ => left.min(random.from_to(1, MOST_COUNT) as u32),
    }
}

/// At times neither up nor down.
fn random_direction(random: &mut Random, up: bool) -> u32 {
    match random.once_in(40) {
        true => random.pick(&[2, 3, 1 << 31, u32::MAX]),
        false if up => UP,
        false => DOWN,
    }
}

fn random_requests(random: &mut Random, climb: &Climb, mut level: u32) -> Vec<Request> {
    let mut requests = Vec::new();
    for _ in 0..random.below(MOST_REQUESTS + 1) {
        let up = is_up(random, climb, level);
        let below = level.min(climb.steps);
        let left = if up { climb.steps - below } else { below };
        let count = random_count(random, left);
        let by = if up { count } else { count.wrapping_neg() };
        level = level.wrapping_add(by);
        let direction = random_direction(random, up);
        requests.push(Request { direction, count });
    }
    requests
}

/// A step up or down, or a walk.
fn pick_asked(random: &mut Random, climb: &Climb, counts: &[u32]) -> Asked {
    let level = counts[0].wrapping_sub(climb.base_positions);
    if random.once_in(3) {
        Asked::Walk(random_requests(random, climb, level))
    } else if is_up(random, climb, level) {
        Asked::Up
    } else {
        Asked::Down
    }
}

fn damage_word(random: &mut Random, words: &mut [u32]) {
    if !words.is_empty() {
        let at = random.below(words.len());
        words[at] = other_value(random, words[at]);
    }
}

/// Two words once more in place of the two after them: a pair that is moved twice, say.
fn repeat_pair(random: &mut Random, list: &mut [u32]) {
    if list.len() >= 2 * MOVE_NUMBERS {
        let at = random.below(list.len() - 2 * MOVE_NUMBERS + 1);
        list.copy_within(at..at + MOVE_NUMBERS, at + MOVE_NUMBERS);
    }
}

/// Whether the damage is to records that come next, and how many of them are passed first.
fn pick_record(random: &mut Random, asked: &Asked) -> (bool, usize) {
    match asked {
        Asked::Up => (true, 0),
        Asked::Down => (false, 0),
        Asked::Walk(_) => (random.once_in(2), random.below(MOST_PASSED + 1)),
    }
}

/// A number of a record that a step writes or looks at: the first past those present, or the last; in a walk one further on, too.
fn damage_record(random: &mut Random, call: &mut StepCall) {
    let [positions, faces] = [0, 1].map(|at| call.counts.words()[at] as usize);
    let (up, passed) = pick_record(random, &call.asked);
    let (table, present, width) = match random.once_in(2) {
        true => (&mut call.faces, faces, FACE),
        false => (&mut call.positions, positions, POSITION),
    };
    let record = if up {
        present + passed
    } else {
        present.saturating_sub(1 + passed)
    };
    let at = record * width + random.below(width);
    if let Some(word) = table.lend().get_mut(at) {
        *word ^= 1;
    }
}

fn damage_length(random: &mut Random, table: &mut Lent<u32>, spread: usize) {
    let length = table.words().len() + random.below(2 * spread + 1);
    table.set_len(length.saturating_sub(spread));
}

fn damage_list_length(random: &mut Random, list: &mut Vec<u32>) {
    match random.below(4) {
        0 => list.push(random.u32_below(3)),
        1 => list.truncate(random.below(4)),
        _ => list.truncate(list.len() - random.below(list.len().min(3) + 1)),
    }
}

fn damage_call(random: &mut Random, call: &mut StepCall) {
    match random.below(15) {
        0..=3 => damage_word(random, &mut call.list),
        4 => damage_list_length(random, &mut call.list),
        5 => damage_word(random, call.counts.lend()),
        6 => call.shadings = random.u32_below(3),
        7 => damage_word(random, call.faces.lend()),
        8 => damage_word(random, call.positions.lend()),
        9 => damage_length(random, &mut call.faces, 2 * FACE),
        10 => damage_length(random, &mut call.positions, 3 * POSITION),
        11 => call.counts.set_len(random.below(2 * COUNT_WORDS)),
        12 => repeat_pair(random, &mut call.list),
        _ => damage_record(random, call),
    }
}

/// Calls with what the call before left; damage is mostly for one call alone.
pub fn up_and_down(random: &mut Random, tally: &mut Tally) -> Result<(), Difference> {
    let climb = random_climb(random);
    let mut present = first_call(random, &climb);
    for _ in 0..CALLS {
        let damaged = random.once_in(2);
        present.asked = pick_asked(random, &climb, present.counts.words());
        present.result = random_result(random, RESULT_WORDS);
        let mut call = present.clone();
        if damaged {
            damage_call(random, &mut call);
        }
        let (_, after) = take(&call, tally)?;
        if !damaged || (random.once_in(20) && after.counts.words().len() == COUNT_WORDS) {
            present = after;
        }
    }
    Ok(())
}
