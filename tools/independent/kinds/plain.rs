//! Plain values at fresh limits: written, they are their little-endian bytes; read, they are the fields that stand there (02, Ask 13).

use super::coder::WIDTHS;
use super::coder_call::{CoderCall, Operation};
use super::sequence::next;
use crate::call::{Call, Lent};
use crate::report::Difference;
use crate::tally::Tally;
use independent::random::Random;
use independent::refusal::{CUT, ROOM};

const MOST_VALUES: usize = 12;
const MOST_BYTES: usize = 40;

/// The words of a state with fresh limits after so many bytes; a writer's has one more.
fn fresh_at(bytes: usize) -> [u64; 4] {
    [0, 0xFFFF, 0, 8 * bytes as u64]
}

fn call_at(state: &[u64], buffer: Lent<u8>) -> CoderCall {
    CoderCall {
        operation: Operation::WriteEnd,
        state: Lent::of(state),
        buffer,
        histogram: Lent::patterned(0),
        result: Lent::patterned(0),
    }
}

fn expect(same: bool, call: &CoderCall) -> Result<(), Difference> {
    let name = call.function().name();
    match same {
        true => Ok(()),
        false => Err(Difference(format!("{name}: a plain value is not plain\n"))),
    }
}

/// The bytes of a value at an offset, or 12 where there is no room for them.
fn lay(buffer: &mut [u8], at: usize, value: u32, bytes: usize) -> u32 {
    let Some(room) = buffer.get_mut(at..at + bytes) else {
        return ROOM;
    };
    room.copy_from_slice(&value.to_le_bytes()[..bytes]);
    0
}

/// The field of that width at an offset, where it is whole.
fn field(data: &[u8], at: usize, bytes: usize) -> Option<u64> {
    let digits = data.get(at..at + bytes)?;
    Some(
        digits
            .iter()
            .rev()
            .fold(0, |high, &digit| 256 * high + u64::from(digit)),
    )
}

/// Values after some bytes; where no compressed value came before, the end adds nothing.
fn write(random: &mut Random, tally: &mut Tally) -> Result<(), Difference> {
    let mut bytes = random.bytes(MOST_BYTES);
    bytes.truncate(random.below(MOST_BYTES));
    let mut at = random.below(bytes.len() + 1);
    let compressed = [random.u64() % 2];
    let mut call = call_at(&[&fresh_at(at)[..], &compressed].concat(), Lent::of(&bytes));
    for _ in 0..random.below(MOST_VALUES) {
        let width = random.pick(&WIDTHS);
        let value = random.u32() >> (32 - 8 * width);
        let operation = Operation::WritePlain {
            bytes: width,
            value,
        };
        let number = next(&mut call, operation, tally)?;
        let due = lay(&mut bytes, at, value, width as usize);
        at += if due == 0 { width as usize } else { 0 };
        let state = [&fresh_at(at)[..], &compressed].concat();
        let same = call.state.words() == state && call.buffer.words() == bytes;
        expect(number == due && same, &call)?;
    }
    let number = next(&mut call, Operation::WriteEnd, tally)?;
    let same = number == 0 && call.result.words()[1] == at as u64 && call.buffer.words() == bytes;
    expect(compressed == [1] || same, &call)
}

/// Fields one after the other in any bytes, from any offset.
fn read(random: &mut Random, tally: &mut Tally) -> Result<(), Difference> {
    let count = random.below(MOST_BYTES);
    let data = random.bytes(count);
    let mut at = random.below(data.len() + 2);
    let mut call = call_at(&fresh_at(at), Lent::of(&data));
    for _ in 0..random.below(MOST_VALUES) {
        let bytes = random.pick(&WIDTHS);
        let number = next(&mut call, Operation::ReadPlain { bytes }, tally)?;
        let due = field(&data, at, bytes as usize);
        at += due.map_or(0, |_| bytes as usize);
        let value = call.result.words()[1];
        let same = call.state.words() == fresh_at(at) && value == due.unwrap_or(0);
        expect(number == due.map_or(CUT, |_| 0) && same, &call)?;
    }
    Ok(())
}

pub fn write_and_read(random: &mut Random, tally: &mut Tally) -> Result<(), Difference> {
    write(random, tally)?;
    read(random, tally)
}
