//! Runs of coder calls: values written from a fresh state, the end, and the values read back.

use super::coder::write_operation;
use super::coder_call::{CoderCall, Operation};
use crate::call::{both, Call, Lent};
use crate::report::Difference;
use crate::tally::Tally;
use independent::coder::SYMBOLS;
use independent::random::Random;
use sides::{READER_WORDS, RESULT_WORDS, WRITER_WORDS};

const MOST_CALLS: usize = 24;
const MOST_BYTES: usize = 160;

/// A call with what the call before left.
pub fn next(
    call: &mut CoderCall,
    operation: Operation,
    tally: &mut Tally,
) -> Result<u32, Difference> {
    call.operation = operation;
    call.result = Lent::patterned(RESULT_WORDS);
    let (number, after) = both(call, tally)?;
    *call = after;
    Ok(number)
}

fn fresh_call(operation: Operation, words: usize, buffer: Lent<u8>) -> CoderCall {
    CoderCall {
        operation,
        state: Lent::patterned(words),
        buffer,
        histogram: Lent::patterned(SYMBOLS),
        result: Lent::patterned(RESULT_WORDS),
    }
}

/// The call that reads what a call wrote, and the value.
fn reading_of(written: Operation) -> (Operation, u32) {
    match written {
        Operation::WriteStatic { range, value } => (Operation::ReadStatic { range }, value),
        Operation::WritePlain { bytes, value } => (Operation::ReadPlain { bytes }, value),
        Operation::WriteDynamic { value } => (Operation::ReadDynamic, value),
        other => (other, 0),
    }
}

/// Writes values; gives those that were granted and the bytes used, none where the end was refused.
fn write(
    random: &mut Random,
    tally: &mut Tally,
) -> Result<(Vec<Operation>, Option<Vec<u8>>), Difference> {
    let buffer = Lent::patterned(random.below(MOST_BYTES));
    let mut call = fresh_call(Operation::WriterFresh, WRITER_WORDS, buffer);
    next(&mut call, Operation::WriterFresh, tally)?;
    next(&mut call, Operation::HistogramFresh, tally)?;
    let mut written = Vec::new();
    for _ in 0..random.below(MOST_CALLS) {
        let operation = write_operation(random, call.histogram.words());
        if next(&mut call, operation, tally)? == 0 {
            written.push(operation);
        }
    }
    let ended = next(&mut call, Operation::WriteEnd, tally)? == 0;
    let used = call.result.words()[1] as usize;
    Ok((written, ended.then(|| call.buffer.words()[..used].to_vec())))
}

fn unlike(call: &CoderCall) -> Difference {
    let name = call.function().name();
    Difference(format!("{name}: not the value that was written\n"))
}

/// Reads what was written; `whole` where the data is as it was written.
fn read(
    written: &[Operation],
    data: &[u8],
    whole: bool,
    tally: &mut Tally,
) -> Result<(), Difference> {
    let mut call = fresh_call(Operation::ReaderFresh, READER_WORDS, Lent::of(data));
    next(&mut call, Operation::ReaderFresh, tally)?;
    next(&mut call, Operation::HistogramFresh, tally)?;
    for &operation in written {
        let (reading, value) = reading_of(operation);
        let number = next(&mut call, reading, tally)?;
        let same = number == 0 && call.result.words()[1] == u64::from(value);
        if whole && !same {
            return Err(unlike(&call));
        }
    }
    Ok(())
}

fn damage_data(random: &mut Random, data: &mut Vec<u8>) {
    if data.is_empty() {
        return;
    }
    let at = random.below(data.len());
    match random.once_in(2) {
        true => data.truncate(at),
        false => data[at] ^= 1 << random.below(8),
    }
}

pub fn write_and_read(random: &mut Random, tally: &mut Tally) -> Result<(), Difference> {
    let (written, data) = write(random, tally)?;
    let Some(mut data) = data else { return Ok(()) };
    let whole = random.once_in(2);
    if !whole {
        damage_data(random, &mut data);
    }
    read(&written, &data, whole, tally)
}
