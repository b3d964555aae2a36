//! A call of any of the coder's functions.

use crate::call::{Call, Lent};
use crate::report::Part;
use crate::tally::Function;
use sides::Side;

#[derive(Clone, Copy, PartialEq)]
pub enum Operation {
    WriterFresh,
    ReaderFresh,
    HistogramFresh,
    WriteStatic { range: u32, value: u32 },
    WriteDynamic { value: u32 },
    WritePlain { bytes: u32, value: u32 },
    WriteEnd,
    ReadStatic { range: u32 },
    ReadDynamic,
    ReadPlain { bytes: u32 },
}

/// Any call of the coder; a reader's data is lent as the buffer.
#[derive(Clone, PartialEq)]
pub struct CoderCall {
    pub operation: Operation,
    pub state: Lent<u64>,
    pub buffer: Lent<u8>,
    pub histogram: Lent<u32>,
    pub result: Lent<u64>,
}

impl CoderCall {
    fn numbers(&self) -> Vec<u32> {
        match self.operation {
            Operation::WriteStatic { range, value } => vec![range, value],
            Operation::WriteDynamic { value } => vec![value],
            Operation::WritePlain { bytes, value } => vec![bytes, value],
            Operation::ReadStatic { range } => vec![range],
            Operation::ReadPlain { bytes } => vec![bytes],
            _ => vec![],
        }
    }
}

impl Call for CoderCall {
    fn function(&self) -> Function {
        match self.operation {
            Operation::WriterFresh => Function::WriterFresh,
            Operation::ReaderFresh => Function::ReaderFresh,
            Operation::HistogramFresh => Function::HistogramFresh,
            Operation::WriteStatic { .. } => Function::WriteStatic,
            Operation::WriteDynamic { .. } => Function::WriteDynamic,
            Operation::WritePlain { .. } => Function::WritePlain,
            Operation::WriteEnd => Function::WriteEnd,
            Operation::ReadStatic { .. } => Function::ReadStatic,
            Operation::ReadDynamic => Function::ReadDynamic,
            Operation::ReadPlain { .. } => Function::ReadPlain,
        }
    }

    fn make(&mut self, side: &Side) -> u32 {
        let (state, buffer) = (self.state.lend(), self.buffer.lend());
        let (histogram, result) = (self.histogram.lend(), self.result.lend());
        match self.operation {
            Operation::WriterFresh => (side.writer_fresh)(state),
            Operation::ReaderFresh => (side.reader_fresh)(state),
            Operation::HistogramFresh => (side.histogram_fresh)(histogram),
            Operation::WriteStatic { range, value } => {
                (side.write_static)(state, buffer, range, value)
            }
            Operation::WriteDynamic { value } => {
                (side.write_dynamic)(state, buffer, histogram, value)
            }
            Operation::WritePlain { bytes, value } => {
                (side.write_plain)(state, buffer, bytes, value)
            }
            Operation::WriteEnd => (side.write_end)(state, buffer, result),
            Operation::ReadStatic { range } => (side.read_static)(state, buffer, range, result),
            Operation::ReadDynamic => (side.read_dynamic)(state, buffer, histogram, result),
            Operation::ReadPlain { bytes } => (side.read_plain)(state, buffer, bytes, result),
        }
    }

    fn take_result(&mut self, from: &Self) {
        self.result.clone_from(&from.result);
    }

    fn parts(&self) -> Vec<Part> {
        vec![
            Part::input("numbers", &self.numbers()),
            Part::in_and_out("state", &self.state),
            Part::in_and_out("buffer or data", &self.buffer),
            Part::in_and_out("histogram", &self.histogram),
            Part::output("result", &self.result),
        ]
    }
}
