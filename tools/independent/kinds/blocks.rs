//! Block files: header, walk and listing.

use super::{random_result, random_room};
use crate::call::{both, Call, Lent};
use crate::report::{Difference, Part};
use crate::tally::{Function, Tally};
use independent::blocks::ROW;
use independent::files::blocks::{append, damage_header, mend_sizes, random_file};
use independent::files::damage::{damage, damage_some};
use independent::files::piece::Piece;
use independent::random::Random;
use sides::library::Header;
use sides::{Side, HEADER_RESULT_WORDS, RESULT_WORDS};

/// Words that hold the rows of nearly every file made here, and bytes that hold its text.
const MOST_ROWS: usize = 2_000;
const MOST_TEXT: usize = 16_000;

#[derive(Clone, PartialEq)]
pub struct HeaderCall<'a> {
    pub file: &'a [u8],
    pub result: Lent<u64>,
}

/// Walk and listing: what they are lent differs in the table's words alone.
#[derive(Clone, PartialEq)]
pub struct WalkCall<'a> {
    pub file: &'a [u8],
    pub rows: Lent<u32>,
    pub result: Lent<u64>,
}

#[derive(Clone, PartialEq)]
pub struct ListingCall<'a> {
    pub file: &'a [u8],
    pub text: Lent<u8>,
    pub result: Lent<u64>,
}

impl Call for HeaderCall<'_> {
    fn function(&self) -> Function {
        Function::Header
    }

    fn make(&mut self, side: &Side) -> u32 {
        (side.header)(self.file, self.result.lend())
    }

    fn take_result(&mut self, from: &Self) {
        self.result.clone_from(&from.result);
    }

    fn parts(&self) -> Vec<Part> {
        vec![
            Part::input("file", self.file),
            Part::output("result", &self.result),
        ]
    }
}

impl Call for WalkCall<'_> {
    fn function(&self) -> Function {
        Function::Walk
    }

    fn make(&mut self, side: &Side) -> u32 {
        (side.walk)(self.file, self.rows.lend(), self.result.lend())
    }

    fn take_result(&mut self, from: &Self) {
        self.result.clone_from(&from.result);
    }

    fn parts(&self) -> Vec<Part> {
        vec![
            Part::input("file", self.file),
            Part::output("rows", &self.rows),
            Part::output("result", &self.result),
        ]
    }
}

impl Call for ListingCall<'_> {
    fn function(&self) -> Function {
        Function::Listing
    }

    fn make(&mut self, side: &Side) -> u32 {
        (side.listing)(self.file, self.text.lend(), self.result.lend())
    }

    fn take_result(&mut self, from: &Self) {
        self.result.clone_from(&from.result);
    }

    fn parts(&self) -> Vec<Part> {
        vec![
            Part::input("file", self.file),
            Part::output("text", &self.text),
            Part::output("result", &self.result),
        ]
    }
}

/// Mostly damaged, and then mostly with sizes that follow the length again.
fn any_file(random: &mut Random) -> Piece {
    let mut file = random_file(random);
    if random.once_in(8) {
        append(&mut file, &random_file(random));
        mend_sizes(&mut file, random);
    }
    if random.once_in(6) {
        return file;
    }
    damage(&mut file, random);
    damage_some(&mut file, random, 2);
    if !random.once_in(8) {
        mend_sizes(&mut file, random);
    }
    file
}

/// A file whose header is mostly damaged.
fn any_header(random: &mut Random) -> Piece {
    let mut file = random_file(random);
    if random.once_in(4) {
        return file;
    }
    damage_header(&mut file, random);
    if random.once_in(4) {
        damage_header(&mut file, random);
    }
    if random.once_in(2) {
        mend_sizes(&mut file, random);
    }
    file
}

/// The words that the rows take; some where the file is refused.
fn rows_needed(file: &[u8]) -> usize {
    let walked = independent::blocks::walk(file, &mut [0; MOST_ROWS]);
    walked.map_or(ROW, |blocks| blocks * ROW)
}

fn text_needed(file: &[u8]) -> usize {
    independent::blocks::listing(file, &mut [0; MOST_TEXT]).unwrap_or(MOST_TEXT)
}

/// The binding that makes a struct of the result must say the same.
fn as_struct(number: u32, call: &HeaderCall) -> Result<(), Difference> {
    let words = call.result.words();
    let same = match Header::read(call.file) {
        _ if words.len() < HEADER_RESULT_WORDS => true,
        Ok(header) => {
            let told = [
                0,
                header.minor_version.into(),
                header.profile.into(),
                header.declaration_size.into(),
                header.file_size,
                header.encoding.into(),
                header.units,
                header.next as u64,
            ];
            number == 0 && words.starts_with(&told)
        }
        Err(refused) => (refused.number, refused.place) == (number, words[0]),
    };
    match same {
        true => Ok(()),
        false => Err(Difference("Header::read: another header".to_string())),
    }
}

pub fn header(random: &mut Random, tally: &mut Tally) -> Result<(), Difference> {
    let file = any_header(random).bytes;
    let call = HeaderCall {
        file: &file,
        result: random_result(random, HEADER_RESULT_WORDS),
    };
    let (number, after) = both(&call, tally)?;
    as_struct(number, &after)
}

pub fn walk(random: &mut Random, tally: &mut Tally) -> Result<(), Difference> {
    let file = any_file(random).bytes;
    let rows = random_room(random, rows_needed(&file));
    let call = WalkCall {
        file: &file,
        rows: Lent::patterned(rows),
        result: random_result(random, RESULT_WORDS),
    };
    both(&call, tally).map(drop)
}

pub fn listing(random: &mut Random, tally: &mut Tally) -> Result<(), Difference> {
    let file = any_file(random).bytes;
    let text = random_room(random, text_needed(&file));
    let call = ListingCall {
        file: &file,
        text: Lent::patterned(text),
        result: random_result(random, RESULT_WORDS),
    };
    both(&call, tally).map(drop)
}
