//! One call with all that it is lent, made on both sides and compared.

use crate::report::{difference, Difference, Part};
use crate::tally::{Function, Tally};
use sides::{Side, INDEPENDENT, LIBRARY};

/// Words looked at past the end of what is lent.
const BEYOND: usize = 4;
const PATTERN_STEP: u64 = 0x9E37_79B9_7F4A_7C15;

/// A number that is lent in a table: a byte, a U32 or a U64.
pub trait Word: Copy + PartialEq + Into<u64> {
    fn cut(word: u64) -> Self;
}

impl Word for u8 {
    fn cut(word: u64) -> u8 {
        (word >> 56) as u8
    }
}

impl Word for u32 {
    fn cut(word: u64) -> u32 {
        (word >> 32) as u32
    }
}

impl Word for u64 {
    fn cut(word: u64) -> u64 {
        word
    }
}

/// Words that are lent, and some past their end that must stay as they are.
#[derive(Clone, PartialEq)]
pub struct Lent<T> {
    words: Vec<T>,
    len: usize,
}

fn pattern<T: Word>(at: usize) -> T {
    T::cut((at as u64 + 1).wrapping_mul(PATTERN_STEP))
}

impl<T: Word> Lent<T> {
    /// So many words, filled with a pattern.
    pub fn patterned(len: usize) -> Lent<T> {
        Lent {
            words: (0..len + BEYOND).map(pattern).collect(),
            len,
        }
    }

    pub fn of(words: &[T]) -> Lent<T> {
        let beyond = (0..BEYOND).map(pattern);
        Lent {
            words: words.iter().copied().chain(beyond).collect(),
            len: words.len(),
        }
    }

    pub fn lend(&mut self) -> &mut [T] {
        &mut self.words[..self.len]
    }

    pub fn words(&self) -> &[T] {
        &self.words[..self.len]
    }

    /// With the words past the end.
    pub fn all_words(&self) -> &[T] {
        &self.words
    }

    /// Lends more or fewer words; those there were stay, zeros come after them.
    pub fn set_len(&mut self, len: usize)
    where
        T: Default,
    {
        self.words.truncate(self.len.min(len));
        self.words.resize(len, T::default());
        self.words.extend((0..BEYOND).map(pattern::<T>));
        self.len = len;
    }
}

/// A call of one function with all that it is lent.
pub trait Call: Clone + PartialEq {
    fn function(&self) -> Function;

    /// Makes the call; gives the answer's number.
    fn make(&mut self, side: &Side) -> u32;

    /// Takes over what a refusal, too, gives back.
    fn take_result(&mut self, _from: &Self) {}

    fn parts(&self) -> Vec<Part>;
}

/// What was lent, and nothing else but the result: so must a refusal leave it.
fn as_lent<C: Call>(lent: &C, answered: &C) -> C {
    let mut kept = lent.clone();
    kept.take_result(answered);
    kept
}

/// Makes the call on both sides; gives what the independent one left, and its number.
pub fn both<C: Call>(lent: &C, tally: &mut Tally) -> Result<(u32, C), Difference> {
    let mut due = lent.clone();
    let mut given = lent.clone();
    let due_number = due.make(&INDEPENDENT);
    let given_number = given.make(&LIBRARY);
    if due_number != 0 {
        due = as_lent(lent, &due);
    }
    if due_number != given_number || due != given {
        return Err(difference(lent, (due_number, &due), (given_number, &given)));
    }
    tally.count(lent.function(), due_number);
    Ok((due_number, due))
}
