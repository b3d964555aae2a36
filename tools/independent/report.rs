//! What is told of a difference.

use crate::call::{Call, Lent, Word};

/// Lines of the input that are shown, and hexadecimal digits in a line.
const MOST_LINES: usize = 64;
const LINE_DIGITS: usize = 64;
/// A part of so few words is shown whole where it differs.
const FEW_WORDS: usize = 16;

/// What is told of the first difference.
pub struct Difference(pub String);

/// A part of what a call is lent, as it is shown.
pub struct Part {
    name: &'static str,
    /// Whether it is shown as input; else only its length is.
    shown: bool,
    /// Those lent, and those past their end.
    words: Vec<u64>,
    lent: usize,
    digits: usize,
}

impl Part {
    fn new<T: Word>(name: &'static str, shown: bool, words: &[T], lent: usize) -> Part {
        let words = words.iter().map(|&word| word.into()).collect();
        let digits = 2 * size_of::<T>();
        Part {
            name,
            shown,
            words,
            lent,
            digits,
        }
    }

    pub fn input<T: Word>(name: &'static str, words: &[T]) -> Part {
        Part::new(name, true, words, words.len())
    }

    pub fn in_and_out<T: Word>(name: &'static str, lent: &Lent<T>) -> Part {
        Part::new(name, true, lent.all_words(), lent.words().len())
    }

    pub fn output<T: Word>(name: &'static str, lent: &Lent<T>) -> Part {
        Part::new(name, false, lent.all_words(), lent.words().len())
    }

    fn hex(&self, words: &[u64]) -> String {
        let digits = self.digits;
        let words: Vec<String> = words
            .iter()
            .map(|word| format!("{word:0digits$x}"))
            .collect();
        words.join(" ")
    }

    /// Name and length, then the words where they are input.
    fn lines(&self) -> Vec<String> {
        let shown = if self.shown {
            &self.words[..self.lent]
        } else {
            &[]
        };
        let mut lines = vec![format!("{}, {} words:", self.name, self.lent)];
        let chunks = shown.chunks(LINE_DIGITS / self.digits).take(MOST_LINES);
        lines.extend(chunks.map(|words| self.hex(words)));
        lines
    }
}

/// How a part differs: the lent words where they are few, else the first word that does.
fn differing(due: &Part, given: &Part) -> Option<String> {
    let at = due
        .words
        .iter()
        .zip(&given.words)
        .position(|(a, b)| a != b)?;
    let few = at < due.lent && due.lent <= FEW_WORDS;
    let range = if few { 0..due.lent } else { at..at + 1 };
    let (a, b) = (
        due.hex(&due.words[range.clone()]),
        given.hex(&given.words[range]),
    );
    let name = due.name;
    Some(format!(
        "{name}, from word {at} on: independent {a}, library {b}"
    ))
}

/// Number and what is left of both sides, then what was lent.
pub fn difference<C: Call>(lent: &C, due: (u32, &C), given: (u32, &C)) -> Difference {
    let name = lent.function().name();
    let mut lines = vec![format!(
        "{name}: independent {}, library {}",
        due.0, given.0
    )];
    let (due, given) = (due.1.parts(), given.1.parts());
    lines.extend(
        due.iter()
            .zip(&given)
            .filter_map(|(due, given)| differing(due, given)),
    );
    lines.push("input, in hexadecimal:".to_string());
    lines.extend(lent.parts().iter().flat_map(Part::lines).take(MOST_LINES));
    Difference(lines.join("\n"))
}
