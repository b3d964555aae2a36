//! Bytes that both sides read into a table of words.

use super::{rates, Best, ROUNDS};
use sides::{Reading, Side, INDEPENDENT, LIBRARY, RESULT_WORDS};

const FILLED: u32 = u32::MAX;
/// Rates are in MB, of 10^6 bytes.
const MB: f64 = 1e6;
/// Short bytes are read in more rounds: about so many in all.
const READ_BYTES: usize = 32_000_000;

struct Reader {
    read: Reading<u32>,
    table: Vec<u32>,
    result: [u64; RESULT_WORDS],
    best: Best,
}

impl Reader {
    fn new(read: Reading<u32>, words: usize) -> Reader {
        Reader {
            read,
            table: vec![FILLED; words],
            result: [u64::MAX; RESULT_WORDS],
            best: Best::new(),
        }
    }

    fn read(&mut self, bytes: &[u8]) {
        self.table.fill(FILLED);
        let (read, table, result) = (self.read, &mut self.table, &mut self.result);
        let number = self.best.of(|| read(bytes, table, result));
        assert_eq!(number, 0, "the bytes are refused");
    }
}

/// What was measured, and the one other word of the result.
pub struct Measured {
    pub word: u64,
    /// Both rates in MB a second, and the ratio of the times.
    pub cells: [String; 3],
}

pub fn measure(function: fn(&Side) -> Reading<u32>, bytes: &[u8], words: usize) -> Measured {
    let [mut independent, mut library] =
        [INDEPENDENT, LIBRARY].map(|side| Reader::new(function(&side), words));
    for _ in 0..ROUNDS.max(READ_BYTES / bytes.len()) {
        independent.read(bytes);
        library.read(bytes);
        assert!(
            independent.result == library.result && independent.table == library.table,
            "the two disagree"
        );
    }
    Measured {
        word: library.result[1],
        cells: rates(bytes.len() as f64 / MB, &independent.best, &library.best),
    }
}
