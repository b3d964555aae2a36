//! Climb text, read into a step table.

use crate::refusal::{
    Refusal, CORNERS, FORM, MAX_MOVES, MAX_NEW_FACES, MAX_RECORDS, MAX_STEPS, ROOM,
};

/// Where the table holds the step count.
const STEPS_AT: usize = 2;
const PATTERN_DIGITS: usize = 8;

/// Reads a climb text, and gives back how many words it wrote. Base positions,
/// base faces, step count; then per step: split, x, y, z, the numbers of moves
/// and new faces, the moves, the new faces. A refusal leaves the table.
pub fn read(text: &[u8], table: &mut [u32]) -> Result<usize, Refusal> {
    let words = parse(text, |_, _| ())?;
    if words > table.len() {
        return Err(Refusal::new(ROOM, 0));
    }
    parse(text, |at, word| table[at] = word)
}

/// Judges a text, handing out each word with its index; how many they are.
fn parse(text: &[u8], put: impl FnMut(usize, u32)) -> Result<usize, Refusal> {
    let mut parser = Parser {
        rest: text,
        line: 1,
        words: 0,
        put,
    };
    parser.header()?;
    let mut steps = 0;
    while parser.take(b"split\t") {
        parser.judge(steps < MAX_STEPS)?;
        parser.step()?;
        steps += 1;
    }
    parser.last(steps)?;
    Ok(parser.words)
}

struct Parser<'a, F> {
    rest: &'a [u8],
    line: usize,
    words: usize,
    put: F,
}

impl<F: FnMut(usize, u32)> Parser<'_, F> {
    fn header(&mut self) -> Result<(), Refusal> {
        let version = self.take(b"climb\t1\t");
        self.judge(version)?;
        self.base_count()?;
        self.tab()?;
        self.base_count()?;
        self.reserve(1);
        self.line_end()
    }

    fn base_count(&mut self) -> Result<(), Refusal> {
        let count = self.decimal()?;
        self.judge(count <= MAX_RECORDS)?;
        self.word(count);
        Ok(())
    }

    /// A step after the first word of its split line.
    fn step(&mut self) -> Result<(), Refusal> {
        let split = self.decimal()?;
        self.word(split);
        for _ in 0..3 {
            self.tab()?;
            let pattern = self.pattern()?;
            self.word(pattern);
        }
        self.line_end()?;
        let counts_at = self.reserve(2);
        let moves = self.moves()?;
        (self.put)(counts_at, moves);
        let new_faces = self.new_faces()?;
        (self.put)(counts_at + 1, new_faces);
        Ok(())
    }

    fn moves(&mut self) -> Result<u32, Refusal> {
        let mut moves = 0;
        while self.take(b"move\t") {
            self.judge(moves < MAX_MOVES)?;
            let face = self.decimal()?;
            self.word(face);
            self.tab()?;
            let corner = self.decimal()?;
            self.judge(corner < CORNERS as u32)?;
            self.word(corner);
            self.line_end()?;
            moves += 1;
        }
        Ok(moves)
    }

    fn new_faces(&mut self) -> Result<u32, Refusal> {
        let mut faces = 0;
        while self.take(b"face\t") {
            self.judge(faces < MAX_NEW_FACES)?;
            let shading = self.decimal()?;
            self.word(shading);
            for _ in 0..CORNERS {
                self.tab()?;
                let position = self.decimal()?;
                self.word(position);
            }
            self.line_end()?;
            faces += 1;
        }
        Ok(faces)
    }

    /// The end line with the step count, and nothing after it.
    fn last(&mut self, steps: u32) -> Result<(), Refusal> {
        let end = self.take(b"end\t");
        self.judge(end)?;
        let count = self.decimal()?;
        self.judge(count == steps)?;
        (self.put)(STEPS_AT, steps);
        self.line_end()?;
        self.judge(self.rest.is_empty())
    }

    /// 13 at this line where something isn't fine.
    fn judge(&self, fine: bool) -> Result<(), Refusal> {
        if fine {
            Ok(())
        } else {
            Err(Refusal::new(FORM, self.line))
        }
    }

    fn word(&mut self, word: u32) {
        (self.put)(self.words, word);
        self.words += 1;
    }

    /// Keeps words for later; the index of the first.
    fn reserve(&mut self, words: usize) -> usize {
        let at = self.words;
        self.words += words;
        at
    }

    /// Takes the next bytes if they are these.
    fn take(&mut self, bytes: &[u8]) -> bool {
        let Some(rest) = self.rest.strip_prefix(bytes) else {
            return false;
        };
        self.rest = rest;
        true
    }

    fn tab(&mut self) -> Result<(), Refusal> {
        let tab = self.take(b"\t");
        self.judge(tab)
    }

    fn line_end(&mut self) -> Result<(), Refusal> {
        let feed = self.take(b"\n");
        self.judge(feed)?;
        self.line += 1;
        Ok(())
    }

    /// A decimal below 2^32 without leading zeros.
    fn decimal(&mut self) -> Result<u32, Refusal> {
        let mut number: u32 = 0;
        let mut digits = 0;
        while let Some(byte @ b'0'..=b'9') = self.rest.get(digits) {
            let digit = u32::from(byte - b'0');
            let Some(next) = number
                .checked_mul(10)
                .and_then(|ten| ten.checked_add(digit))
            else {
                return Err(Refusal::new(FORM, self.line));
            };
            self.judge(digits == 0 || number > 0)?;
            number = next;
            digits += 1;
        }
        self.judge(digits > 0)?;
        self.rest = &self.rest[digits..];
        Ok(number)
    }

    /// A bit pattern: eight lower-case hexadecimal digits.
    fn pattern(&mut self) -> Result<u32, Refusal> {
        let mut pattern = 0;
        for at in 0..PATTERN_DIGITS {
            let digit = match self.rest.get(at) {
                Some(byte @ b'0'..=b'9') => byte - b'0',
                Some(byte @ b'a'..=b'f') => byte - b'a' + 10,
                _ => return Err(Refusal::new(FORM, self.line)),
            };
            pattern = pattern << 4 | u32::from(digit);
        }
        self.rest = &self.rest[PATTERN_DIGITS..];
        Ok(pattern)
    }
}

#[cfg(test)]
mod tests {
    use super::*;

    const EXAMPLE: &[u8] = b"climb\t1\t3\t1\nsplit\t2\t3f800000\t00000000\tbf800000\n\
        move\t0\t2\nface\t1\t1\t2\t3\nend\t1\n";

    fn answer(text: &[u8]) -> Result<usize, Refusal> {
        read(text, &mut [0; 64])
    }

    #[test]
    fn example() {
        let mut table = [7; 16];
        assert_eq!(read(EXAMPLE, &mut table), Ok(15));
        let step = [2, 0x3F80_0000, 0, 0xBF80_0000, 1, 1, 0, 2, 1, 1, 2, 3];
        assert_eq!(table[..3], [3, 1, 1]);
        assert_eq!(table[3..15], step);
        assert_eq!(table[15], 7);
        let mut short = [7; 14];
        assert_eq!(read(EXAMPLE, &mut short), Err(Refusal::new(ROOM, 0)));
        assert_eq!(short, [7; 14]);
    }

    #[test]
    fn cut_anywhere() {
        for end in 0..EXAMPLE.len() {
            let text = &EXAMPLE[..end];
            let feeds = text.iter().filter(|&&byte| byte == b'\n').count();
            assert_eq!(answer(text), Err(Refusal::new(FORM, feeds + 1)));
        }
    }

    #[test]
    fn wrong_lines() {
        let lines: [(&[u8], usize); 9] = [
            (b"climb\t01\t0\t0\nend\t0\n", 1),
            (b"climb\t1\t65537\t0\nend\t0\n", 1),
            (b"climb\t1\t00\t0\nend\t0\n", 1),
            (b"climb\t1\t0\t0\nend\t1\n", 2),
            (b"climb\t1\t0\t0\nend\t0\n\n", 3),
            (b"climb\t1\t0\t0\nend\t0\nend\t0", 3),
            (
                b"climb\t1\t0\t0\nsplit\t0\t0000000A\t00000000\t00000000\n",
                2,
            ),
            (b"climb\t1\t0\t0\nsplit\t4294967296\t", 2),
            (b"climb\t1\t0\t0\nmove\t0\t0\nend\t0\n", 2),
        ];
        for (text, line) in lines {
            assert_eq!(answer(text), Err(Refusal::new(FORM, line)));
        }
        assert_eq!(answer(b"climb\t1\t65536\t0\nend\t0\n"), Ok(3));
    }
}
