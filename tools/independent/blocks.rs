//! The file header (9.4.1), blocks (9.2) and modifier chains (9.4.3).

use crate::fields::{name_at, u16_at, u32_at, u64_at};
use crate::refusal::{
    Refusal, BLOCK_TYPE, CHAIN, CUT, FILE_SIZE, LIMIT, MAX_BYTES, MAX_LEVELS, MAX_NAME, NAME,
    NO_HEADER, ORDER, PADDING, PROFILE, ROOM,
};
use std::ops::Range;

/// A block's numbers: offset, type, data size, meta data size, depth.
pub const ROW: usize = 5;

/// Type, data size and meta data size.
const HEAD: usize = 12;
const SIZE_AT: usize = 4;
const META_SIZE_AT: usize = 8;

const HEADER_TYPE: u32 = 0x0044_3355;
const CHAIN_TYPE: u32 = 0xFFFF_FF14;
const MAX_CHAIN_TYPE: u32 = 2;

/// The header's fields, from the start of the file.
const VERSION_AT: usize = 12;
const MINOR_VERSION_AT: usize = 14;
const PROFILE_AT: usize = 16;
const DECLARATION_SIZE_AT: usize = 20;
const FILE_SIZE_AT: usize = 24;
const ENCODING_AT: usize = 32;
const UNITS_AT: usize = 36;

/// Bytes of the header's fields up to the encoding, and with the units.
const LEAST_HEADER_DATA: usize = UNITS_AT - HEAD;
const HEADER_DATA_WITH_UNITS: usize = LEAST_HEADER_DATA + 8;

const EXTENSIBLE: u32 = 0x2;
const DEFINED_UNITS: u32 = 0x8;

/// A file's header, and where it ends. The units scaling factor is the bit
/// pattern of its F64, 0 where the file has no units.
#[derive(Clone, Copy, PartialEq, Eq, Debug)]
pub struct Header {
    pub minor_version: u16,
    pub profile: u32,
    pub declaration_size: u32,
    pub file_size: u64,
    pub encoding: u32,
    pub units: u64,
    pub end: usize,
}

/// Reads the header of a file, which is judged no further.
pub fn header(file: &[u8]) -> Result<Header, Refusal> {
    judge_header(whole_file(file)?)
}

/// Walks over the blocks of a file, a chain before its contents. Gives back
/// how many there are; a refusal leaves the rows.
pub fn walk(file: &[u8], rows: &mut [u32]) -> Result<usize, Refusal> {
    let blocks = judge_file(file)?;
    if blocks * ROW > rows.len() {
        return Err(Refusal::new(ROOM, 0));
    }
    for (row, block) in rows.chunks_exact_mut(ROW).zip(Rows::of(file)) {
        row.copy_from_slice(&block);
    }
    Ok(blocks)
}

/// The bytes of a file that isn't too long.
fn whole_file(file: &[u8]) -> Result<Region<'_>, Refusal> {
    if file.len() > MAX_BYTES {
        return Err(Refusal::new(LIMIT, 0));
    }
    Ok(Region {
        bytes: file,
        passed: CUT,
    })
}

/// Judges a file whole, and counts its blocks.
fn judge_file(file: &[u8]) -> Result<usize, Refusal> {
    let region = whole_file(file)?;
    let mut at = judge_header(region)?.end;
    let mut judge = Judge {
        blocks: 1,
        continued: false,
    };
    while at < file.len() {
        at = judge.block(region, at, 0)?;
    }
    Ok(judge.blocks)
}

/// Judges the first block: type, room for the fields that every header has,
/// version, profile, data size, room for the data, sizes, then the rest.
fn judge_header(region: Region) -> Result<Header, Refusal> {
    let head = region.head(0)?;
    if head.block_type != HEADER_TYPE {
        return Err(Refusal::new(NO_HEADER, 0));
    }
    region.after(HEAD, LEAST_HEADER_DATA)?;
    if region.u16(VERSION_AT)? != 0 {
        return Err(Refusal::new(NO_HEADER, VERSION_AT));
    }
    let profile = region.number(PROFILE_AT)?;
    if profile & !(EXTENSIBLE | DEFINED_UNITS) != 0 {
        return Err(Refusal::new(PROFILE, PROFILE_AT));
    }
    if head.data_size as usize != header_data_size(profile) {
        return Err(Refusal::new(NO_HEADER, SIZE_AT));
    }
    region.after(HEAD, head.data_size as usize)?;
    let (declaration_size, file_size) = judge_sizes(region)?;
    let sections = region.sections(0, head)?;
    region.judge_paddings(&sections)?;
    Ok(Header {
        minor_version: region.u16(MINOR_VERSION_AT)?,
        profile,
        declaration_size,
        file_size,
        encoding: region.number(ENCODING_AT)?,
        units: match profile & DEFINED_UNITS {
            0 => 0,
            _ => region.u64(UNITS_AT)?,
        },
        end: sections.end,
    })
}

/// Defined units add their scaling factor.
fn header_data_size(profile: u32) -> usize {
    if profile & DEFINED_UNITS == 0 {
        LEAST_HEADER_DATA
    } else {
        HEADER_DATA_WITH_UNITS
    }
}

/// The declaration size and the file size, judged by the file's length.
fn judge_sizes(region: Region) -> Result<(u32, u64), Refusal> {
    let length = region.bytes.len() as u64;
    let declaration_size = region.number(DECLARATION_SIZE_AT)?;
    if u64::from(declaration_size) > length {
        return Err(Refusal::new(FILE_SIZE, DECLARATION_SIZE_AT));
    }
    let file_size = region.u64(FILE_SIZE_AT)?;
    if file_size != length {
        return Err(Refusal::new(FILE_SIZE, FILE_SIZE_AT));
    }
    Ok((declaration_size, file_size))
}

#[derive(Clone, Copy, PartialEq, Eq)]
enum Kind {
    Header,
    Declaration,
    Chain,
    Continuation,
}

/// What a known block type stands for.
fn kind(block_type: u32) -> Option<Kind> {
    if block_type == HEADER_TYPE {
        return Some(Kind::Header);
    }
    if block_type >> 8 != 0xFF_FFFF {
        return None;
    }
    match block_type & 0xFF {
        0x14 => Some(Kind::Chain),
        0x12 | 0x16 | 0x21..=0x24 | 0x31 | 0x36 | 0x37 | 0x41..=0x46 | 0x51..=0x56 => {
            Some(Kind::Declaration)
        }
        0x15 | 0x3B | 0x3C | 0x3E | 0x3F | 0x5C => Some(Kind::Continuation),
        _ => None,
    }
}

#[derive(Clone, Copy)]
struct Head {
    block_type: u32,
    data_size: u32,
    meta_size: u32,
}

/// What follows a block's head; paddings stand after data and meta data.
struct Sections {
    data: Range<usize>,
    meta: Range<usize>,
    end: usize,
}

/// The zero bytes after a size, to a multiple of 4.
fn padding(size: usize) -> usize {
    size.wrapping_neg() % 4
}

/// The file, or the file up to a chain's end, and the number of a refusal for
/// what passes that end.
#[derive(Clone, Copy)]
struct Region<'a> {
    bytes: &'a [u8],
    passed: u32,
}

impl<'a> Region<'a> {
    fn number(self, at: usize) -> Result<u32, Refusal> {
        u32_at(self.bytes, at).ok_or(Refusal::new(self.passed, at))
    }

    fn u16(self, at: usize) -> Result<u16, Refusal> {
        u16_at(self.bytes, at).ok_or(Refusal::new(self.passed, at))
    }

    fn u64(self, at: usize) -> Result<u64, Refusal> {
        u64_at(self.bytes, at).ok_or(Refusal::new(self.passed, at))
    }

    /// Where a part of this size ends.
    fn after(self, start: usize, size: usize) -> Result<usize, Refusal> {
        if size > self.bytes.len() - start {
            return Err(Refusal::new(self.passed, start));
        }
        Ok(start + size)
    }

    fn head(self, at: usize) -> Result<Head, Refusal> {
        Ok(Head {
            block_type: self.number(at)?,
            data_size: self.number(at + SIZE_AT)?,
            meta_size: self.number(at + META_SIZE_AT)?,
        })
    }

    /// Room for the rest of a block.
    fn sections(self, at: usize, head: Head) -> Result<Sections, Refusal> {
        let data_start = at + HEAD;
        let data_end = self.after(data_start, head.data_size as usize)?;
        let meta_start = self.after(data_end, padding(head.data_size as usize))?;
        let meta_end = self.after(meta_start, head.meta_size as usize)?;
        let end = self.after(meta_end, padding(head.meta_size as usize))?;
        Ok(Sections {
            data: data_start..data_end,
            meta: meta_start..meta_end,
            end,
        })
    }

    fn judge_paddings(self, sections: &Sections) -> Result<(), Refusal> {
        self.judge_zeros(sections.data.end..sections.meta.start)?;
        self.judge_zeros(sections.meta.end..sections.end)
    }

    fn judge_zeros(self, padding: Range<usize>) -> Result<(), Refusal> {
        for at in padding {
            if self.bytes[at] != 0 {
                return Err(Refusal::new(PADDING, at));
            }
        }
        Ok(())
    }

    /// A chain's fields before its blocks: the modifier count, and where they
    /// end.
    fn chain_fields(self, start: usize) -> Result<(u32, usize), Refusal> {
        let Some(name) = name_at(self.bytes, start) else {
            return Err(Refusal::new(self.passed, start));
        };
        if name.len() > MAX_NAME {
            return Err(Refusal::new(NAME, start));
        }
        let type_at = name.end;
        if self.number(type_at)? > MAX_CHAIN_TYPE {
            return Err(Refusal::new(CHAIN, type_at));
        }
        let attributes_at = type_at + 4;
        if self.number(attributes_at)? != 0 {
            return Err(Refusal::new(CHAIN, attributes_at));
        }
        let padding_at = attributes_at + 4;
        let count_at = self.after(padding_at, padding(padding_at - start))?;
        self.judge_zeros(padding_at..count_at)?;
        Ok((self.number(count_at)?, count_at + 4))
    }
}

/// The judge of all blocks after the first.
struct Judge {
    blocks: usize,
    /// Whether a continuation was met: no declaration may follow.
    continued: bool,
}

impl Judge {
    /// Judges a block at a depth, and gives back where it ends.
    fn block(&mut self, region: Region, at: usize, depth: u32) -> Result<usize, Refusal> {
        let head = region.head(at)?;
        let Some(kind) = kind(head.block_type) else {
            return Err(Refusal::new(BLOCK_TYPE, at));
        };
        if !self.in_order(kind, depth) {
            return Err(Refusal::new(ORDER, at));
        }
        if kind == Kind::Chain && depth >= MAX_LEVELS {
            return Err(Refusal::new(CHAIN, at));
        }
        let sections = region.sections(at, head)?;
        self.blocks += 1;
        self.continued |= kind == Kind::Continuation;
        if kind == Kind::Chain {
            self.chain(region.bytes, &sections.data, depth + 1)?;
        }
        region.judge_paddings(&sections)?;
        Ok(sections.end)
    }

    /// Declarations, then continuations; in a chain only declarations.
    fn in_order(&self, kind: Kind, depth: u32) -> bool {
        match kind {
            Kind::Header => false,
            Kind::Declaration | Kind::Chain => !self.continued,
            Kind::Continuation => depth == 0,
        }
    }

    /// Judges a chain's contents, whose blocks stand at a depth.
    fn chain(&mut self, bytes: &[u8], data: &Range<usize>, depth: u32) -> Result<(), Refusal> {
        let region = Region {
            bytes: &bytes[..data.end],
            passed: CHAIN,
        };
        let (count, mut at) = region.chain_fields(data.start)?;
        for _ in 0..count {
            at = self.block(region, at, depth)?;
        }
        if at < data.end {
            return Err(Refusal::new(CHAIN, at));
        }
        Ok(())
    }
}

/// The rows of a file that was judged; none of no bytes.
struct Rows<'a> {
    file: &'a [u8],
    at: usize,
    depth: usize,
    /// Of each open chain: where its data ends, and where the block does.
    ends: [(usize, usize); MAX_LEVELS as usize],
}

impl<'a> Rows<'a> {
    fn of(file: &'a [u8]) -> Rows<'a> {
        Rows {
            file,
            at: 0,
            depth: 0,
            ends: [(0, 0); MAX_LEVELS as usize],
        }
    }

    /// Where a chain's first block stands.
    fn contents(&self, start: usize) -> Option<usize> {
        let fields_end = name_at(self.file, start)?.end + 8;
        Some(fields_end + padding(fields_end - start) + 4)
    }

    fn leave_chains(&mut self) {
        while self.depth > 0 && self.at == self.ends[self.depth - 1].0 {
            self.depth -= 1;
            self.at = self.ends[self.depth].1;
        }
    }
}

impl Iterator for Rows<'_> {
    type Item = [u32; ROW];

    fn next(&mut self) -> Option<[u32; ROW]> {
        self.leave_chains();
        let at = self.at;
        let block_type = u32_at(self.file, at)?;
        let data_size = u32_at(self.file, at + SIZE_AT)?;
        let meta_size = u32_at(self.file, at + META_SIZE_AT)?;
        let row = [
            at as u32,
            block_type,
            data_size,
            meta_size,
            self.depth as u32,
        ];
        let data_end = at + HEAD + data_size as usize;
        let meta_end = data_end + padding(data_size as usize) + meta_size as usize;
        let end = meta_end + padding(meta_size as usize);
        if block_type == CHAIN_TYPE {
            self.ends[self.depth] = (data_end, end);
            self.depth += 1;
            self.at = self.contents(at + HEAD)?;
        } else {
            self.at = end;
        }
        Some(row)
    }
}

const FIRST_LINE: &[u8] = b"blocks\t1\n";
const TYPE_DIGITS: usize = 8;

/// Lists a file's blocks as text, and gives back its length in bytes. A
/// refused file has only the first and last line. 12 leaves the text.
pub fn listing(file: &[u8], text: &mut [u8]) -> Result<usize, Refusal> {
    let (number, blocks, listed) = match judge_file(file) {
        Ok(blocks) => (0, blocks as u32, file),
        Err(refusal) => (refusal.number, 0, &file[..0]),
    };
    let rows: usize = Rows::of(listed).map(row_length).sum();
    let length = FIRST_LINE.len() + rows + last_length(number, blocks);
    if length > text.len() {
        return Err(Refusal::new(ROOM, 0));
    }
    let mut lines = Lines { text, at: 0 };
    lines.put(FIRST_LINE);
    for row in Rows::of(listed) {
        lines.row(row);
    }
    lines.last(number, blocks);
    Ok(length)
}

fn row_length(row: [u32; ROW]) -> usize {
    let [at, _, data_size, meta_size, depth] = row;
    let numbers = [at, data_size, meta_size, depth].map(digits);
    "block\t\t\t\t\t\n".len() + TYPE_DIGITS + numbers.iter().sum::<usize>()
}

fn last_length(number: u32, blocks: u32) -> usize {
    "end\t\t\n".len() + digits(number) + digits(blocks)
}

/// How many decimal digits a number has.
fn digits(number: u32) -> usize {
    number.checked_ilog10().unwrap_or(0) as usize + 1
}

/// Text written into a slice that has room for it.
struct Lines<'a> {
    text: &'a mut [u8],
    at: usize,
}

impl Lines<'_> {
    fn put(&mut self, bytes: &[u8]) {
        let end = self.at + bytes.len();
        self.text[self.at..end].copy_from_slice(bytes);
        self.at = end;
    }

    fn decimal(&mut self, mut number: u32) {
        let end = self.at + digits(number);
        for digit in self.text[self.at..end].iter_mut().rev() {
            *digit = b'0' + (number % 10) as u8;
            number /= 10;
        }
        self.at = end;
    }

    fn hexadecimal(&mut self, mut number: u32) {
        let end = self.at + TYPE_DIGITS;
        for digit in self.text[self.at..end].iter_mut().rev() {
            *digit = b"0123456789abcdef"[(number % 16) as usize];
            number /= 16;
        }
        self.at = end;
    }

    fn row(&mut self, row: [u32; ROW]) {
        let [at, block_type, data_size, meta_size, depth] = row;
        self.put(b"block\t");
        self.decimal(at);
        self.put(b"\t");
        self.hexadecimal(block_type);
        for number in [data_size, meta_size, depth] {
            self.put(b"\t");
            self.decimal(number);
        }
        self.put(b"\n");
    }

    fn last(&mut self, number: u32, blocks: u32) {
        self.put(b"end\t");
        self.decimal(number);
        self.put(b"\t");
        self.decimal(blocks);
        self.put(b"\n");
    }
}

#[cfg(test)]
mod tests {
    use super::*;

    const NODE: u32 = 0xFFFF_FF21;
    const UPDATE: u32 = 0xFFFF_FF15;

    fn block(block_type: u32, data: &[u8], meta: &[u8]) -> Vec<u8> {
        let mut block = Vec::new();
        for number in [block_type, data.len() as u32, meta.len() as u32] {
            block.extend_from_slice(&number.to_le_bytes());
        }
        for part in [data, meta] {
            block.extend_from_slice(part);
            block.resize(block.len().next_multiple_of(4), 0);
        }
        block
    }

    fn chain(name: &[u8], blocks: &[Vec<u8>]) -> Vec<u8> {
        let mut data = (name.len() as u16).to_le_bytes().to_vec();
        data.extend_from_slice(name);
        data.extend_from_slice(&[0; 8]);
        data.resize(data.len().next_multiple_of(4), 0);
        data.extend_from_slice(&(blocks.len() as u32).to_le_bytes());
        data.extend(blocks.concat());
        block(CHAIN_TYPE, &data, &[])
    }

    fn file(blocks: &[Vec<u8>]) -> Vec<u8> {
        let mut file = block(HEADER_TYPE, &[0; 24], &[]);
        file.extend(blocks.concat());
        let length = file.len() as u64;
        file[FILE_SIZE_AT..][..8].copy_from_slice(&length.to_le_bytes());
        file
    }

    fn answer(file: &[u8]) -> Result<usize, Refusal> {
        walk(file, &mut [0; 100])
    }

    fn refused(number: u32, place: usize) -> Result<usize, Refusal> {
        Err(Refusal::new(number, place))
    }

    #[test]
    fn header_only() {
        let file = file(&[]);
        let mut text = [0; 64];
        let length = listing(&file, &mut text).unwrap();
        let expected = b"blocks\t1\nblock\t0\t00443355\t24\t0\t0\nend\t0\t1\n";
        assert_eq!(&text[..length], expected);
        let mut exact = vec![0; length];
        assert_eq!(listing(&file, &mut exact), Ok(length));
        assert_eq!(listing(&file, &mut exact[1..]), refused(ROOM, 0));
        let length = listing(&file[1..], &mut text).unwrap();
        assert_eq!(&text[..length], b"blocks\t1\nend\t2\t0\n");
        for end in 0..36 {
            let place = if end < 12 { end / 4 * 4 } else { 12 };
            assert_eq!(answer(&file[..end]), refused(CUT, place));
        }
    }

    #[test]
    fn units() {
        let with_units = |profile: u8, data: usize| {
            let mut file = block(HEADER_TYPE, &vec![0x11; data], &[]);
            file[VERSION_AT..UNITS_AT].fill(0);
            file[PROFILE_AT] = profile;
            file[FILE_SIZE_AT] = file.len() as u8;
            file
        };
        for profile in [0x8, 0xA] {
            let file = with_units(profile, 32);
            let read = header(&file).unwrap();
            assert_eq!((read.units, read.end), (0x1111_1111_1111_1111, 44));
            for end in 12..44 {
                assert_eq!(answer(&file[..end]), refused(CUT, 12));
            }
            assert_eq!(answer(&with_units(profile, 24)), refused(NO_HEADER, 4));
        }
        for profile in [0x0, 0x2] {
            let read = header(&with_units(profile, 24)).unwrap();
            assert_eq!((read.units, read.end), (0, 36));
            assert_eq!(answer(&with_units(profile, 32)), refused(NO_HEADER, 4));
        }
        assert_eq!(answer(&with_units(0xC, 32)), refused(PROFILE, 16));
        assert_eq!(answer(&with_units(0xC, 24)), refused(PROFILE, 16));
    }

    #[test]
    fn chains() {
        let inner = chain(b"in", &[block(NODE, b"abcde", b"x"), block(NODE, &[], &[])]);
        let outer = chain(b"out", &[inner]);
        let file = file(&[outer, block(UPDATE, &[], &[])]);
        let mut rows = [9; 6 * ROW];
        assert_eq!(walk(&file, &mut rows), Ok(6));
        let depths: Vec<u32> = rows.chunks(ROW).map(|row| row[4]).collect();
        assert_eq!(depths, [0, 0, 1, 2, 2, 0]);
        let offsets: Vec<u32> = rows.chunks(ROW).map(|row| row[0]).collect();
        assert_eq!(offsets, [0, 36, 68, 96, 120, 132]);
        assert_eq!(walk(&file, &mut rows[..29]), refused(ROOM, 0));
        // Chain type, attributes, padding, modifier count of the outer chain.
        let changed = |at: usize, byte: u8| {
            let mut file = file.clone();
            file[at] = byte;
            answer(&file)
        };
        assert_eq!(changed(53, 3), refused(CHAIN, 53));
        assert_eq!(changed(57, 1), refused(CHAIN, 57));
        assert_eq!(changed(61, 1), refused(PADDING, 61));
        assert_eq!(changed(64, 2), refused(CHAIN, 132));
        assert_eq!(changed(64, 0), refused(CHAIN, 68));
        assert_eq!(changed(114, 1), refused(PADDING, 114));
        assert_eq!(changed(120, 0x15), refused(ORDER, 120));
        assert_eq!(changed(120, 0x17), refused(BLOCK_TYPE, 120));
    }

    #[test]
    fn limits() {
        assert_eq!(
            answer(&file(&[chain(&[b'n'; 256], &[])])),
            refused(NAME, 48)
        );
        assert_eq!(answer(&file(&[chain(&[b'n'; 255], &[])])), Ok(2));
        let mut nested = block(NODE, &[], &[]);
        for _ in 0..4 {
            nested = chain(b"", &[nested]);
        }
        assert_eq!(answer(&file(&[nested.clone()])), Ok(6));
        let deeper = file(&[chain(b"", &[nested])]);
        assert_eq!(answer(&deeper), refused(CHAIN, 36 + 4 * 28));
        let late = file(&[block(UPDATE, &[], &[]), block(NODE, &[], &[])]);
        assert_eq!(answer(&late), refused(ORDER, 48));
        let again = file(&[file(&[])]);
        assert_eq!(answer(&again), refused(ORDER, 36));
    }
}
