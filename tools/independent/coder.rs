//! The bit coder of clause 10.4, read and write.

use crate::refusal::{CUT, LIMIT, MAX_BYTES, ROOM, STATE, VALUE};

/// Escape and the values 0 to 255.
pub const SYMBOLS: usize = 257;
/// Frequencies of a dynamic context: escape, then the values upward.
pub type Histogram = [u32; SYMBOLS];

const ESCAPE: usize = 0;
const MAX_VALUE: u32 = SYMBOLS as u32 - 2;
/// The largest static range that is compressed (10.4).
const MAX_RANGE: u32 = 0x3FFE;
/// A total at which a histogram is halved (10.4.9).
const MAX_TOTAL: u32 = 0x1FFF;
/// The static range of a plain byte (10.4.8).
const BYTE_RANGE: u32 = 256;
const U32_BYTES: u32 = 4;
const HALF: u32 = 0x8000;
const QUARTER: u32 = 0x4000;
const FULL: u32 = 0xFFFF;
/// Bits of low, of high and of the code word.
const WIDTH: u32 = 16;
/// An escape and the four bytes after it.
const MAX_SYMBOLS_IN_VALUE: usize = 5;

/// The bytes with their bits in reverse order (10.4.8).
const REVERSED: [u8; 256] = reversed_bytes();

const fn reversed_bytes() -> [u8; 256] {
    let mut table = [0; 256];
    let mut byte = 0;
    while byte < table.len() {
        table[byte] = (byte as u8).reverse_bits();
        byte += 1;
    }
    table
}

/// A dynamic context in which nothing was coded yet (10.4.3).
pub fn fresh_histogram() -> Histogram {
    let mut weights = [0; SYMBOLS];
    weights[ESCAPE] = 1;
    weights
}

/// The total of a well-formed histogram, else 18.
fn judged_total(weights: &Histogram) -> Result<u32, u32> {
    let total: u64 = weights.iter().map(|&weight| u64::from(weight)).sum();
    if weights[ESCAPE] == 0 || total > u64::from(MAX_TOTAL) {
        return Err(STATE);
    }
    Ok(total as u32)
}

/// Raises a symbol's frequency, and gives back the total after it (10.4.9).
pub(crate) fn raise(weights: &mut Histogram, symbol: usize, total: u32) -> u32 {
    let total = if total >= MAX_TOTAL {
        halve(weights)
    } else {
        total
    };
    weights[symbol] += 1;
    total + 1
}

fn halve(weights: &mut Histogram) -> u32 {
    for weight in weights.iter_mut() {
        *weight /= 2;
    }
    weights[ESCAPE] += 1;
    weights.iter().sum()
}

/// Raises what coding a value raises: escape too where it was escaped.
pub(crate) fn raise_value(weights: &mut Histogram, coded: Coded, total: u32) -> u32 {
    let total = if coded.escaped {
        raise(weights, ESCAPE, total)
    } else {
        total
    };
    raise(weights, coded.value as usize + 1, total)
}

/// A value of a dynamic context, and whether it came as escape and plain U32.
#[derive(Clone, Copy)]
pub(crate) struct Coded {
    pub value: u32,
    pub escaped: bool,
}

/// The probability limits between two symbols: low below 0x8000, high from
/// there to 0xFFFF, and no underflow left.
#[derive(Clone, Copy)]
struct Limits {
    low: u32,
    high: u32,
}

/// Limits narrowed by a symbol, and the bits that were shifted out of them.
struct Narrowed {
    limits: Limits,
    /// The agreed top bits, the first in the lowest place.
    bits: u32,
    agreed: u32,
    underflow: u32,
}

impl Limits {
    const FRESH: Limits = Limits { low: 0, high: FULL };

    /// The limits of a handed-in state where they are well formed.
    fn formed(low: u64, high: u64) -> Option<Limits> {
        let low = u32::try_from(low).ok().filter(|&low| low < HALF)?;
        let high = u32::try_from(high).ok()?;
        let upper = (HALF..=FULL).contains(&high);
        let underflow = low & QUARTER != 0 && high & QUARTER == 0;
        (upper && !underflow).then_some(Limits { low, high })
    }

    /// How many units lie between the limits: above any total.
    fn span(self) -> u32 {
        self.high - self.low + 1
    }

    /// Narrows to the part from `start` to `end` of the total that `divide`
    /// divides by (10.4.4.2), then shifts out agreed bits (10.4.4.4) and
    /// underflow bits (10.4.4.5).
    #[inline(always)]
    fn narrow(self, start: u32, end: u32, divide: impl Fn(u32) -> u32) -> Narrowed {
        let span = self.span();
        let high = self.low + divide(span * end) - 1;
        let low = self.low + divide(span * start);
        let agreed = ((low ^ high) as u16).leading_zeros();
        let bits = u32::from((low as u16).reverse_bits()) & ones(agreed);
        let low = low << agreed & FULL;
        let high = (high << agreed | ones(agreed)) & FULL;
        let underflow = (((low & !high) << 1) as u16).leading_ones();
        let limits = Limits {
            low: low << underflow & (FULL - HALF),
            high: (high << underflow | ones(underflow)) & FULL | HALF,
        };
        Narrowed {
            limits,
            bits,
            agreed,
            underflow,
        }
    }
}

/// A static range, with what divides by it faster than a division.
#[derive(Clone, Copy)]
pub(crate) struct StaticRange {
    count: u32,
    reciprocal: u64,
}

impl StaticRange {
    /// A product is at most 2^16 times the count, and a count that is divided
    /// by is below 2^14: so quotients are exact, and 64 bits hold them.
    const SHIFT: u32 = 46;

    pub(crate) fn new(count: u32) -> StaticRange {
        let divisor = u64::from(count.max(1));
        StaticRange {
            count,
            reciprocal: (1 << StaticRange::SHIFT) / divisor + 1,
        }
    }

    #[inline(always)]
    fn divide(self, product: u32) -> u32 {
        ((u64::from(product) * self.reciprocal) >> StaticRange::SHIFT) as u32
    }
}

/// The lowest `count` bits set, for counts below 32.
fn ones(count: u32) -> u32 {
    (1 << count) - 1
}

/// The state between two values, of a reader or of a writer.
#[derive(Clone, Copy, PartialEq, Eq, Debug)]
pub struct State {
    pub low: u64,
    pub high: u64,
    pub pending: u64,
    pub settled: u64,
}

impl State {
    /// The start of a block (10.4.3).
    pub fn fresh() -> State {
        State::new(Limits::FRESH, 0, 0)
    }

    fn new(limits: Limits, pending: u64, settled: u64) -> State {
        State {
            low: u64::from(limits.low),
            high: u64::from(limits.high),
            pending,
            settled,
        }
    }
}

fn bit_length(bytes: &[u8]) -> u64 {
    8 * bytes.len() as u64
}

// Writing

/// A writer's state: also whether a compressed value was written (10.4.10).
#[derive(Clone, Copy, PartialEq, Eq, Debug)]
pub struct Writer {
    pub state: State,
    pub compressed: u64,
}

impl Writer {
    pub fn fresh() -> Writer {
        Writer {
            state: State::fresh(),
            compressed: 0,
        }
    }

    /// Writes a value in a static range; above 0x3FFE as a plain U32 (10.4.5).
    pub fn write_static(&mut self, buffer: &mut [u8], range: u32, value: u32) -> Result<(), u32> {
        let mut plan = self.judged(buffer)?;
        if value >= range {
            return Err(VALUE);
        }
        if range > MAX_RANGE {
            plan.plain(U32_BYTES, value);
        } else {
            plan.symbol(value, value + 1, range);
        }
        self.state = plan.store(buffer)?;
        self.compressed = 1;
        Ok(())
    }

    /// Writes a value in a dynamic context: by its frequency, or escaped.
    pub fn write_dynamic(
        &mut self,
        buffer: &mut [u8],
        histogram: &mut Histogram,
        value: u32,
    ) -> Result<(), u32> {
        let mut plan = self.judged(buffer)?;
        let total = judged_total(histogram)?;
        if value > MAX_VALUE {
            return Err(VALUE);
        }
        let symbol = value as usize + 1;
        let weight = histogram[symbol];
        if weight == 0 {
            plan.symbol(0, histogram[ESCAPE], total);
            plan.plain(U32_BYTES, value);
        } else {
            let start: u32 = histogram[..symbol].iter().sum();
            plan.symbol(start, start + weight, total);
        }
        self.state = plan.store(buffer)?;
        self.compressed = 1;
        let escaped = weight == 0;
        raise_value(histogram, Coded { value, escaped }, total);
        Ok(())
    }

    /// Writes a plain U8, U16 or U32, low byte first.
    pub fn write_plain(&mut self, buffer: &mut [u8], bytes: u32, value: u32) -> Result<(), u32> {
        let mut plan = self.judged(buffer)?;
        if !is_plain_width(bytes) || u64::from(value) >> (8 * bytes) != 0 {
            return Err(VALUE);
        }
        plan.plain(bytes, value);
        self.state = plan.store(buffer)?;
        Ok(())
    }

    /// Writes the end (10.4.10), and gives back how many bytes are used.
    ///
    /// After a compressed value it is a plain U32 of 0: its first two bytes
    /// narrow the limits to at most one unit, so that a reader before the end
    /// finds low. Without one, zeros do where the reader finds 0 there.
    pub fn end(&mut self, buffer: &mut [u8]) -> Result<usize, u32> {
        let mut plan = self.judged(buffer)?;
        if self.compressed == 1 {
            plan.plain(U32_BYTES, 0);
        } else if self.state.low > 0 || self.state.pending > 0 {
            plan.low();
        }
        self.state = plan.store(buffer)?;
        Ok(self.state.settled.div_ceil(8) as usize)
    }

    /// A plan that starts at this state; 9, then 18.
    fn judged(&self, buffer: &[u8]) -> Result<Plan, u32> {
        if buffer.len() > MAX_BYTES {
            return Err(LIMIT);
        }
        let state = self.state;
        let limits = Limits::formed(state.low, state.high).ok_or(STATE)?;
        let used = state.settled.checked_add(state.pending).ok_or(STATE)?;
        if self.compressed > 1 || used > bit_length(buffer) {
            return Err(STATE);
        }
        Ok(Plan::new(limits, state.pending, state.settled))
    }
}

fn is_plain_width(bytes: u32) -> bool {
    matches!(bytes, 1 | 2 | 4)
}

/// Bits to store: one, then pending ones inverted, then the others.
#[derive(Clone, Copy)]
struct Piece {
    bits: u32,
    count: u32,
    pending: u64,
}

/// What a call will store, known whole before the first byte is changed.
struct Plan {
    limits: Limits,
    pending: u64,
    settled: u64,
    start: u64,
    pieces: [Piece; MAX_SYMBOLS_IN_VALUE],
    used: usize,
}

impl Plan {
    fn new(limits: Limits, pending: u64, settled: u64) -> Plan {
        let nothing = Piece {
            bits: 0,
            count: 0,
            pending: 0,
        };
        Plan {
            limits,
            pending,
            settled,
            start: settled,
            pieces: [nothing; MAX_SYMBOLS_IN_VALUE],
            used: 0,
        }
    }

    #[inline(always)]
    fn symbol(&mut self, start: u32, end: u32, total: u32) {
        let narrowed = self.limits.narrow(start, end, |product| product / total);
        self.limits = narrowed.limits;
        if narrowed.agreed > 0 {
            self.settle(narrowed.bits, narrowed.agreed);
        }
        self.pending += u64::from(narrowed.underflow);
    }

    fn settle(&mut self, bits: u32, count: u32) {
        self.pieces[self.used] = Piece {
            bits,
            count,
            pending: self.pending,
        };
        self.used += 1;
        self.settled += self.pending + u64::from(count);
        self.pending = 0;
    }

    fn plain(&mut self, bytes: u32, value: u32) {
        for &byte in &value.to_le_bytes()[..bytes as usize] {
            let symbol = u32::from(REVERSED[usize::from(byte)]);
            self.symbol(symbol, symbol + 1, BYTE_RANGE);
        }
    }

    /// The other end: low's top bit, the pending ones inverted, low's rest.
    fn low(&mut self) {
        let bits = u32::from((self.limits.low as u16).reverse_bits());
        self.settle(bits, WIDTH);
        self.limits = Limits::FRESH;
    }

    /// Judges the room (12), then stores; gives back the state after it.
    fn store(self, buffer: &mut [u8]) -> Result<State, u32> {
        if self.settled + self.pending > bit_length(buffer) {
            return Err(ROOM);
        }
        let mut at = self.start;
        for piece in &self.pieces[..self.used] {
            at = put_piece(buffer, at, piece);
        }
        // Bits of the last byte that aren't settled are 0.
        put(buffer, at, 0, 0);
        Ok(State::new(self.limits, self.pending, self.settled))
    }
}

/// Stores a piece at a bit, and gives back the bit after it.
fn put_piece(buffer: &mut [u8], at: u64, piece: &Piece) -> u64 {
    if piece.pending == 0 {
        return put(buffer, at, piece.bits, piece.count);
    }
    let first = piece.bits & 1;
    let at = put(buffer, at, first, 1);
    let at = put_run(buffer, at, first == 0, piece.pending);
    put(buffer, at, piece.bits >> 1, piece.count - 1)
}

/// Stores up to 16 bits, lowest first, and clears the rest of the last byte.
fn put(buffer: &mut [u8], at: u64, bits: u32, count: u32) -> u64 {
    let shift = (at % 8) as u32;
    let first = (at / 8) as usize;
    let after = first + (shift + count).div_ceil(8) as usize;
    let mut rest = bits << shift;
    if shift > 0 {
        rest |= u32::from(buffer[first]) & ones(shift);
    }
    for byte in &mut buffer[first..after] {
        *byte = rest as u8;
        rest >>= 8;
    }
    at + u64::from(count)
}

/// Stores a run of equal bits, whole bytes at once.
fn put_run(buffer: &mut [u8], at: u64, set: bool, count: u64) -> u64 {
    let pattern = if set { 0xFF } else { 0 };
    let head = ((8 - at % 8) % 8).min(count) as u32;
    let at = put(buffer, at, pattern & ones(head), head);
    let rest = count - u64::from(head);
    let first = (at / 8) as usize;
    let bytes = (rest / 8) as usize;
    buffer[first..first + bytes].fill(pattern as u8);
    let tail = (rest % 8) as u32;
    put(buffer, at + 8 * bytes as u64, pattern & ones(tail), tail)
}

// Reading

impl State {
    /// Reads a value in a static range.
    pub fn read_static(&mut self, data: &[u8], range: u32) -> Result<u32, u32> {
        let mut reader = self.judged(data)?;
        let value = reader.ranged(StaticRange::new(range))?;
        *self = reader.state();
        Ok(value)
    }

    /// Reads a value in a dynamic context.
    pub fn read_dynamic(&mut self, data: &[u8], histogram: &mut Histogram) -> Result<u32, u32> {
        let mut reader = self.judged(data)?;
        let total = judged_total(histogram)?;
        let coded = reader.dynamic(histogram, total)?;
        raise_value(histogram, coded, total);
        *self = reader.state();
        Ok(coded.value)
    }

    /// Reads a plain U8, U16 or U32.
    pub fn read_plain(&mut self, data: &[u8], bytes: u32) -> Result<u32, u32> {
        let mut reader = self.judged(data)?;
        if !is_plain_width(bytes) {
            return Err(VALUE);
        }
        let value = reader.plain(bytes);
        reader.judge_end()?;
        *self = reader.state();
        Ok(value)
    }

    /// A reader at this state; 9, then 18.
    fn judged<'a>(&self, data: &'a [u8]) -> Result<Reader<'a>, u32> {
        if data.len() > MAX_BYTES {
            return Err(LIMIT);
        }
        let limits = Limits::formed(self.low, self.high).ok_or(STATE)?;
        let most = u64::from(u32::MAX);
        if self.pending > most || self.settled > most {
            return Err(STATE);
        }
        let reader = Reader::at(data, limits, self.pending, self.settled);
        let inverted = reader.code < HALF;
        let formed = (limits.low..=limits.high).contains(&reader.code)
            && is_run(data, self.settled + 1, self.pending, inverted);
        formed.then_some(reader).ok_or(STATE)
    }
}

/// Whether `count` bits from a bit on are all set, or all clear. Bits past the
/// end are 0.
fn is_run(data: &[u8], from: u64, count: u64, set: bool) -> bool {
    let end = from + count;
    let length = bit_length(data);
    if count == 0 || (end > length && set) {
        return count == 0;
    }
    let end = end.min(length);
    if from >= end {
        return true;
    }
    let pattern = if set { 0xFF } else { 0 };
    let first = (from / 8) as usize;
    let last = ((end - 1) / 8) as usize;
    let head = 0xFFu8 << (from % 8);
    let tail = 0xFFu8 >> (7 - (end - 1) % 8);
    let fits = |at: usize, mask: u8| (data[at] ^ pattern) & mask == 0;
    if first == last {
        return fits(first, head & tail);
    }
    let middle = &data[first + 1..last];
    fits(first, head) && fits(last, tail) && middle.iter().all(|&byte| byte == pattern)
}

/// The bits of the data from some bit on, zeros past the end.
struct Bits<'a> {
    data: &'a [u8],
    /// The next byte to hold.
    next: usize,
    /// Held bits, the first in the highest place.
    held: u64,
    count: u32,
}

impl<'a> Bits<'a> {
    fn at(data: &'a [u8], position: u64) -> Bits<'a> {
        let mut bits = Bits {
            data,
            next: usize::try_from(position / 8).unwrap_or(data.len()),
            held: 0,
            count: 0,
        };
        bits.take((position % 8) as u32);
        bits
    }

    /// The next bits as a number, the first highest; at most 32.
    #[inline(always)]
    fn take(&mut self, count: u32) -> u32 {
        if self.count < count {
            self.hold();
        }
        let value = self.held >> 1 >> (63 - count);
        self.held <<= count;
        self.count -= count;
        value as u32
    }

    fn hold(&mut self) {
        let rest = self.data.get(self.next..).unwrap_or(&[]);
        let word = match rest.first_chunk() {
            Some(bytes) => u32::from_le_bytes(*bytes),
            None => last_word(rest),
        };
        self.held |= u64::from(word.reverse_bits()) << (32 - self.count);
        self.count += 32;
        self.next += 4;
    }
}

/// Up to three last bytes, with zeros after them.
fn last_word(rest: &[u8]) -> u32 {
    let bytes = rest.iter().rev();
    bytes.fold(0, |word, &byte| word << 8 | u32::from(byte))
}

/// A reader that made its own states. The code word is carried along: its top
/// bit, and the fifteen bits after the pending ones. So pending bits aren't
/// looked at again.
pub(crate) struct Reader<'a> {
    limits: Limits,
    code: u32,
    pending: u64,
    settled: u64,
    end: u64,
    bits: Bits<'a>,
}

impl<'a> Reader<'a> {
    /// The reader at the start of the data.
    pub(crate) fn fresh(data: &'a [u8]) -> Reader<'a> {
        Reader::at(data, Limits::FRESH, 0, 0)
    }

    fn at(data: &'a [u8], limits: Limits, pending: u64, settled: u64) -> Reader<'a> {
        let top = Bits::at(data, settled).take(1);
        let mut bits = Bits::at(data, settled + 1 + pending);
        Reader {
            limits,
            code: top << (WIDTH - 1) | bits.take(WIDTH - 1),
            pending,
            settled,
            end: bit_length(data),
            bits,
        }
    }

    fn state(&self) -> State {
        State::new(self.limits, self.pending, self.settled)
    }

    /// A value in a static range: 10 for range 0, then 1, then 10.
    #[inline]
    pub(crate) fn ranged(&mut self, range: StaticRange) -> Result<u32, u32> {
        if range.count == 0 {
            return Err(VALUE);
        }
        let value = if range.count > MAX_RANGE {
            self.plain(U32_BYTES)
        } else {
            self.uniform(range.count, |product| range.divide(product))
        };
        self.judge_end()?;
        if value >= range.count {
            return Err(VALUE);
        }
        Ok(value)
    }

    /// A value in a dynamic context, whose frequencies the caller raises.
    pub(crate) fn dynamic(&mut self, weights: &Histogram, total: u32) -> Result<Coded, u32> {
        let symbol = self.weighted(weights, total);
        let escaped = symbol == ESCAPE;
        let value = if escaped {
            self.plain(U32_BYTES)
        } else {
            symbol as u32 - 1
        };
        self.judge_end()?;
        if value > MAX_VALUE {
            return Err(VALUE);
        }
        Ok(Coded { value, escaped })
    }

    /// 1 where settled bits pass the end of the data.
    #[inline(always)]
    fn judge_end(&self) -> Result<(), u32> {
        if self.settled > self.end {
            return Err(CUT);
        }
        Ok(())
    }

    fn plain(&mut self, bytes: u32) -> u32 {
        let mut value = 0;
        for byte in 0..bytes {
            let symbol = self.uniform(BYTE_RANGE, |product| product / BYTE_RANGE) as usize;
            value |= u32::from(REVERSED[symbol]) << (8 * byte);
        }
        value
    }

    /// The cumulative frequency at which the code word lies.
    #[inline(always)]
    fn frequency(&self, total: u32) -> u32 {
        (total * (self.code - self.limits.low + 1) - 1) / self.limits.span()
    }

    #[inline(always)]
    fn uniform(&mut self, range: u32, divide: impl Fn(u32) -> u32) -> u32 {
        let value = self.frequency(range);
        self.narrow(value, value + 1, divide);
        value
    }

    fn weighted(&mut self, weights: &Histogram, total: u32) -> usize {
        let frequency = self.frequency(total);
        let mut symbol = 0;
        let mut start = 0;
        while start + weights[symbol] <= frequency {
            start += weights[symbol];
            symbol += 1;
        }
        let end = start + weights[symbol];
        self.narrow(start, end, |product| product / total);
        symbol
    }

    #[inline(always)]
    fn narrow(&mut self, start: u32, end: u32, divide: impl Fn(u32) -> u32) {
        let narrowed = self.limits.narrow(start, end, divide);
        self.limits = narrowed.limits;
        let Narrowed {
            agreed, underflow, ..
        } = narrowed;
        // Underflow bits leave from behind the top bit.
        let shift = agreed + underflow;
        let wide = self.code << shift | self.bits.take(shift);
        self.code = wide >> underflow & HALF | wide & (FULL - HALF);
        let inverted = if agreed > 0 { self.pending } else { 0 };
        self.settled += inverted + u64::from(agreed);
        self.pending = self.pending - inverted + u64::from(underflow);
    }
}

#[cfg(test)]
mod tests {
    use super::*;

    fn state(low: u64, high: u64, pending: u64, settled: u64) -> State {
        State {
            low,
            high,
            pending,
            settled,
        }
    }

    /// A sequence of numbers that looks like chance.
    fn next(seed: &mut u64) -> u64 {
        *seed = seed.wrapping_mul(6364136223846793005).wrapping_add(1);
        *seed >> 33
    }

    #[test]
    fn reversal() {
        assert_eq!((REVERSED[0x01], REVERSED[0x43]), (0x80, 0xC2));
    }

    #[test]
    fn static_examples() {
        let mut buffer = [0xEE; 4];
        let mut writer = Writer::fresh();
        assert_eq!(writer.write_static(&mut buffer, 3, 1), Ok(()));
        assert_eq!(writer.state, state(0x2AAA, 0xD553, 1, 0));
        assert_eq!((writer.compressed, buffer), (1, [0xEE; 4]));
        let mut writer = Writer::fresh();
        assert_eq!(writer.write_static(&mut buffer, 0x3FFF, 5), Ok(()));
        assert_eq!(buffer, [5, 0, 0, 0]);
        assert_eq!(writer.write_static(&mut buffer, 3, 3), Err(VALUE));
        assert_eq!(writer.write_static(&mut buffer, 3, 1), Err(ROOM));
    }

    #[test]
    fn dynamic_examples() {
        let mut buffer = [0xEE; 6];
        let mut writer = Writer::fresh();
        let mut histogram = fresh_histogram();
        assert_eq!(writer.write_dynamic(&mut buffer, &mut histogram, 0), Ok(()));
        assert_eq!(buffer, [0, 0, 0, 0, 0xEE, 0xEE]);
        assert_eq!(histogram[..3], [2, 1, 0]);
        assert_eq!(writer.write_dynamic(&mut buffer, &mut histogram, 0), Ok(()));
        assert_eq!(buffer, [0, 0, 0, 0, 1, 0xEE]);
        assert_eq!(writer.state, state(0x5554, 0xFFFF, 0, 33));
        assert_eq!(histogram[..3], [2, 2, 0]);
    }

    #[test]
    fn other_end() {
        let mut buffer = [0xEE; 4];
        let mut writer = Writer {
            state: state(0x2AAA, 0xD553, 1, 0),
            compressed: 0,
        };
        assert_eq!(writer.end(&mut buffer), Ok(3));
        assert_eq!(buffer, [0xAA, 0xAA, 0, 0xEE]);
        assert_eq!(writer.state, state(0, 0xFFFF, 0, 17));
        assert_eq!(Writer::fresh().end(&mut []), Ok(0));
    }

    #[test]
    fn states_not_formed() {
        let read = |mut state: State| state.read_static(&[0; 4], 3);
        assert_eq!(read(state(0x8000, 0xFFFF, 0, 0)), Err(STATE));
        assert_eq!(read(state(0x4000, 0xBFFF, 0, 0)), Err(STATE));
        assert_eq!(read(state(1, 0xFFFF, 0, 0)), Err(STATE));
        assert_eq!(read(state(0, 1 << 32 | 0xFFFF, 0, 0)), Err(STATE));
        assert_eq!(read(state(0, 0xFFFF, u64::MAX, u64::MAX)), Err(STATE));
        assert_eq!(read(state(0, 0xFFFF, 0, 1000)), Err(CUT));
        let mut writer = Writer::fresh();
        writer.state.settled = u64::MAX;
        writer.state.pending = u64::MAX;
        assert_eq!(writer.write_plain(&mut [0; 4], 1, 0), Err(STATE));
        // b is 1, then 2^32 - 1 zeros, most of them past the end.
        let mut long = state(0, 0xFFFF, u64::from(u32::MAX), 0);
        assert_eq!(long.read_static(&[1, 0], 1), Ok(0));
        assert_eq!(long.read_static(&[1, 4], 1), Err(STATE));
    }

    #[test]
    fn round_trip() {
        let mut seed = 7;
        let mut buffer = vec![0xEE; 1 << 16];
        let mut writer = Writer::fresh();
        let mut histogram = fresh_histogram();
        let values: Vec<(u32, u32)> = (0..12_000)
            .map(|at| {
                let range = [1, 2, 3, 255, 0x3FFE, 0x3FFF, 70_000, 12][at % 8];
                (range, next(&mut seed) as u32 % range)
            })
            .collect();
        for &(range, value) in &values {
            writer.write_static(&mut buffer, range, value).unwrap();
            let small = value % 40;
            writer
                .write_dynamic(&mut buffer, &mut histogram, small)
                .unwrap();
        }
        let used = writer.end(&mut buffer).unwrap();
        let mut reader = State::fresh();
        let mut read = fresh_histogram();
        for &(range, value) in &values {
            assert_eq!(reader.read_static(&buffer[..used], range), Ok(value));
            let small = reader.read_dynamic(&buffer[..used], &mut read);
            assert_eq!(small, Ok(value % 40));
        }
        assert_eq!(read, histogram);
        assert!(buffer[used..].iter().all(|&byte| byte == 0xEE));
    }

    /// After a compressed value a reader before the end always finds low.
    #[test]
    fn usual_end() {
        let mut seed = 3;
        for round in 0..20_000 {
            let low = next(&mut seed) % 0x8000;
            let high = 0x8000 + next(&mut seed) % 0x8000;
            let pending = next(&mut seed) % 20;
            let before = state(low, high, pending, round % 8);
            let mut writer = Writer {
                state: before,
                compressed: 1,
            };
            let mut buffer = [0; 12];
            if let Ok(used) = writer.end(&mut buffer) {
                let judged = before.judged(&buffer[..used]);
                assert_eq!(judged.ok().map(|reader| u64::from(reader.code)), Some(low));
            }
        }
    }
}
