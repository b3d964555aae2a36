//! The coder: numbers written one by one, and read back.

use super::{grouped, print_heading, print_row, ratio, Best, ROUNDS};
use independent::coder::{fresh_histogram, Histogram, State, Writer};
use sides::{library, READER_WORDS, RESULT_WORDS, WRITER_WORDS};

const NUMBERS: usize = 200_000;
/// Bytes; more than the numbers take.
const BUFFER: usize = 1024 * 1024;
const FILLED: u8 = 0xFF;
const U32_BYTES: u32 = 4;
/// Bits that wait for the next settled one in the long run: 100 Mi.
const PENDING: u64 = 100 * 1024 * 1024;
/// Bytes; more than that run takes.
const PENDING_BUFFER: usize = 14 * 1024 * 1024;
const HIGH_LIMIT: u64 = 0xFFFF;
/// Rates are in millions a second, and times in microseconds.
const MILLION: f64 = 1e6;

const FIRST_SEED: u32 = 12345;
const SEED_FACTOR: u32 = 1_664_525;
const SEED_STEP: u32 = 1_013_904_223;

#[derive(Clone, Copy)]
enum Context {
    Static(u32),
    Dynamic(u32),
    Plain,
}

const JOBS: [(&str, Context); 5] = [
    ("static 256", Context::Static(256)),
    ("static 5,000", Context::Static(5000)),
    ("static 3", Context::Static(3)),
    ("dynamic, 8 values", Context::Dynamic(8)),
    ("plain U32", Context::Plain),
];

/// The numbers to write: below the bound, or any where they are plain.
fn numbers_of(context: Context) -> Vec<u32> {
    let mut seed = FIRST_SEED;
    let next = |_| {
        seed = seed.wrapping_mul(SEED_FACTOR).wrapping_add(SEED_STEP);
        match context {
            Context::Static(bound) | Context::Dynamic(bound) => (seed >> 16) % bound,
            Context::Plain => seed,
        }
    };
    (0..NUMBERS).map(next).collect()
}

/// One coder: each way starts from a fresh state; writing gives the bytes used, both whether all was granted.
trait Coder {
    fn write(&self, context: Context, numbers: &[u32], buffer: &mut [u8]) -> (usize, bool);
    fn read(&self, context: Context, data: &[u8], numbers: &mut [u32]) -> bool;
}

struct Independent;
struct Library;

fn write_one(
    writer: &mut Writer,
    histogram: &mut Histogram,
    buffer: &mut [u8],
    context: Context,
    number: u32,
) -> bool {
    let written = match context {
        Context::Static(range) => writer.write_static(buffer, range, number),
        Context::Dynamic(_) => writer.write_dynamic(buffer, histogram, number),
        Context::Plain => writer.write_plain(buffer, U32_BYTES, number),
    };
    written.is_ok()
}

impl Coder for Independent {
    fn write(&self, context: Context, numbers: &[u32], buffer: &mut [u8]) -> (usize, bool) {
        let (mut writer, mut histogram) = (Writer::fresh(), fresh_histogram());
        let mut granted = true;
        for &number in numbers {
            granted &= write_one(&mut writer, &mut histogram, buffer, context, number);
        }
        let end = writer.end(buffer);
        (end.unwrap_or(0), granted && end.is_ok())
    }

    fn read(&self, context: Context, data: &[u8], numbers: &mut [u32]) -> bool {
        let (mut state, mut histogram) = (State::fresh(), fresh_histogram());
        let mut granted = true;
        for number in numbers {
            let read = match context {
                Context::Static(range) => state.read_static(data, range),
                Context::Dynamic(_) => state.read_dynamic(data, &mut histogram),
                Context::Plain => state.read_plain(data, U32_BYTES),
            };
            granted &= read.is_ok();
            *number = read.unwrap_or(0);
        }
        granted
    }
}

impl Coder for Library {
    fn write(&self, context: Context, numbers: &[u32], buffer: &mut [u8]) -> (usize, bool) {
        let (mut state, mut histogram) = ([0; WRITER_WORDS], fresh_histogram());
        let mut result = [0; RESULT_WORDS];
        let mut answers =
            library::writer_fresh(&mut state) | library::histogram_fresh(&mut histogram);
        for &number in numbers {
            answers |= match context {
                Context::Static(range) => library::write_static(&mut state, buffer, range, number),
                Context::Dynamic(_) => {
                    library::write_dynamic(&mut state, buffer, &mut histogram, number)
                }
                Context::Plain => library::write_plain(&mut state, buffer, U32_BYTES, number),
            };
        }
        answers |= library::write_end(&mut state, buffer, &mut result);
        (result[1] as usize, answers == 0)
    }

    fn read(&self, context: Context, data: &[u8], numbers: &mut [u32]) -> bool {
        let (mut state, mut histogram) = ([0; READER_WORDS], fresh_histogram());
        let mut result = [0; RESULT_WORDS];
        let mut answers =
            library::reader_fresh(&mut state) | library::histogram_fresh(&mut histogram);
        for number in numbers {
            answers |= match context {
                Context::Static(range) => {
                    library::read_static(&mut state, data, range, &mut result)
                }
                Context::Dynamic(_) => {
                    library::read_dynamic(&mut state, data, &mut histogram, &mut result)
                }
                Context::Plain => library::read_plain(&mut state, data, U32_BYTES, &mut result),
            };
            *number = result[1] as u32;
        }
        answers == 0
    }
}

struct Times {
    write: Best,
    read: Best,
}

impl Times {
    fn new() -> Times {
        Times {
            write: Best::new(),
            read: Best::new(),
        }
    }

    /// Writes and reads back; gives the bytes.
    fn run(&mut self, coder: &impl Coder, context: Context, numbers: &[u32]) -> Vec<u8> {
        let mut buffer = vec![FILLED; BUFFER];
        let mut back = vec![u32::MAX; numbers.len()];
        let (used, written) = self.write.of(|| coder.write(context, numbers, &mut buffer));
        buffer.truncate(used);
        let read = self.read.of(|| coder.read(context, &buffer, &mut back));
        assert!(written && read, "a number is refused");
        assert!(back == numbers, "not the numbers that were written");
        buffer
    }
}

struct Row {
    name: &'static str,
    bytes: usize,
    independent: Times,
    proved: Times,
}

fn run_job((name, context): (&'static str, Context)) -> Row {
    let numbers = numbers_of(context);
    let (mut independent, mut proved) = (Times::new(), Times::new());
    let mut bytes = 0;
    for _ in 0..ROUNDS {
        let due = independent.run(&Independent, context, &numbers);
        let given = proved.run(&Library, context, &numbers);
        assert!(due == given, "the two disagree in the bytes written");
        bytes = given.len();
    }
    Row {
        name,
        bytes,
        independent,
        proved,
    }
}

fn print_ways(title: &str, rows: &[Row], way: fn(&Times) -> &Best) {
    let columns = [
        "Numbers",
        "Bytes",
        "Independent, millions a second",
        "Library",
        "Time library / independent",
    ];
    print_heading(title, &columns);
    for row in rows {
        let (due, given) = (way(&row.independent), way(&row.proved));
        let millions = |best: &Best| format!("{:.1}", NUMBERS as f64 / MILLION / best.seconds());
        print_row(&[
            row.name.to_string(),
            grouped(row.bytes as u64),
            millions(due),
            millions(given),
            ratio(due, given),
        ]);
    }
    println!();
}

/// One call in range 2 that settles a bit and all that are pending: by turns a 0 before ones, and a 1 before zeros.
fn print_pending() {
    let (mut independent, mut proved) = (Best::new(), Best::new());
    let mut due = vec![FILLED; PENDING_BUFFER];
    let mut given = due.clone();
    for value in [0, 1].into_iter().cycle().take(2 * ROUNDS) {
        let state = State {
            low: 0,
            high: HIGH_LIMIT,
            pending: PENDING,
            settled: 0,
        };
        let mut writer = Writer {
            state,
            compressed: 1,
        };
        let mut words = [0, HIGH_LIMIT, PENDING, 0, 1];
        let written = independent.of(|| writer.write_static(&mut due, 2, value));
        let answer = proved.of(|| library::write_static(&mut words, &mut given, 2, value));
        assert!(written.is_ok() && answer == 0, "the run is refused");
        assert!(words[3] == writer.state.settled, "not the bits settled");
        assert!(due == given, "the two disagree in the bytes written");
    }
    let columns = [
        "Bits pending",
        "Independent, µs",
        "Library, µs",
        "Time library / independent",
    ];
    print_heading("One call that settles them", &columns);
    let micros = |best: &Best| grouped((best.seconds() * MILLION).round() as u64);
    print_row(&[
        grouped(PENDING),
        micros(&independent),
        micros(&proved),
        ratio(&independent, &proved),
    ]);
    println!();
}

pub fn print_tables() {
    let rows = JOBS.map(run_job);
    print_ways("Decode", &rows, |times| &times.read);
    print_ways("Encode", &rows, |times| &times.write);
    print_pending();
}
