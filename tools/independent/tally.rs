//! How often each function gave each number.

/// Numbers that are given back: 0 to 18.
const NUMBERS: usize = 19;

macro_rules! functions {
    ($($function:ident $name:literal)*) => {
        #[derive(Clone, Copy, PartialEq, Eq)]
        pub enum Function { $($function),* }

        const FUNCTIONS: &[Function] = &[$(Function::$function),*];

        impl Function {
            pub fn name(self) -> &'static str {
                match self { $(Function::$function => $name),* }
            }
        }
    };
}

functions! {
    Header "header"
    Walk "walk"
    Listing "listing"
    Declaration "declaration"
    ReadMesh "read_mesh"
    WriterFresh "writer_fresh"
    ReaderFresh "reader_fresh"
    HistogramFresh "histogram_fresh"
    WriteStatic "write_static"
    WriteDynamic "write_dynamic"
    WritePlain "write_plain"
    WriteEnd "write_end"
    ReadStatic "read_static"
    ReadDynamic "read_dynamic"
    ReadPlain "read_plain"
    ReadClimb "read_climb"
    Up "up"
    Down "down"
    Steps "steps"
}

#[derive(Clone)]
pub struct Tally {
    given: Vec<[u64; NUMBERS]>,
}

impl Tally {
    pub fn new() -> Tally {
        Tally {
            given: vec![[0; NUMBERS]; FUNCTIONS.len()],
        }
    }

    pub fn count(&mut self, function: Function, number: u32) {
        self.given[function as usize][number as usize] += 1;
    }

    pub fn add(&mut self, other: &Tally) {
        for (row, more) in self.given.iter_mut().zip(&other.given) {
            row.iter_mut()
                .zip(more)
                .for_each(|(sum, count)| *sum += count);
        }
    }

    fn all(&self) -> [u64; NUMBERS] {
        let mut all = [0; NUMBERS];
        for row in &self.given {
            all.iter_mut()
                .zip(row)
                .for_each(|(sum, count)| *sum += count);
        }
        all
    }

    /// A row for each function: its calls, then how often each number came.
    pub fn print(&self) {
        println!("{:16} {:>9}  number: how often", "function", "calls");
        for (function, row) in FUNCTIONS.iter().zip(&self.given) {
            print_row(function.name(), row);
        }
        print_row("all", &self.all());
    }
}

fn print_row(name: &str, row: &[u64; NUMBERS]) {
    let calls: u64 = row.iter().sum();
    print!("{name:16} {calls:9} ");
    for (number, count) in row.iter().enumerate().filter(|(_, &count)| count > 0) {
        print!(" {number}: {count}");
    }
    println!();
}
