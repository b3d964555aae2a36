//! The walk over files of small blocks.

use super::reading::measure;
use super::{grouped, print_heading, print_row};
use independent::blocks::ROW;
use independent::files::blocks::{large_file, HEAD};

const MIB: usize = 1024 * 1024;
const SIZES: [usize; 5] = [MIB, 2 * MIB, 4 * MIB, 8 * MIB, 16 * MIB];

/// The smallest block is a head alone.
fn run_size(size: usize) {
    let file = large_file(size);
    let measured = measure(|side| side.walk, &file, size / HEAD * ROW);
    let mut cells = vec![grouped(file.len() as u64), grouped(measured.word)];
    cells.extend(measured.cells);
    print_row(&cells);
}

pub fn print_table() {
    let columns = [
        "Bytes",
        "Blocks",
        "Independent MB/s",
        "Library MB/s",
        "Time library / independent",
    ];
    print_heading("The walk", &columns);
    SIZES.into_iter().for_each(run_size);
    println!();
}
