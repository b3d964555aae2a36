//! Climb texts, read into a step table.

use super::reading::measure;
use super::steps::ladder;
use super::{grouped, print_heading, print_row};
use independent::files::climb::text_of;
use independent::refusal::MAX_STEPS;

/// Steps, and the moves and new faces of each.
const CASES: [(u32, u32); 3] = [(10, 4), (MAX_STEPS, 4), (MAX_STEPS, 64)];
/// Words of the table past the list.
const SPARE: usize = 7;

fn run_case((steps, each): (u32, u32)) {
    let list = ladder(each, each, steps).list;
    let text = text_of(&list).bytes();
    let measured = measure(|side| side.read_climb, &text, list.len() + SPARE);
    assert_eq!(measured.word, list.len() as u64, "not the whole list");
    let mut cells = [text.len() as u64, u64::from(steps), u64::from(each)]
        .map(grouped)
        .to_vec();
    cells.extend(measured.cells);
    print_row(&cells);
}

pub fn print_table() {
    let columns = [
        "Bytes of the text",
        "Steps",
        "Moves, and new faces, of a step",
        "Independent MB/s",
        "Library MB/s",
        "Time library / independent",
    ];
    print_heading("Climb texts", &columns);
    CASES.into_iter().for_each(run_case);
    println!();
}
