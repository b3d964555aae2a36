//! What is measured, and how.

pub mod climb;
pub mod coder;
pub mod mesh;
pub mod mesh_file;
mod reading;
pub mod steps;
pub mod walk;

use std::time::Instant;

/// Of so many rounds the best counts.
pub const ROUNDS: usize = 9;

/// The best time so far, in seconds.
pub struct Best(f64);

impl Best {
    pub fn new() -> Best {
        Best(f64::INFINITY)
    }

    pub fn seconds(&self) -> f64 {
        self.0
    }

    pub fn keep(&mut self, seconds: f64) {
        self.0 = self.0.min(seconds);
    }

    /// Runs something and keeps its time if it is the best.
    pub fn of<T>(&mut self, run: impl FnOnce() -> T) -> T {
        let start = Instant::now();
        let given = run();
        self.keep(start.elapsed().as_secs_f64());
        given
    }
}

/// A whole number with a comma between each three digits.
pub fn grouped(number: u64) -> String {
    let digits = number.to_string();
    let mut text = String::new();
    for (at, digit) in digits.chars().enumerate() {
        if at > 0 && (digits.len() - at).is_multiple_of(3) {
            text.push(',');
        }
        text.push(digit);
    }
    text
}

/// So many a second in seconds, in thousands or the like.
fn rate(count: f64, best: &Best) -> String {
    grouped((count / best.seconds()).round() as u64)
}

pub fn ratio(independent: &Best, library: &Best) -> String {
    format!("{:.2}", library.seconds() / independent.seconds())
}

/// Both rates, and the ratio of the times.
pub fn rates(count: f64, independent: &Best, library: &Best) -> [String; 3] {
    [
        rate(count, independent),
        rate(count, library),
        ratio(independent, library),
    ]
}

/// A Markdown table's heading.
pub fn print_heading(title: &str, columns: &[&str]) {
    println!("## {title}\n");
    println!("| {} |", columns.join(" | "));
    println!("|{}", "---|".repeat(columns.len()));
}

pub fn print_row(cells: &[String]) {
    println!("| {} |", cells.join(" | "));
}
