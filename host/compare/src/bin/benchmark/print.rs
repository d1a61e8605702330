//! The tables, in Markdown.

use crate::measure::Measured;
use crate::rows::Row;

/// Prints rows as they are measured, and keeps them for docs/SPEED.md.
pub struct Table {
    rows: Vec<String>,
    notes: Vec<String>,
}

impl Table {
    pub fn start() -> Self {
        println!("| input | ours | the Rust | ours / Rust | quartiles | runs |");
        println!("|---|---:|---:|---:|---:|---:|");
        Self {
            rows: Vec::new(),
            notes: Vec::new(),
        }
    }

    pub fn row(&mut self, row: &Row, measured: &Measured, note: Option<String>) {
        let one = |time: f64| readable(time / row.batch as f64);
        let (ours, other) = (one(measured.first), one(measured.second));
        let [lower, ratio, upper] = measured.ratio;
        let [lower, ratio, upper] = [lower, ratio, upper].map(short);
        let printed = format!("| {} | {ours} | {other} | {ratio} |", row.about);
        let runs = match (row.batch, measured.alone) {
            (1, 0) => measured.runs.to_string(),
            (1, alone) => format!("{}, and {alone} of ours", measured.runs),
            (batch, _) => format!("{} of {batch}", measured.runs),
        };
        println!("{printed} {lower} to {upper} | {runs} |");
        self.rows.push(printed);
        self.notes.extend(note);
    }

    pub fn passed_over(&mut self, row: &Row, why: &str) {
        self.notes
            .push(format!("{} is passed over: {why}", row.name));
    }

    /// The same rows as docs/SPEED.md has them, and what else there is to say.
    pub fn end(&self) {
        println!("\n| input | ours | the Rust | ours / Rust |");
        println!("|---|---:|---:|---:|");
        for row in &self.rows {
            println!("{row}");
        }
        for note in &self.notes {
            println!("\n{note}.");
        }
    }
}

/// A number with a comma before each three digits.
pub fn grouped(number: usize) -> String {
    match number {
        0..1_000 => number.to_string(),
        _ => format!("{},{:03}", grouped(number / 1_000), number % 1_000),
    }
}

/// A ratio, of which two digits are enough unless there is nothing in them.
fn short(ratio: f64) -> String {
    match ratio {
        ..0.01 => format!("{ratio:.4}"),
        _ => format!("{ratio:.2}"),
    }
}

/// Three digits or so of nanoseconds.
fn readable(nanos: f64) -> String {
    match nanos {
        ..1e3 => format!("{nanos:.0} ns"),
        ..1e6 => format!("{:.1} µs", nanos / 1e3),
        ..1e9 => format!("{:.2} ms", nanos / 1e6),
        _ => format!("{:.2} s", nanos / 1e9),
    }
}
