//! Where the Rust and this project part, kept as data.
//!
//! A line of reference/differences.txt is
//! `NAME | NUMBER | ARCH | SHEET => ANSWER`: this project's refusal (0 for
//! none), the architecture's name, a sheet as text, and the Rust's answer.
//! Empty lines and lines that start with `#` say nothing.

use crate::{
    AARCH64, Answer, Call, DEPARTURES, Departure, TextStep, X64, X86, added_refusal_of_text,
    first_departure, read_text, run_steps,
};

/// The symbols that are there to be named.
const SYMBOLS: u32 = 1;

pub struct Difference {
    pub name: String,
    /// The refusal that this project answers with; 0 where it answers none.
    pub number: u32,
    pub arch: String,
    pub sheet: String,
    /// What the Rust is held to answer.
    pub answer: String,
    steps: Vec<TextStep>,
}

impl Difference {
    /// What the Rust answers now.
    pub fn run(&self) -> Answer {
        run_steps(self.arch_number(), SYMBOLS, &self.steps)
    }

    /// Whether the screen of the stored recordings turns this one away by
    /// the number given. Numbers 0, 13 and 18 are not added: there the
    /// finish amid the calls is what the screen refuses, by 4. A number that
    /// the screen does not know is that of a departure.
    pub fn is_screened(&self) -> bool {
        let arch = self.arch_number();
        match (
            added_refusal_of_text(arch, SYMBOLS, &self.steps),
            self.number,
        ) {
            (Some(4), 0 | 13 | 18) | (None, 0) => true,
            (None, _) => first_departure(DEPARTURES, arch, SYMBOLS, &self.calls()).is_some(),
            (number, kept) => number == Some(kept),
        }
    }

    /// Whether this is the line that shows a departure.
    pub fn shows(&self, departure: &Departure) -> bool {
        let is_met = || (departure.is_met)(self.arch_number(), SYMBOLS, &self.calls());
        self.name == departure.name && is_met()
    }

    /// The calls, without the finishes amid them.
    fn calls(&self) -> Vec<Call<'static>> {
        let calls = self.steps.iter().filter_map(TextStep::call);
        calls.cloned().collect()
    }

    fn arch_number(&self) -> u32 {
        arch_number(&self.arch).expect("checked when read")
    }
}

/// Reads the file, or says which line is wrong.
pub fn read_differences(text: &str) -> Result<Vec<Difference>, String> {
    text.lines()
        .enumerate()
        .filter(|(_, line)| !line.is_empty() && !line.starts_with('#'))
        .map(|(i, line)| read_line(line).map_err(|error| format!("line {}: {error}", i + 1)))
        .collect()
}

fn read_line(line: &str) -> Result<Difference, String> {
    let (left, answer) = line.split_once("=>").ok_or("no answer")?;
    let parts: Vec<&str> = left.split('|').map(str::trim).collect();
    let [name, number, arch, sheet] = parts[..] else {
        return Err("not four parts before the answer".into());
    };
    arch_number(arch).ok_or_else(|| format!("no architecture is named {arch}"))?;
    Ok(Difference {
        name: name.into(),
        number: number.parse().map_err(|_| "no number of a refusal")?,
        arch: arch.into(),
        sheet: sheet.into(),
        answer: answer.trim().into(),
        steps: read_text(sheet).map_err(|error| error.sentence)?.calls,
    })
}

fn arch_number(name: &str) -> Option<u32> {
    match name {
        "X86" => Some(X86),
        "X64" => Some(X64),
        "RISCV64" => Some(4),
        "AArch64" => Some(AARCH64),
        _ => None,
    }
}
