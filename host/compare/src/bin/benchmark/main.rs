//! Ours against the Rust, in one process and on the same inputs. See host/compare/README.md for what is timed.

mod editor;
mod inputs;
mod joins;
mod library;
mod measure;
mod print;
mod relas;
mod rows;
mod run;
mod sides;

use std::process::ExitCode;
use std::time::Duration;

use measure::Effort;
use print::Table;
use rows::{ROWS, Row};

const USAGE: &str = "benchmark [--quick] [--list] [ROW ..]";

fn main() -> ExitCode {
    let mut quick = false;
    let mut chosen = Vec::new();
    for argument in std::env::args().skip(1) {
        match argument.as_str() {
            "--quick" => quick = true,
            "--list" => {
                ROWS.iter()
                    .for_each(|row| println!("{:25} {}", row.name, row.about));
                return ExitCode::SUCCESS;
            }
            name if ROWS.iter().any(|row| row.name == name) => chosen.push(argument),
            _ => {
                eprintln!("{USAGE}");
                return ExitCode::from(2);
            }
        }
    }
    let mut table = Table::start();
    for row in ROWS {
        if chosen.is_empty() || chosen.iter().any(|name| name == row.name) {
            match run::measure(&row, effort(&row, quick)) {
                Ok((measured, note)) => table.row(&row, &measured, note),
                Err(why) => table.passed_over(&row, &why),
            }
        }
    }
    table.end();
    ExitCode::SUCCESS
}

fn effort(row: &Row, quick: bool) -> Effort {
    if quick {
        Effort {
            time: Duration::from_millis(200),
            fewest: 1,
            most: 101,
            alone: 0,
        }
    } else {
        Effort {
            time: Duration::from_secs(3),
            fewest: row.fewest,
            most: 1_501,
            alone: row.alone,
        }
    }
}
