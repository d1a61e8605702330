//! Differential runs: ours, a plain model of document 01 and the Rust, on the same inputs. See host/compare/README.md.

mod again;
mod families;
mod fault;
mod links;
mod rebuild;
mod runner;
mod rust;
mod scenario;
mod self_test;
mod shrink;
mod summary;
mod vast;

use std::process::ExitCode;
use std::time::{Duration, Instant};

use families::Family;
use runner::{Disagreement, Runner};
use scenario::Scenario;
use self_test::Findings;
use summary::Tally;

const USAGE: &str = "\
differential [--seed N] [--count N | --seconds N] [--family NAME]
differential --sample        a fixed sample of every family, for a gate
differential --self-test     puts faults into ours; each must be found
differential --vast          joins that end where 32 bits do: takes 4 GiB
differential --list          the families";

/// Disagreements of a family after which it is left.
const ENOUGH: u64 = 3;

/// How much of each family is run.
#[derive(Clone, Copy)]
enum Extent {
    Count(u64),
    Time(Duration),
    Sample,
}

impl Extent {
    /// Inputs below `index` are enough of a family.
    fn is_reached(self, family: &Family, index: u64, begun: Instant) -> bool {
        match self {
            Self::Count(count) => index >= count,
            Self::Sample => index >= family.sample,
            // The clock is not asked each time.
            Self::Time(time) => index.is_multiple_of(16) && begun.elapsed() >= time,
        }
    }

    /// The part of one among some families: they share the time.
    fn divided(self, families: usize) -> Self {
        match self {
            Self::Time(time) => Self::Time(time / families as u32),
            extent => extent,
        }
    }
}

struct Options {
    seed: u64,
    extent: Extent,
    family: Option<String>,
}

enum Command {
    Run(Options),
    SelfTest,
    Vast,
    List,
}

fn main() -> ExitCode {
    match read_arguments(std::env::args().skip(1)) {
        None => {
            eprintln!("{USAGE}");
            ExitCode::from(2)
        }
        Some(Command::List) => {
            for family in families::all() {
                println!("{:8} {}", family.name, family.about);
            }
            ExitCode::SUCCESS
        }
        Some(Command::SelfTest) => tell(&self_test::run(), "faults", "not found"),
        Some(Command::Vast) => tell(&vast::run(), "answers", "wrong"),
        Some(Command::Run(options)) => run(&options),
    }
}

fn read_arguments(mut arguments: impl Iterator<Item = String>) -> Option<Command> {
    let mut options = Options {
        seed: 1,
        extent: Extent::Count(100_000),
        family: None,
    };
    let mut command = None;
    while let Some(argument) = arguments.next() {
        let mut number = || arguments.next()?.parse::<u64>().ok();
        match argument.as_str() {
            "--seed" => options.seed = number()?,
            "--count" => options.extent = Extent::Count(number()?),
            "--seconds" => options.extent = Extent::Time(Duration::from_secs(number()?)),
            "--sample" => options.extent = Extent::Sample,
            "--family" => options.family = Some(arguments.next()?),
            "--self-test" => command = Some(Command::SelfTest),
            "--vast" => command = Some(Command::Vast),
            "--list" => command = Some(Command::List),
            _ => return None,
        }
    }
    Some(command.unwrap_or(Command::Run(options)))
}

fn tell(findings: &Findings, of_what: &str, how: &str) -> ExitCode {
    for missed in &findings.missed {
        println!("{how}: {missed}");
    }
    let (all, missed) = (findings.faults, findings.missed.len());
    println!("{all} {of_what}, {missed} {how}");
    exit_code(all > 0 && missed == 0)
}

fn run(options: &Options) -> ExitCode {
    let is_chosen = |family: &Family| {
        let name = options.family.as_deref();
        name.is_none_or(|name| name == family.name)
    };
    let chosen: Vec<_> = families::all().into_iter().filter(is_chosen).collect();
    if chosen.is_empty() {
        eprintln!("{USAGE}");
        return ExitCode::from(2);
    }
    let extent = options.extent.divided(chosen.len());
    let tallies: Vec<_> = chosen
        .iter()
        .map(|family| run_family(family, options.seed, extent))
        .collect();
    summary::print(&tallies);
    exit_code(tallies.iter().all(|tally| tally.disagreements == 0))
}

fn exit_code(success: bool) -> ExitCode {
    if success {
        ExitCode::SUCCESS
    } else {
        ExitCode::FAILURE
    }
}

fn run_family(family: &Family, seed: u64, extent: Extent) -> Tally {
    let mut tally = Tally::new(family.name, family.subject);
    let mut runner = Runner::default();
    let begun = Instant::now();
    for index in 0..family.total().unwrap_or(u64::MAX) {
        if extent.is_reached(family, index, begun) || tally.disagreements >= ENOUGH {
            break;
        }
        let scenario = family.scenario(seed, index);
        run_scenario(&mut runner, &mut tally, family, seed, &scenario);
        let lent = runner.lent();
        if let Some(tightened) = family.tightened(scenario, lent, seed, index) {
            run_scenario(&mut runner, &mut tally, family, seed, &tightened);
        }
    }
    tally
}

fn run_scenario(
    runner: &mut Runner,
    tally: &mut Tally,
    family: &Family,
    seed: u64,
    scenario: &Scenario,
) {
    match runner.run(scenario) {
        Ok(outcome) => tally.add(&outcome),
        Err(disagreement) => {
            tally.add_disagreement();
            report(family, seed, scenario, &disagreement);
        }
    }
}

fn report(family: &Family, seed: u64, scenario: &Scenario, disagreement: &Disagreement) {
    println!("DISAGREEMENT: family {}, seed {seed}", family.name);
    println!("{scenario}\n{disagreement}");
    let smallest = shrink::shrink(scenario.clone());
    if let Err(disagreement) = Runner::default().run(&smallest) {
        println!("smallest:\n{smallest}\n{disagreement}\n");
    }
}
