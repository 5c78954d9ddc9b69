//! Commands over random hand-ins. `bench help` lists them.

#[cfg(feature = "proved")]
mod clock;
#[cfg(feature = "proved")]
mod compare;
mod folders;
#[cfg(feature = "proved")]
mod proved;
#[cfg(feature = "proved")]
mod speed;

use std::path::Path;
use std::process::ExitCode;

use bench::coverage::Coverage;
use bench::hand_ins::hand_in;

const HELP: &str = "\
bench coverage        marks random hand-ins by the plain marker, and counts what they reach
bench compare         marks random hand-ins by the plain and by the proved marker, and compares the lines
bench speed [WORD]    measures both; with a word, only the rows that have it; status 3 if the goal is missed
bench hand-ins DIR    writes random hand-ins as folders, each with the line that is expected of the marker

--number N            so many hand-ins
--seed S              the seed that they come from
";

const SEED: u64 = 20_240_229;

struct Options {
    words: Vec<String>,
    seed: u64,
    number: Option<u64>,
}

fn options(arguments: impl Iterator<Item = String>) -> Result<Options, String> {
    let mut options = Options { words: Vec::new(), seed: SEED, number: None };
    let mut arguments = arguments;
    while let Some(argument) = arguments.next() {
        let mut number = || {
            let text = arguments.next().ok_or(format!("{argument} needs a number"))?;
            text.parse().map_err(|_| format!("no number: {text}"))
        };
        match argument.as_str() {
            "--seed" => options.seed = number()?,
            "--number" => options.number = Some(number()?),
            _ => options.words.push(argument),
        }
    }
    Ok(options)
}

fn coverage(seed: u64, number: u64) -> Result<(), String> {
    println!("seed {seed}");
    let mut coverage = Coverage::new();
    for i in 0..number {
        let hand_in = hand_in(seed, i);
        coverage.count(&hand_in, hand_in.verdict());
    }
    print!("{coverage}");
    all_reached(&coverage, number)
}

#[cfg(feature = "proved")]
fn compare(seed: u64, number: u64) -> Result<(), String> {
    println!("seed {seed}");
    let coverage = compare::compare(seed, number)?;
    print!("{coverage}");
    all_reached(&coverage, number)
}

/// So many hand-ins have to reach all that is counted; fewer may miss some.
const REACHING: u64 = 100_000;

fn all_reached(coverage: &Coverage, number: u64) -> Result<(), String> {
    let missing = coverage.missing();
    if missing.is_empty() {
        println!("all reached");
        return Ok(());
    }
    let told = format!("not reached: {}", missing.join("; "));
    if number < REACHING {
        println!("{told}");
        return Ok(());
    }
    Err(told)
}

/// The status of a run that went well and missed the goal.
#[cfg(feature = "proved")]
const GOAL_MISSED: u8 = 3;

#[cfg(feature = "proved")]
fn speed(seed: u64, word: &str) -> Result<ExitCode, String> {
    let is_met = speed::speed(seed, word)?;
    Ok(if is_met { ExitCode::SUCCESS } else { ExitCode::from(GOAL_MISSED) })
}

fn run() -> Result<ExitCode, String> {
    let options = options(std::env::args().skip(1))?;
    let words: Vec<&str> = options.words.iter().map(String::as_str).collect();
    match words[..] {
        #[cfg(feature = "proved")]
        ["speed"] => return speed(options.seed, ""),
        #[cfg(feature = "proved")]
        ["speed", word] => return speed(options.seed, word),
        ["coverage"] => coverage(options.seed, options.number.unwrap_or(REACHING))?,
        #[cfg(feature = "proved")]
        ["compare"] => compare(options.seed, options.number.unwrap_or(REACHING))?,
        ["hand-ins", folder] => folders::write(Path::new(folder), options.seed, options.number.unwrap_or(1_000))
            .map_err(|error| format!("{folder}: {error}"))?,
        [] | ["help"] => print!("{HELP}"),
        _ => return Err(format!("unknown command\n{HELP}")),
    }
    Ok(ExitCode::SUCCESS)
}

fn main() -> ExitCode {
    match run() {
        Ok(status) => status,
        Err(message) => {
            eprintln!("bench: {message}");
            ExitCode::FAILURE
        }
    }
}
