//! How long the proved marker takes, beside the plain one.

use std::hint::black_box;

use bench::hand_ins::HandIn;
use bench::hand_ins::random::Random;
use bench::reference::repeat::Kept;
use bench::reference::sealed::SealedBook;
use bench::workloads::{closed_tableau, contradictory_book, largest_model};

use crate::clock;
use crate::compare::repeated;
use crate::proved::{self, Outcome};

/// Steps of the tableaux that are measured.
const STEPS: [usize; 5] = [8, 64, 512, 4_096, 8_192];

/// Books that the tableaux stand on: nodes and entries.
const BOOKS: [(usize, usize); 2] = [(24, 12), (512, 256)];

/// Each is measured in so many turns, the one first that was second in the turn before.
const TURNS: usize = 25;

/// A turn is to take so many seconds at least.
const TURN: f64 = 0.002;

/// Something that both markers do again and again.
struct Task<'a> {
    /// Does it so many times and once more.
    proved: Box<dyn Fn(u32) + 'a>,
    plain: Box<dyn Fn(u32) + 'a>,
}

/// Seconds for one time, in the median.
struct Measured {
    proved: f64,
    plain: f64,
}

impl Measured {
    fn ratio(&self) -> f64 {
        self.proved / self.plain
    }
}

fn seconds(work: &dyn Fn(u32), times: u32) -> f64 {
    let start = clock::seconds();
    work(times);
    clock::seconds() - start
}

fn median(mut values: Vec<f64>) -> f64 {
    values.sort_by(f64::total_cmp);
    values[values.len() / 2]
}

/// How often it has to be done for a turn, whose start may take some time by itself.
fn times_of(work: &dyn Fn(u32)) -> u32 {
    let mut times = 1;
    loop {
        let (alone, all) = (seconds(work, 0), seconds(work, times));
        if all >= TURN && all >= 10.0 * alone || times > 1 << 24 {
            return times;
        }
        times *= 2;
    }
}

fn measure(task: &Task) -> Measured {
    let times = times_of(&task.proved).max(times_of(&task.plain));
    let (mut proved, mut plain) = (Vec::new(), Vec::new());
    // one time is what many take beyond none
    let one = |work: &dyn Fn(u32)| (seconds(work, times) - seconds(work, 0)) / f64::from(times);
    for turn in 0..TURNS {
        if turn % 2 == 0 {
            proved.push(one(&task.proved));
            plain.push(one(&task.plain));
        } else {
            plain.push(one(&task.plain));
            proved.push(one(&task.proved));
        }
    }
    Measured { proved: median(proved), plain: median(plain) }
}

/// The marking of a whole hand-in, from its bytes to its line.
fn whole(hand_in: &HandIn) -> Task<'_> {
    Task {
        proved: Box::new(move |times| {
            for _ in 0..=times {
                let mut out = [0; proved::LONGEST_LINE];
                proved::mark(black_box(hand_in), &mut out);
                black_box(out);
            }
        }),
        plain: Box::new(move |times| {
            for _ in 0..=times {
                let mut out = [0; proved::LONGEST_LINE];
                let line = black_box(hand_in).verdict().to_string();
                out[..line.len()].copy_from_slice(line.as_bytes());
                black_box(out);
            }
        }),
    }
}

/// The judgement alone, against a book that is there already.
fn judged(hand_in: &HandIn, kept: Kept) -> Task<'_> {
    Task {
        proved: Box::new(move |times| {
            black_box(proved::repeat(kept, times, black_box(hand_in)));
        }),
        plain: Box::new(move |times| {
            black_box(repeated(black_box(hand_in), kept, times));
        }),
    }
}

/// The same outcome from both, or there is nothing to measure.
fn agree(hand_in: &HandIn) -> Result<(), String> {
    let verdict = hand_in.verdict();
    for kept in Kept::ALL {
        let outcome = proved::repeat(kept, 1, hand_in);
        if outcome != Outcome::from(verdict) {
            return Err(format!("a hand-in is judged differently over {kept:?}: {verdict:?}, {outcome:?}"));
        }
    }
    Ok(())
}

fn told(kept: Kept) -> &'static str {
    match kept {
        Kept::Sealed => "sealed book",
        Kept::SlotTable => "slot table",
        Kept::Journal => "journal",
    }
}

struct Table<'a> {
    word: &'a str,
    over: Vec<String>,
}

/// The goal: the ratio that a task may have, proved to plain. A journal scans its records, and has more.
const GOAL: f64 = 1.0;
const GOAL_OF_JOURNALS: f64 = 1.5;

/// A ratio may be so much over the goal, since it moves from run to run and with where the linker puts a function.
const NOISE: f64 = 0.15;

impl Table<'_> {
    /// Measures a task. Growth is beside what was measured before.
    fn row(&mut self, name: &str, task: &Task, before: Option<&Measured>) -> Option<Measured> {
        if !name.contains(self.word) {
            return None;
        }
        let measured = measure(task);
        let growth = before.map(|before| (measured.proved / before.proved, measured.plain / before.plain));
        let ratio = measured.ratio();
        let told = match growth {
            Some((proved, plain)) => format!("{proved:>8.2} {plain:>8.2}"),
            None => format!("{:>8} {:>8}", "", ""),
        };
        println!("{name:<44} {:>11.2} {:>11.2} {ratio:>7.2} {told}", measured.proved * 1e6, measured.plain * 1e6);
        let goal = if name.contains("journal") { GOAL_OF_JOURNALS } else { GOAL };
        if ratio > goal + NOISE {
            self.over.push(format!("{}: {ratio:.2}, wanted at most {goal:.2} + {NOISE:.2}", name.trim()));
        }
        Some(measured)
    }
}

/// Measures, and prints a row for each task; with a word, those alone whose row has the word. Answers whether the goal was
/// met.
pub fn speed(seed: u64, word: &str) -> Result<bool, String> {
    println!("Microseconds of processor time, in the median of {TURNS} turns; both in turn, in one process, on the");
    println!("same bytes. Working lists of 4,096 records are lent anew for each whole hand-in, and once for all");
    println!("judgements of a turn; each judgement blanks them, in both. Caches are not cleared between two times.");
    println!("Growth: how many times as long as the row before, whose tableau has so many times fewer steps.");
    println!("{:<44} {:>11} {:>11} {:>7} {:>8} {:>8}", "", "proved", "plain", "ratio", "growth", "plain's");
    let mut table = Table { word, over: Vec::new() };
    for (nodes, entries) in BOOKS {
        let mut random = Random::new(seed, nodes as u64);
        let book = contradictory_book(&mut random, nodes, entries).sealed();
        let hand_ins: Vec<HandIn> = STEPS
            .iter()
            .map(|&count| closed_tableau(seed, &SealedBook::open(&book), entries, count))
            .map(|steps| HandIn::tableau(book.clone(), steps))
            .collect();
        hand_ins.iter().try_for_each(agree)?;
        println!("tableaux over {nodes} nodes and {entries} entries");
        rows(&mut table, &hand_ins, "whole hand-in", &|hand_in| whole(hand_in));
        for kept in Kept::ALL {
            rows(&mut table, &hand_ins, told(kept), &|hand_in| judged(hand_in, kept));
        }
    }
    println!("a model of 32 elements of a book of 512 nodes and 256 entries");
    let model = largest_model(seed);
    agree(&model)?;
    table.row("  model, whole hand-in", &whole(&model), None);
    for kept in Kept::ALL {
        table.row(&format!("  model, {}", told(kept)), &judged(&model, kept), None);
    }
    match &table.over[..] {
        [] => println!("goal met: every ratio is within its goal and the margin for noise"),
        over => println!("goal missed:\n  {}", over.join("\n  ")),
    }
    Ok(table.over.is_empty())
}

fn rows<'a>(table: &mut Table<'_>, hand_ins: &'a [HandIn], name: &str, task: &dyn Fn(&'a HandIn) -> Task<'a>) {
    let mut before: Option<Measured> = None;
    for (hand_in, steps) in hand_ins.iter().zip(STEPS) {
        before = table.row(&format!("  {name}, {steps} steps"), &task(hand_in), before.as_ref());
    }
}
