//! Marking: one verdict for a hand-in in bytes.

use std::fmt;

use super::order::Pairs;
use super::records::NODE_LIMIT;
use super::refusal::Refusal;
use super::refute::refute;
use super::sealed::SealedBook;
use super::show::show;
use super::tableau::{Constraint, Edge, Lists, Split};

/// Of each file so many first bytes are the whole.
pub const FILE_LIMIT: usize = 65_535;

/// Records in each working list.
pub const LIST_RECORDS: usize = 4_096;

#[derive(Clone, Copy, Debug, PartialEq, Eq)]
pub enum Verdict {
    Closed { entries: usize },
    Satisfied { elements: usize },
    Refused(Refusal),
}

impl fmt::Display for Verdict {
    fn fmt(&self, f: &mut fmt::Formatter<'_>) -> fmt::Result {
        match self {
            Verdict::Closed { entries } => writeln!(f, "closed, entries used {entries}"),
            Verdict::Satisfied { elements } => writeln!(f, "satisfied, elements {elements}"),
            Verdict::Refused(refusal) => writeln!(f, "{refusal}"),
        }
    }
}

/// The part of a file that counts.
pub fn whole(file: &[u8]) -> &[u8] {
    &file[..file.len().min(FILE_LIMIT)]
}

/// The verdict on a tableau.
pub fn mark_tableau(book: &[u8], steps: &[u8]) -> Verdict {
    match tableau_answer(whole(book), whole(steps)) {
        Ok(entries) => Verdict::Closed { entries },
        Err(refusal) => Verdict::Refused(refusal),
    }
}

fn tableau_answer(book: &[u8], steps: &[u8]) -> Result<usize, Refusal> {
    let book = SealedBook::read(book)?;
    let mut constraints = [Constraint::default(); LIST_RECORDS];
    let mut edges = [Edge::default(); LIST_RECORDS];
    let mut splits = [Split::default(); LIST_RECORDS];
    let lists = Lists { constraints: &mut constraints, edges: &mut edges, splits: &mut splits };
    refute(&book, steps, lists).map(|used| used.count())
}

/// The verdict on a model with its order.
pub fn mark_model(book: &[u8], model: &[u8], pairs: &[u8]) -> Verdict {
    match model_answer(whole(book), whole(model), whole(pairs)) {
        Ok(elements) => Verdict::Satisfied { elements },
        Err(refusal) => Verdict::Refused(refusal),
    }
}

fn model_answer(book: &[u8], model: &[u8], pairs: &[u8]) -> Result<usize, Refusal> {
    let book = SealedBook::read(book)?;
    let mut order = Pairs::fresh();
    order.fill(pairs)?;
    let mut list = [0; LIST_RECORDS];
    show(&book, model, &order, &mut list)
}

const _: () = assert!(NODE_LIMIT <= LIST_RECORDS);
