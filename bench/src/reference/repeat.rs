//! A hand-in judged again and again against one book, which is kept in one of three ways.

use std::hint::black_box;

use super::book::{Book, copy_of};
use super::journal::Journal;
use super::marking::{LIST_RECORDS, Verdict};
use super::order::Pairs;
use super::refusal::Refusal;
use super::refute::refute;
use super::sealed::SealedBook;
use super::show::show;
use super::slot_table::SlotTable;
use super::tableau::{Constraint, Edge, Lists, Split};

/// How the book is kept.
#[derive(Clone, Copy, Debug, PartialEq, Eq)]
pub enum Kept {
    Sealed,
    SlotTable,
    Journal,
}

impl Kept {
    pub const ALL: [Kept; 3] = [Kept::Sealed, Kept::SlotTable, Kept::Journal];
}

/// Judges a tableau so many times, and once more for the verdict.
pub fn repeat_tableau(kept: Kept, times: u32, book: &[u8], steps: &[u8]) -> Verdict {
    let sealed = match SealedBook::read(book) {
        Ok(sealed) => sealed,
        Err(refusal) => return Verdict::Refused(refusal),
    };
    let answer = match kept {
        Kept::Sealed => refuted(&sealed, times, steps),
        Kept::SlotTable => refuted(&copy_of::<SlotTable>(&sealed), times, steps),
        Kept::Journal => refuted(&copy_of::<Journal>(&sealed), times, steps),
    };
    match answer {
        Ok(entries) => Verdict::Closed { entries },
        Err(refusal) => Verdict::Refused(refusal),
    }
}

fn refuted(book: &impl Book, times: u32, steps: &[u8]) -> Result<usize, Refusal> {
    let mut constraints = [Constraint::default(); LIST_RECORDS];
    let mut edges = [Edge::default(); LIST_RECORDS];
    let mut splits = [Split::default(); LIST_RECORDS];
    let mut judge =
        |steps| refute(book, steps, Lists { constraints: &mut constraints, edges: &mut edges, splits: &mut splits });
    for _ in 0..times {
        let _ = black_box(judge(black_box(steps)));
    }
    judge(steps).map(|used| used.count())
}

/// Judges a model so many times, and once more for the verdict.
pub fn repeat_model(kept: Kept, times: u32, book: &[u8], model: &[u8], pairs: &[u8]) -> Verdict {
    match model_answer(kept, times, book, model, pairs) {
        Ok(elements) => Verdict::Satisfied { elements },
        Err(refusal) => Verdict::Refused(refusal),
    }
}

fn model_answer(kept: Kept, times: u32, book: &[u8], model: &[u8], pairs: &[u8]) -> Result<usize, Refusal> {
    let sealed = SealedBook::read(book)?;
    let mut order = Pairs::fresh();
    order.fill(pairs)?;
    match kept {
        Kept::Sealed => satisfied(&sealed, times, model, &order),
        Kept::SlotTable => satisfied(&copy_of::<SlotTable>(&sealed), times, model, &order),
        Kept::Journal => satisfied(&copy_of::<Journal>(&sealed), times, model, &order),
    }
}

fn satisfied(book: &impl Book, times: u32, model: &[u8], order: &Pairs) -> Result<usize, Refusal> {
    let mut list = [0; LIST_RECORDS];
    for _ in 0..times {
        let _ = black_box(show(book, black_box(model), order, &mut list));
    }
    show(book, model, order, &mut list)
}
