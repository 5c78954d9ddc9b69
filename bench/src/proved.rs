//! The proved marker and judge, by their C calls.
#![allow(unsafe_code)]

use bench::hand_ins::{HandIn, Work};
use bench::reference::marking::Verdict;
use bench::reference::repeat::Kept;

/// So many bytes hold every line.
pub const LONGEST_LINE: usize = 33;

// As the crates `vuhlaten` and `repeats` export them; nothing compares the declarations.
unsafe extern "C" {
    fn vuhlaten_mark_tableau(
        book: *const u8,
        book_length: usize,
        steps: *const u8,
        steps_length: usize,
        out: *mut u8,
        out_length: usize,
    ) -> usize;

    fn vuhlaten_mark_model(
        book: *const u8,
        book_length: usize,
        model: *const u8,
        model_length: usize,
        pairs: *const u8,
        pairs_length: usize,
        out: *mut u8,
        out_length: usize,
    ) -> usize;

    fn vuhlaten_judge_tableau(book: *const u8, book_length: usize, steps: *const u8, steps_length: usize) -> Numbers;

    fn vuhlaten_judge_model(
        book: *const u8,
        book_length: usize,
        model: *const u8,
        model_length: usize,
        pairs: *const u8,
        pairs_length: usize,
    ) -> Numbers;

    fn vuhlaten_repeat_tableau(
        kept: u8,
        times: u32,
        book: *const u8,
        book_length: usize,
        steps: *const u8,
        steps_length: usize,
    ) -> Outcome;

    fn vuhlaten_repeat_model(
        kept: u8,
        times: u32,
        book: *const u8,
        book_length: usize,
        model: *const u8,
        model_length: usize,
        pairs: *const u8,
        pairs_length: usize,
    ) -> Outcome;
}

/// `struct vuhlaten_verdict` of the header.
#[repr(C)]
#[derive(Clone, Copy, Debug, PartialEq, Eq)]
pub struct Numbers {
    kind: u32,
    number: u32,
    place: u32,
    count: u32,
}

impl From<Verdict> for Numbers {
    fn from(verdict: Verdict) -> Numbers {
        match verdict {
            Verdict::Closed { entries } => Numbers { kind: 1, number: 0, place: 0, count: entries as u32 },
            Verdict::Satisfied { elements } => Numbers { kind: 2, number: 0, place: 0, count: elements as u32 },
            Verdict::Refused(refusal) => {
                Numbers { kind: 3, number: refusal.why.number(), place: refusal.place as u32, count: 0 }
            }
        }
    }
}

/// What came of a hand-in: 0 where there was no memory, 1 and how many entries or elements, or 2 with the number and the
/// place of the refusal.
#[repr(C)]
#[derive(Clone, Copy, Debug, PartialEq, Eq)]
pub struct Outcome {
    kind: u32,
    number: u32,
    place: usize,
}

impl From<Verdict> for Outcome {
    fn from(verdict: Verdict) -> Outcome {
        match verdict {
            Verdict::Closed { entries: number } | Verdict::Satisfied { elements: number } => {
                Outcome { kind: 1, number: number as u32, place: 0 }
            }
            Verdict::Refused(refusal) => Outcome { kind: 2, number: refusal.why.number(), place: refusal.place },
        }
    }
}

/// Writes the line of the verdict into the buffer and answers its length, or 0 where the buffer is too short.
pub fn mark(hand_in: &HandIn, out: &mut [u8]) -> usize {
    let book = &hand_in.book;
    // SAFETY: each pointer with its length is those of one slice, borrowed for the call, and not null.
    match &hand_in.work {
        Work::Tableau { steps } => unsafe {
            vuhlaten_mark_tableau(book.as_ptr(), book.len(), steps.as_ptr(), steps.len(), out.as_mut_ptr(), out.len())
        },
        Work::Model { interpretation, pairs } => unsafe {
            vuhlaten_mark_model(
                book.as_ptr(),
                book.len(),
                interpretation.as_ptr(),
                interpretation.len(),
                pairs.as_ptr(),
                pairs.len(),
                out.as_mut_ptr(),
                out.len(),
            )
        },
    }
}

/// The verdict as numbers.
pub fn judge(hand_in: &HandIn) -> Numbers {
    let book = &hand_in.book;
    // SAFETY: as above.
    match &hand_in.work {
        Work::Tableau { steps } => unsafe {
            vuhlaten_judge_tableau(book.as_ptr(), book.len(), steps.as_ptr(), steps.len())
        },
        Work::Model { interpretation, pairs } => unsafe {
            vuhlaten_judge_model(
                book.as_ptr(),
                book.len(),
                interpretation.as_ptr(),
                interpretation.len(),
                pairs.as_ptr(),
                pairs.len(),
            )
        },
    }
}

/// Judges a hand-in against a book that is kept in a given way, so many times and once more. All bytes are taken, however
/// many.
pub fn repeat(kept: Kept, times: u32, hand_in: &HandIn) -> Outcome {
    let book = &hand_in.book;
    let kept = match kept {
        Kept::Sealed => 0,
        Kept::SlotTable => 1,
        Kept::Journal => 2,
    };
    // SAFETY: as above.
    match &hand_in.work {
        Work::Tableau { steps } => unsafe {
            vuhlaten_repeat_tableau(kept, times, book.as_ptr(), book.len(), steps.as_ptr(), steps.len())
        },
        Work::Model { interpretation, pairs } => unsafe {
            vuhlaten_repeat_model(
                kept,
                times,
                book.as_ptr(),
                book.len(),
                interpretation.as_ptr(),
                interpretation.len(),
                pairs.as_ptr(),
                pairs.len(),
            )
        },
    }
}
