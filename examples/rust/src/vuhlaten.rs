//! The calls of the library, over slices.
#![allow(unsafe_code)]

// As declared in `crates/vuhlaten/include/vuhlaten.h`. The pointer of a slice is never null.
unsafe extern "C" {
    fn vuhlaten_judge_tableau(book: *const u8, book_length: usize, steps: *const u8, steps_length: usize) -> Numbers;

    fn vuhlaten_judge_model(
        book: *const u8,
        book_length: usize,
        model: *const u8,
        model_length: usize,
        pairs: *const u8,
        pairs_length: usize,
    ) -> Numbers;
}

/// `struct vuhlaten_verdict` of the header.
#[repr(C)]
struct Numbers {
    kind: u32,
    number: u32,
    place: u32,
    count: u32,
}

/// The verdict on a hand-in.
#[derive(Clone, Copy, Debug, PartialEq, Eq)]
pub enum Verdict {
    /// A closed tableau, and how many entries it used: no finite preferential model satisfies the book.
    Closed { entries: u32 },
    /// A model of the book, and how many elements it has.
    Satisfied { elements: u32 },
    /// The number and the place of the refusal.
    Refused { number: u32, place: u32 },
}

impl From<Numbers> for Verdict {
    fn from(numbers: Numbers) -> Verdict {
        match numbers.kind {
            1 => Verdict::Closed { entries: numbers.count },
            2 => Verdict::Satisfied { elements: numbers.count },
            3 => Verdict::Refused { number: numbers.number, place: numbers.place },
            kind => unreachable!("the library has no verdict of kind {kind}"),
        }
    }
}

/// Marks a tableau against a sealed book. Only the first 65,535 bytes of each count.
pub fn mark_tableau(book: &[u8], steps: &[u8]) -> Verdict {
    // SAFETY: each pointer with its length is that of a slice, which is borrowed for the call.
    unsafe { vuhlaten_judge_tableau(book.as_ptr(), book.len(), steps.as_ptr(), steps.len()) }.into()
}

/// Marks a model, with its "better" in pairs, against a sealed book. Only the first 65,535 bytes of each count.
pub fn mark_model(book: &[u8], model: &[u8], pairs: &[u8]) -> Verdict {
    // SAFETY: as above.
    unsafe {
        vuhlaten_judge_model(book.as_ptr(), book.len(), model.as_ptr(), model.len(), pairs.as_ptr(), pairs.len())
    }
    .into()
}
