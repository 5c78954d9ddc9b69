//! Whether a hand-in is a closed tableau over a book.

use super::book::Book;
use super::refusal::{Refusal, Why};
use super::tableau::{Lists, Step, Tableau, Used};

pub const STEP_BYTES: usize = 5;
pub const STEP_LIMIT: usize = 8_192;

/// Accepts a closed tableau and answers the entries that it names. The lists are blank afterwards.
pub fn refute(book: &impl Book, steps: &[u8], lists: Lists<'_>) -> Result<Used, Refusal> {
    let mut tableau = Tableau::new(book, lists);
    let answer = work(&mut tableau, steps);
    tableau.blank();
    answer
}

fn work(tableau: &mut Tableau<'_, impl Book>, bytes: &[u8]) -> Result<Used, Refusal> {
    let (steps, rest) = bytes.as_chunks::<STEP_BYTES>();
    if !rest.is_empty() || steps.len() > STEP_LIMIT {
        return Err(Why::StepsLength.at(bytes.len()));
    }
    for (i, step) in steps.iter().enumerate() {
        tableau.step(Step::from_bytes(step)).map_err(|why| why.at(i))?;
    }
    if !tableau.is_closed() {
        return Err(Why::NotClosed.at(steps.len()));
    }
    Ok(tableau.used())
}
