//! Marks the hand-in in the current folder with the library, and prints the line of the verdict.

mod vuhlaten;

use std::fs;
use std::io::{self, ErrorKind};

use vuhlaten::{Verdict, mark_model, mark_tableau};

/// The bytes of a file; empty if it is missing.
fn read(name: &str) -> io::Result<Option<Vec<u8>>> {
    match fs::read(name) {
        Ok(bytes) => Ok(Some(bytes)),
        Err(error) if error.kind() == ErrorKind::NotFound => Ok(None),
        Err(error) => Err(error),
    }
}

fn main() -> io::Result<()> {
    let book = read("book.bin")?.unwrap_or_default();
    let verdict = match read("steps.bin")? {
        Some(steps) => mark_tableau(&book, &steps),
        None => {
            let model = read("model.bin")?.unwrap_or_default();
            let pairs = read("pairs.bin")?.unwrap_or_default();
            mark_model(&book, &model, &pairs)
        }
    };
    match verdict {
        Verdict::Closed { entries } => println!("closed, entries used {entries}"),
        Verdict::Satisfied { elements } => println!("satisfied, elements {elements}"),
        Verdict::Refused { number, place } => println!("refused {number} at {place}"),
    }
    Ok(())
}
