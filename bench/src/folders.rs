//! Hand-ins as folders, for a program that marks the hand-in in its current folder.

use std::fs;
use std::io;
use std::path::Path;

use bench::hand_ins::random::Random;
use bench::hand_ins::{HandIn, Work, hand_in};

/// Writes hand-ins into folders of their own: the files, and `expected`, the verdict line of the plain marker.
pub fn write(folder: &Path, seed: u64, number: u64) -> io::Result<()> {
    for i in 0..number {
        write_one(&folder.join(format!("{i:06}")), &hand_in(seed, i), &mut Random::new(!seed, i))?;
    }
    println!("{number} hand-ins of seed {seed}");
    Ok(())
}

fn write_one(folder: &Path, hand_in: &HandIn, random: &mut Random) -> io::Result<()> {
    fs::create_dir_all(folder)?;
    let write = |name: &str, bytes: &[u8], may_be_missing: bool| {
        // a file that is missing counts as empty
        if bytes.is_empty() && may_be_missing { Ok(()) } else { fs::write(folder.join(name), bytes) }
    };
    write("book.bin", &hand_in.book, random.percent(50))?;
    match &hand_in.work {
        Work::Tableau { steps } => {
            // without steps it would be a model
            write("steps.bin", steps, false)?;
            if random.percent(10) {
                // not looked at, since there are steps
                write("model.bin", &[random.byte()], false)?;
                write("pairs.bin", &[0; 4], false)?;
            }
        }
        Work::Model { interpretation, pairs } => {
            write("model.bin", interpretation, random.percent(50))?;
            write("pairs.bin", pairs, random.percent(50))?;
        }
    }
    fs::write(folder.join("expected"), hand_in.verdict().to_string())
}
