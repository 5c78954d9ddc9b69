//! The proved marker beside the plain one, on the same hand-ins.

use bench::coverage::Coverage;
use bench::hand_ins::random::Random;
use bench::hand_ins::{HandIn, Work, hand_in};
use bench::reference::marking::Verdict;
use bench::reference::repeat::{Kept, repeat_model, repeat_tableau};

use crate::proved::{self, LONGEST_LINE, Numbers, Outcome};

/// So many differences are told one by one.
const TOLD: usize = 20;

/// Marks hand-ins by both and compares the lines and the verdicts as numbers, and judges them against books in slot tables and in journals.
/// Answers what was reached, or how many hand-ins differ.
pub fn compare(seed: u64, number: u64) -> Result<Coverage, String> {
    let mut coverage = Coverage::new();
    let mut differences = 0;
    for i in 0..number {
        let hand_in = hand_in(seed, i);
        let verdict = hand_in.verdict();
        coverage.count(&hand_in, verdict);
        let mut random = Random::new(!seed, i);
        let lines = differing_line(&hand_in, verdict, &mut random);
        let kept = Kept::ALL.iter().find_map(|&kept| differing_outcome(&hand_in, kept));
        if let Some(difference) = lines.or_else(|| differing_numbers(&hand_in, verdict)).or(kept) {
            differences += 1;
            if differences <= TOLD {
                println!("hand-in {i}: {difference}");
            }
        }
    }
    if differences > 0 {
        return Err(format!("{differences} of {number} hand-ins are marked differently"));
    }
    println!("{number} hand-ins: the same line from both, and the same outcome over each kind of book");
    Ok(coverage)
}

/// How the line of the proved marker differs, if it does. What is behind the line in the buffer has to stay, and all of
/// a buffer that is too short.
fn differing_line(hand_in: &HandIn, verdict: Verdict, random: &mut Random) -> Option<String> {
    let line = verdict.to_string();
    let long = random.between(LONGEST_LINE, 2 * LONGEST_LINE);
    let short = random.below(LONGEST_LINE);
    for size in [long, short] {
        let before: Vec<u8> = (0..size).map(|_| random.byte()).collect();
        let mut out = before.clone();
        let length = proved::mark(hand_in, &mut out);
        let written = if size < LONGEST_LINE { "" } else { &line };
        let wanted = [written.as_bytes(), &before[written.len()..]].concat();
        if length != written.len() || out != wanted {
            let told = String::from_utf8_lossy(&out[..length.min(size)]).into_owned();
            return Some(format!("plain {line:?}, proved {told:?} in a buffer of {size} bytes"));
        }
    }
    None
}

/// How the verdict as numbers differs, if it does.
fn differing_numbers(hand_in: &HandIn, verdict: Verdict) -> Option<String> {
    let (plain, proved) = (Numbers::from(verdict), proved::judge(hand_in));
    (plain != proved).then(|| format!("plain {plain:?}, proved {proved:?}"))
}

/// How the outcome over a kind of book differs from that of the plain judge, if it does.
fn differing_outcome(hand_in: &HandIn, kept: Kept) -> Option<String> {
    let plain = Outcome::from(repeated(hand_in, kept, 0));
    let proved = proved::repeat(kept, 0, hand_in);
    (plain != proved).then(|| format!("plain {plain:?}, proved {proved:?} over {kept:?}"))
}

/// The plain judge, so many times and once more.
pub fn repeated(hand_in: &HandIn, kept: Kept, times: u32) -> Verdict {
    match &hand_in.work {
        Work::Tableau { steps } => repeat_tableau(kept, times, &hand_in.book, steps),
        Work::Model { interpretation, pairs } => repeat_model(kept, times, &hand_in.book, interpretation, pairs),
    }
}
