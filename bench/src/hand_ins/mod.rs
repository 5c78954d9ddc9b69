//! Random hand-ins of all kinds. The seed and the number of a hand-in give it again.

pub mod books;
pub mod damage;
pub mod draft;
pub mod limits;
pub mod models;
pub mod prover;
pub mod random;
pub mod tableaux;

use crate::reference::book::Book;
use crate::reference::interpretation::Interpretation;
use crate::reference::marking::{self, Verdict};
use crate::reference::order::Pairs;
use crate::reference::records::RawEntry;
use crate::reference::sealed::SealedBook;
use crate::reference::show;
use books::Shape;
use draft::Draft;
use random::Random;

/// A book, and what is handed in about it.
#[derive(Clone, Debug, PartialEq, Eq)]
pub struct HandIn {
    pub book: Vec<u8>,
    pub work: Work,
}

#[derive(Clone, Debug, PartialEq, Eq)]
pub enum Work {
    Tableau { steps: Vec<u8> },
    Model { interpretation: Vec<u8>, pairs: Vec<u8> },
}

impl HandIn {
    pub fn tableau(book: Vec<u8>, steps: Vec<u8>) -> HandIn {
        HandIn { book, work: Work::Tableau { steps } }
    }

    pub fn model(book: Vec<u8>, interpretation: Vec<u8>, pairs: Vec<u8>) -> HandIn {
        HandIn { book, work: Work::Model { interpretation, pairs } }
    }

    /// The verdict of the plain marker.
    pub fn verdict(&self) -> Verdict {
        match &self.work {
            Work::Tableau { steps } => marking::mark_tableau(&self.book, steps),
            Work::Model { interpretation, pairs } => marking::mark_model(&self.book, interpretation, pairs),
        }
    }
}

/// The hand-in with this number among those of the seed.
pub fn hand_in(seed: u64, number: u64) -> HandIn {
    let mut random = Random::new(seed, number);
    match random.below(100) {
        0..3 => limits::hand_in(&mut random),
        3..56 => tableau_hand_in(&mut random),
        56..91 => model_hand_in(&mut random),
        91..98 => bad_book_hand_in(&mut random),
        _ => noise_hand_in(&mut random),
    }
}

fn tableau_hand_in(random: &mut Random) -> HandIn {
    let mut draft = if random.percent(65) {
        books::contradictory(random)
    } else {
        let shape = Shape::any(random);
        books::lawful(random, &shape)
    };
    let book = draft.sealed();
    let steps = tableaux::tableau(random, &SealedBook::open(&book));
    if random.percent(6) {
        // the book is another one by now
        after_the_proof(random, &mut draft);
    }
    HandIn::tableau(draft.sealed(), steps)
}

/// Changes a book so that it stays lawful or nearly so: what was proved over it may not fit any more.
fn after_the_proof(random: &mut Random, draft: &mut Draft) {
    if draft.entries.is_empty() {
        return;
    }
    let i = random.below(draft.entries.len());
    match random.below(5) {
        0 | 1 => draft.entries[i].1 = !draft.entries[i].1,
        2 => drop(draft.entries.remove(i)),
        3 => {
            let j = random.below(draft.entries.len());
            draft.entries.swap(i, j);
        }
        _ if !draft.nodes.is_empty() => {
            let j = random.below(draft.nodes.len());
            let node = &mut draft.nodes[j];
            node.kind = match node.kind {
                4 => 5,
                5 => 4,
                6 => 7,
                7 => 6,
                0 => 1,
                1 => 0,
                kind => kind,
            };
        }
        _ => {}
    }
}

fn model_hand_in(random: &mut Random) -> HandIn {
    let n = if random.percent(70) { random.between(1, 6) } else { random.between(1, 32) };
    let mut interpretation = models::interpretation(random, n);
    let mut order = models::strict_order(random, n);
    let shape = Shape::any(random);
    let draft = match random.below(3) {
        0 => books::lawful(random, &shape),
        1 => true_book(random, &shape, &interpretation, &order),
        _ => {
            let mut draft = true_book(random, &shape, &interpretation, &order);
            if !draft.entries.is_empty() {
                // one entry that may be false
                let i = random.below(draft.entries.len());
                let plain = draft.plain();
                books::add_entry(random, &mut draft, &shape, &plain);
                if let Some(last) = draft.entries.pop() {
                    draft.entries[i] = last;
                }
            }
            draft
        }
    };
    match random.below(100) {
        0..55 => {}
        55..70 => {
            for _ in 0..random.pick(&[1, 1, 1, 2, 4]) {
                models::spoil(random, &mut interpretation);
            }
        }
        70..86 => {
            for _ in 0..random.pick(&[1, 1, 1, 2, 4]) {
                models::spoil_order(random, &mut order);
            }
        }
        86..92 => {
            let size = random.between(1, 32);
            order = models::strict_order(random, size);
        }
        92..95 => interpretation.truncate(random.below(interpretation.len())),
        95..97 => {
            let mut pairs = models::pairs(&order);
            pairs.resize(random.below(140), 0);
            return HandIn::model(draft.sealed(), interpretation, pairs);
        }
        _ => {
            // two things wrong at once
            models::spoil(random, &mut interpretation);
            models::spoil_order(random, &mut order);
        }
    }
    HandIn::model(draft.sealed(), interpretation, models::pairs(&order))
}

/// A random lawful book whose live entries are true in the model, as far as entries were found that are.
pub fn true_book(random: &mut Random, shape: &Shape, interpretation: &[u8], order: &[u32]) -> Draft {
    let mut draft = books::lawful(random, &Shape { entries: 0, ..shape.clone() });
    let mut better = Pairs::fresh();
    let (Ok(model), Ok(())) = (Interpretation::read(interpretation), better.fill(&models::pairs(order))) else {
        return draft;
    };
    if draft.nodes.is_empty() {
        return draft;
    }
    let bytes = draft.sealed();
    let book = SealedBook::open(&bytes);
    let mut sets = vec![0; book.node_count()];
    show::fill(&book, &model, &better, &mut sets);
    let plain = draft.plain();
    let is_true = |raw: RawEntry| raw.entry().is_some_and(|entry| show::is_true(entry, &sets, &model));
    for _ in 0..shape.entries {
        for _ in 0..20 {
            books::add_entry(random, &mut draft, shape, &plain);
            match draft.entries.last() {
                Some(&(raw, live)) if live && !is_true(raw) => drop(draft.entries.pop()),
                _ => break,
            }
        }
    }
    draft
}

/// A book with unlawful records or damaged bytes, with work that may be good.
fn bad_book_hand_in(random: &mut Random) -> HandIn {
    let shape = Shape::any(random);
    let mut draft = books::lawful(random, &shape);
    let steps = tableaux::tableau(random, &SealedBook::open(&draft.sealed()));
    let by_records = random.percent(75);
    if by_records {
        for _ in 0..random.pick(&[1, 1, 2, 3]) {
            damage::damage_record(random, &mut draft);
        }
    }
    let mut book = draft.sealed();
    if !by_records {
        for _ in 0..random.pick(&[1, 1, 1, 2]) {
            damage::damage_bytes(random, &mut book);
        }
    }
    if random.percent(60) {
        return HandIn::tableau(book, steps);
    }
    let n = random.between(1, 4);
    let interpretation = models::interpretation(random, n);
    let order = models::strict_order(random, n);
    HandIn::model(book, interpretation, models::pairs(&order))
}

/// Random bytes here and there.
fn noise_hand_in(random: &mut Random) -> HandIn {
    let shape = Shape::small(random);
    let book = if random.percent(70) { books::lawful(random, &shape).sealed() } else { damage::noise(random, 60) };
    if random.percent(50) {
        let longest = random.pick(&[0, 5, 20, 50]);
        HandIn::tableau(book, damage::noise(random, longest))
    } else {
        let interpretation = if random.percent(50) {
            (0..2_337).map(|_| random.byte()).collect()
        } else {
            models::interpretation(random, 1)
        };
        let pairs = if random.percent(50) { damage::noise(random, 20) } else { vec![0; 4] };
        HandIn::model(book, interpretation, pairs)
    }
}
