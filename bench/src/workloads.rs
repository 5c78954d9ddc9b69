//! Hand-ins to measure by: closed tableaux of a given number of steps, and models of the largest books.

use crate::hand_ins::books::{Shape, lawful};
use crate::hand_ins::draft::Draft;
use crate::hand_ins::models;
use crate::hand_ins::prover::Room;
use crate::hand_ins::random::Random;
use crate::hand_ins::tableaux::written;
use crate::hand_ins::{HandIn, true_book};
use crate::reference::order::ELEMENTS;
use crate::reference::sealed::SealedBook;
use crate::reference::tableau::{Effect, Step, Tableau};

/// A branch has at most so many constraints, so that the list never fills up.
const MOST_CONSTRAINTS: usize = 3_500;

/// The first fact, which contradicts the second one.
const CLASH: [usize; 2] = [0, 1];

struct Builder<'a> {
    random: Random,
    entries: usize,
    tableau: Tableau<'a, SealedBook<'a>>,
    steps: Vec<Step>,
}

/// A book of the given size, in which individual 0 is and is not of some concept name.
pub fn contradictory_book(random: &mut Random, nodes: usize, entries: usize) -> Draft {
    let shape = Shape { nodes: 0, entries: 0, struck: 0, ..Shape::largest(random) };
    let mut draft = lawful(random, &shape);
    draft.note.clear();
    let name = draft.node(2, 0, 0);
    let not_name = draft.node(3, name, 0);
    draft.fact(0, name);
    draft.fact(0, not_name);
    let mut plain = draft.plain();
    while draft.nodes.len() < nodes {
        crate::hand_ins::books::add_node(random, &mut draft, &shape, &mut plain);
    }
    while draft.entries.len() < entries {
        crate::hand_ins::books::add_entry(random, &mut draft, &shape, &plain);
    }
    draft
}

/// A closed tableau of so many steps, 4 or more, over a book as above. Its branches grow by all rules that fit.
pub fn closed_tableau(seed: u64, book: &SealedBook<'_>, entries: usize, count: usize) -> Vec<u8> {
    let mut room = Room::new();
    let random = Random::new(seed, count as u64);
    let mut builder = Builder { random, entries, tableau: Tableau::new(book, room.lend()), steps: Vec::new() };
    builder.take(Step::new(1, CLASH[0], 0));
    builder.take(Step::new(1, CLASH[1], 0));
    builder.take(Step::new(3, 1, 0));
    builder.close(count - 3);
    assert!(builder.tableau.is_closed() && builder.steps.len() == count);
    written(&builder.steps)
}

impl Builder<'_> {
    fn take(&mut self, step: Step) {
        self.tableau.step(step).expect("a step that fits");
        self.steps.push(step);
    }

    /// Closes the branch that is worked, in exactly so many steps, 1 or more.
    fn close(&mut self, count: usize) {
        // longer branches where there is much to do
        let mut left = count;
        let mut growth = self.random.between(1, 3 + count / 10).min(count - 1);
        while growth > 0 && left > 1 {
            match self.extension() {
                Some(step) => self.take(step),
                None => break,
            }
            growth -= 1;
            left -= 1;
        }
        if left >= 3
            && let Some(step) = self.fitting(|effect| matches!(effect, Effect::Split(..)))
        {
            let rest = left - 1;
            let first = self.random.between(1, rest - 1);
            self.take(step);
            self.close(first);
            self.close(rest - first);
            return;
        }
        while left > 1 {
            self.take(Step::new(1, CLASH[0], 0));
            left -= 1;
        }
        self.take(Step::new(12, 0, 2));
    }

    /// A step that adds to the branch without a split.
    fn extension(&mut self) -> Option<Step> {
        if self.tableau.constraints().len() + 2 > MOST_CONSTRAINTS {
            return None;
        }
        let has_label = self.tableau.labels() < 250;
        self.fitting(|effect| match effect {
            Effect::Reach { .. } => has_label,
            Effect::Split(..) | Effect::Close => false,
            _ => true,
        })
    }

    /// A random step that does what is wanted, if one is soon found.
    fn fitting(&mut self, is_wanted: impl Fn(Effect) -> bool) -> Option<Step> {
        let (constraints, edges) = (self.tableau.constraints().len(), self.tableau.edges().len());
        for _ in 0..200 {
            let op = self.random.between(1, 11) as u8;
            let a = match op {
                1 | 2 => self.random.below(self.entries),
                // mostly what came last
                _ if self.random.percent(50) => constraints - 1 - self.random.below(constraints.min(20)),
                _ => self.random.below(constraints),
            };
            let b = match op {
                2 => self.random.below(self.tableau.labels()),
                7 | 11 if edges > 0 => self.random.below(edges),
                _ => 0,
            };
            let step = Step::new(op, a, b);
            if self.tableau.effect(step).is_ok_and(&is_wanted) {
                return Some(step);
            }
        }
        None
    }
}

/// A model of 32 elements of a book of 512 nodes and 256 entries.
pub fn largest_model(seed: u64) -> HandIn {
    for number in 0.. {
        let mut random = Random::new(seed, number);
        let interpretation = models::interpretation(&mut random, ELEMENTS);
        let order = models::strict_order(&mut random, ELEMENTS);
        let shape = Shape { nodes: 512, entries: 256, struck: 5, ..Shape::largest(&mut random) };
        let mut draft = true_book(&mut random, &shape, &interpretation, &order);
        draft.note.clear();
        let hand_in = HandIn::model(draft.sealed(), interpretation, models::pairs(&order));
        let is_mixed = order.iter().any(|&better| better != 0);
        if is_mixed && matches!(hand_in.verdict(), crate::reference::marking::Verdict::Satisfied { .. }) {
            return hand_in;
        }
    }
    unreachable!("some model is found")
}
