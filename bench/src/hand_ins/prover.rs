//! A small random prover: at each step it picks one that fits, and mostly one that leads on.

use std::collections::HashSet;

use super::random::Random;
use crate::reference::book::Book;
use crate::reference::marking::LIST_RECORDS;
use crate::reference::records::Node;
use crate::reference::sealed::SealedBook;
use crate::reference::tableau::{Constraint, Edge, Effect, Form, Lists, Split, Step, Tableau};

/// Memory for the three working lists.
pub struct Room {
    constraints: Vec<Constraint>,
    edges: Vec<Edge>,
    splits: Vec<Split>,
}

impl Room {
    pub fn new() -> Room {
        Room {
            constraints: vec![Constraint::default(); LIST_RECORDS],
            edges: vec![Edge::default(); LIST_RECORDS],
            splits: vec![Split::default(); LIST_RECORDS],
        }
    }

    pub fn lend(&mut self) -> Lists<'_> {
        Lists { constraints: &mut self.constraints, edges: &mut self.edges, splits: &mut self.splits }
    }
}

impl Default for Room {
    fn default() -> Room {
        Room::new()
    }
}

/// Steps that fit one after the other, and whether they are a closed tableau.
pub struct Attempt {
    pub steps: Vec<Step>,
    pub is_closed: bool,
}

/// What a prover cares for, each so often of a hundred times.
pub struct Style {
    pub most_steps: usize,
    /// A branch that can be closed is closed.
    pub eager: usize,
    /// Any step that fits is taken.
    pub wild: usize,
}

struct Prover<'a> {
    book: &'a SealedBook<'a>,
    tableau: Tableau<'a, SealedBook<'a>>,
    style: Style,
    steps: Vec<Step>,
    /// The steps taken on this branch, and how many there were at each pending split.
    taken: Vec<Step>,
    taken_at: Vec<usize>,
    clash: Option<Step>,
}

pub fn prove(random: &mut Random, book: &SealedBook<'_>, style: Style) -> Attempt {
    let mut room = Room::new();
    let mut prover = Prover {
        book,
        tableau: Tableau::new(book, room.lend()),
        style,
        steps: Vec::new(),
        taken: Vec::new(),
        taken_at: Vec::new(),
        clash: None,
    };
    while prover.steps.len() < prover.style.most_steps && !prover.tableau.is_closed() {
        let Some(step) = prover.next(random) else { break };
        prover.take(step);
    }
    Attempt { is_closed: prover.tableau.is_closed(), steps: prover.steps }
}

impl Prover<'_> {
    fn next(&self, random: &mut Random) -> Option<Step> {
        if let Some(clash) = self.clash
            && random.percent(self.style.eager)
        {
            return Some(clash);
        }
        let candidates = self.candidates(random);
        let any = random.percent(self.style.wild);
        let weights = candidates.iter().map(|&(_, weight)| if any { 1 } else { weight });
        let chosen = random.weighted(weights).map(|i| candidates[i].0);
        chosen.or(self.clash)
    }

    fn take(&mut self, step: Step) {
        let (before, pending) = (self.tableau.constraints().len(), self.tableau.pending());
        if self.tableau.step(step).is_err() {
            // a list is full: the step is kept, as one that is refused
            self.style.most_steps = 0;
            self.steps.push(step);
            return;
        }
        self.steps.push(step);
        let now = self.tableau.pending();
        if now < pending {
            // closed: back to the split
            let kept = self.taken_at.pop().unwrap_or(0);
            self.taken.truncate(kept);
            self.clash = self.clash_from(self.tableau.constraints().len() - 1);
            return;
        }
        self.taken.push(step);
        if now > pending {
            self.taken_at.push(self.taken.len());
        }
        if self.clash.is_none() {
            self.clash = self.clash_from(before);
        }
    }

    /// A closing step for one of the constraints from a number on.
    fn clash_from(&self, first: usize) -> Option<Step> {
        let all = self.tableau.constraints();
        all.iter().enumerate().skip(first).find_map(|(i, constraint)| {
            if self.is_absurd(*constraint) {
                return Some(Step::new(13, i, 0));
            }
            let opposite = opposite(*constraint);
            let j = all.iter().position(|other| *other == opposite)?;
            Some(match constraint.form {
                Form::Holds | Form::Bars => Step::new(12, i, j),
                Form::Fails | Form::Admits => Step::new(12, j, i),
            })
        })
    }

    fn is_absurd(&self, constraint: Constraint) -> bool {
        let node = self.book.node(constraint.node.into());
        matches!((constraint.form, node), (Form::Holds, Some(Node::Bottom)) | (Form::Fails, Some(Node::Top)))
    }

    /// Steps that fit, each with a weight: how much it leads on.
    fn candidates(&self, random: &mut Random) -> Vec<(Step, usize)> {
        let constraints = self.tableau.constraints();
        let present: HashSet<Constraint> = constraints.iter().copied().collect();
        let taken: HashSet<Step> = self.taken.iter().copied().collect();
        let mut labels: Vec<u8> = constraints.iter().map(|constraint| constraint.label).collect();
        labels.push(random.below(self.tableau.labels()) as u8);
        labels.sort_unstable();
        labels.dedup();
        let mut steps = Vec::new();
        for entry in sample(random, self.book.entry_count(), 24) {
            steps.push(Step::new(1, entry, 0));
            steps.extend(labels.iter().map(|&label| Step::new(2, entry, label.into())));
        }
        let edges = self.tableau.edges().len();
        let late_edges = edges.saturating_sub(40)..edges;
        for i in sample(random, constraints.len(), 60) {
            steps.extend([3, 4, 5, 6, 8, 9, 10].map(|op| Step::new(op, i, 0)));
            steps.extend(late_edges.clone().flat_map(|j| [Step::new(7, i, j), Step::new(11, i, j)]));
        }
        steps
            .into_iter()
            .filter_map(|step| {
                let effect = self.tableau.effect(step).ok()?;
                let weight = if taken.contains(&step) { 0 } else { self.weight(step, effect, &present) };
                Some((step, weight))
            })
            .collect()
    }

    fn weight(&self, step: Step, effect: Effect, present: &HashSet<Constraint>) -> usize {
        let closes = |c: Constraint| self.is_absurd(c) || present.contains(&opposite(c));
        match effect {
            Effect::Extend(c) if present.contains(&c) => 0,
            Effect::ExtendTwice(c, d) if present.contains(&c) && present.contains(&d) => 0,
            Effect::Connect(edge) if self.tableau.edges().contains(&edge) => 0,
            Effect::Extend(_) | Effect::ExtendTwice(..) | Effect::Connect(_) => 10,
            Effect::Reach { .. } => 4,
            Effect::Split(c, d) if present.contains(&c) || present.contains(&d) => 0,
            Effect::Split(c, d) if closes(c) && closes(d) => 40,
            Effect::Split(c, d) if closes(c) || closes(d) => 8,
            Effect::Split(..) if step.op == 2 => 1,
            Effect::Split(..) => 3,
            Effect::Close => 0,
        }
    }
}

/// What cannot hold together with a constraint.
fn opposite(constraint: Constraint) -> Constraint {
    let form = match constraint.form {
        Form::Holds => Form::Fails,
        Form::Fails => Form::Holds,
        Form::Bars => Form::Admits,
        Form::Admits => Form::Bars,
    };
    Constraint { form, ..constraint }
}

/// All numbers below a count, or where there are too many the last few and some of the others.
fn sample(random: &mut Random, count: usize, most: usize) -> Vec<usize> {
    if count <= most {
        return (0..count).collect();
    }
    let late = count - most / 2..count;
    late.chain((0..most / 2).map(|_| random.below(count))).collect()
}
