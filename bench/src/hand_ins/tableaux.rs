//! Random tableaux: proofs, and what comes out when they are changed, cut, lengthened or spoiled.

use super::prover::{Room, Style, prove};
use super::random::Random;
use crate::reference::book::Book;
use crate::reference::records::Node;
use crate::reference::sealed::SealedBook;
use crate::reference::tableau::{BETTER, Form, Step, Tableau};

pub fn written(steps: &[Step]) -> Vec<u8> {
    steps.iter().flat_map(|step| step.to_bytes()).collect()
}

/// A tableau over a book, in bytes. Some are proofs.
pub fn tableau(random: &mut Random, book: &SealedBook<'_>) -> Vec<u8> {
    let style = Style {
        most_steps: random.pick(&[3, 10, 30, 60, 60, 120, 120, 250]),
        eager: random.pick(&[60, 95, 95, 100]),
        wild: random.pick(&[0, 0, 2, 20]),
    };
    let attempt = prove(random, book, style);
    let mut steps = attempt.steps;
    match random.below(100) {
        0..42 => {}
        42..52 => {
            for _ in 0..random.between(1, 3) {
                change(random, &mut steps);
            }
        }
        52..56 => steps.truncate(random.below(steps.len() + 1)),
        56..62 => {
            for _ in 0..random.between(1, 3) {
                steps.push(any_step(random));
            }
        }
        62..64 => {
            let mut bytes = written(&steps);
            if random.percent(50) {
                bytes.truncate(bytes.len().saturating_sub(random.between(1, 4)));
            } else {
                bytes.extend((0..random.between(1, 4)).map(|_| random.byte()));
            }
            return bytes;
        }
        64..92 => {
            let kept = random.below(steps.len() + 1);
            let rest = steps.split_off(kept);
            if let Some(bad) = bad_step(random, book, &steps) {
                steps.push(bad);
            }
            steps.extend(rest);
        }
        92..95 => steps = (0..random.between(1, 20)).map(|_| any_step(random)).collect(),
        95..97 => steps.clear(),
        _ => pad(random, book, &mut steps),
    }
    written(&steps)
}

/// A step with plausible numbers.
fn any_step(random: &mut Random) -> Step {
    let op = if random.percent(95) { random.between(1, 13) } else { random.byte().into() };
    let b = if random.percent(50) { 0 } else { random.below(34) };
    Step::new(op as u8, random.below(8), b)
}

fn nearby(random: &mut Random, number: u16) -> u16 {
    match random.below(6) {
        0 => number.wrapping_add(1),
        1 => number.wrapping_sub(1),
        2 => random.below(8) as u16,
        3 => random.below(64) as u16,
        4 => random.pick(&[255, 256, 257, 511, 512, 4_095, 4_096, u16::MAX]),
        _ => random.word(),
    }
}

/// Changes one step, or the order or number of steps.
fn change(random: &mut Random, steps: &mut Vec<Step>) {
    if steps.is_empty() {
        steps.push(any_step(random));
        return;
    }
    let i = random.below(steps.len());
    match random.below(8) {
        0 => steps[i].op = random.below(15) as u8,
        1 => steps[i].op = random.byte(),
        2 => steps[i].a = nearby(random, steps[i].a),
        3 => steps[i].b = nearby(random, steps[i].b),
        4 => drop(steps.remove(i)),
        5 => steps.insert(i, steps[i]),
        6 => steps.insert(i, any_step(random)),
        _ => {
            let j = random.below(steps.len());
            steps.swap(i, j);
        }
    }
}

/// Steps in which those that fit are taken twice here and there, which does no harm to a proof that only extends.
fn pad(random: &mut Random, book: &SealedBook<'_>, steps: &mut Vec<Step>) {
    let often = random.between(1, 60);
    let facts: Vec<usize> = (0..book.entry_count()).collect();
    if facts.is_empty() {
        return;
    }
    // before all others, so that the numbers of their constraints move: then few of them fit
    let at = if random.percent(50) { 0 } else { steps.len() };
    let extra: Vec<Step> = (0..often).map(|_| Step::new(1, random.pick(&facts), 0)).collect();
    steps.splice(at..at, extra);
}

/// A step that is refused after the given steps, for one of all reasons.
fn bad_step(random: &mut Random, book: &SealedBook<'_>, before: &[Step]) -> Option<Step> {
    let mut room = Room::new();
    let mut tableau = Tableau::new(book, room.lend());
    for &step in before {
        tableau.step(step).ok()?;
    }
    let (constraints, edges, labels) = (tableau.constraints().len(), tableau.edges().len(), tableau.labels());
    let past = |random: &mut Random, count: usize| match random.below(4) {
        0 | 1 => count,
        2 => count + random.below(20),
        _ => usize::from(u16::MAX) - random.below(2),
    };
    let within = |random: &mut Random, count: usize| random.below(count.max(1));
    Some(match random.below(15) {
        0 => Step::new(random.pick(&[0, 14, 15, 16, 29, 128, 255]), within(random, constraints), 0),
        1 => {
            let op = random.pick(&[1, 3, 4, 5, 6, 8, 9, 10, 13]);
            let count = if op == 1 { book.entry_count() } else { constraints };
            Step::new(op, within(random, count), random.pick(&[1, 255, 256, 65_535]))
        }
        2 => Step::new(random.pick(&[1, 2]), past(random, book.entry_count()), 0),
        3 => {
            let struck: Vec<usize> =
                (0..book.entry_count()).filter(|&i| book.line(i).is_some_and(|l| !l.live)).collect();
            if struck.is_empty() {
                return None;
            }
            Step::new(random.pick(&[1, 2]), random.pick(&struck), 0)
        }
        4 => Step::new(random.pick(&[3, 4, 5, 6, 8, 9, 10, 13]), past(random, constraints), 0),
        5 => match random.below(2) {
            0 => Step::new(12, past(random, constraints), within(random, constraints)),
            _ => Step::new(12, within(random, constraints), past(random, constraints)),
        },
        6 => Step::new(random.pick(&[7, 11]), within(random, constraints), past(random, edges)),
        7 => {
            let label = match random.below(3) {
                0 => labels,
                1 => random.pick(&[labels.max(255), 256, 65_535]),
                _ => labels + random.below(40),
            };
            Step::new(2, within(random, book.entry_count()), label)
        }
        8..11 => {
            let near = near_misses(book, &tableau);
            if near.is_empty() {
                return None;
            }
            random.pick(&near)
        }
        _ => {
            // all that it names is there, and it does not fit
            let misfit = (0..40).map(|_| {
                let op = random.between(1, 13) as u8;
                let a = within(random, if op <= 2 { book.entry_count() } else { constraints });
                let b = match op {
                    2 => within(random, labels),
                    7 | 11 => within(random, edges),
                    12 => within(random, constraints),
                    _ => 0,
                };
                Step::new(op, a, b)
            });
            misfit.filter(|&step| tableau.effect(step).is_err()).last()?
        }
    })
}

/// Steps of ops 7, 11 and 12 that do not fit for one reason alone: the form or the node's kind, the label, or the node
/// or role.
fn near_misses(book: &SealedBook<'_>, tableau: &Tableau<'_, SealedBook<'_>>) -> Vec<Step> {
    let constraints = || tableau.constraints().iter().enumerate().take(60);
    let missed = |fits: [bool; 3]| fits.iter().filter(|&&fit| !fit).count() == 1;
    let mut near = Vec::new();
    for (i, first) in constraints() {
        for (j, second) in constraints() {
            let forms = matches!((first.form, second.form), (Form::Holds, Form::Fails) | (Form::Bars, Form::Admits));
            if missed([forms, first.label == second.label, first.node == second.node]) {
                near.push(Step::new(12, i, j));
            }
        }
        for (j, edge) in tableau.edges().iter().enumerate().take(40) {
            let leaves = edge.from == first.label;
            let (fits, role) = match (first.form, book.node(first.node.into())) {
                (Form::Holds, Some(Node::All(role, _))) | (Form::Fails, Some(Node::Exists(role, _))) => (true, role),
                (_, Some(Node::All(role, _) | Node::Exists(role, _))) => (false, role),
                _ => (false, u16::from(edge.role)),
            };
            if missed([fits, leaves, role == u16::from(edge.role)]) {
                near.push(Step::new(7, i, j));
            }
            if missed([first.form == Form::Bars, leaves, edge.role == BETTER]) {
                near.push(Step::new(11, i, j));
            }
        }
    }
    near
}
