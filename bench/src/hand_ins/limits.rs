//! Hand-ins at the limits: one below, at, and one over each.

use super::books::{self, Shape};
use super::draft::Draft;
use super::models;
use super::prover::{Room, Style, prove};
use super::random::Random;
use super::tableaux::written;
use super::{HandIn, true_book};
use crate::reference::interpretation::INTERPRETATION_BYTES;
use crate::reference::marking::FILE_LIMIT;
use crate::reference::order::ELEMENTS;
use crate::reference::records::{ENTRY_LIMIT, INDIVIDUALS, NODE_LIMIT};
use crate::reference::refute::STEP_LIMIT;
use crate::reference::sealed::SealedBook;
use crate::reference::tableau::{LABEL_LIMIT, Step, Tableau};

/// Constraints, edges and pending splits that fit.
const LIST: usize = crate::reference::marking::LIST_RECORDS;

/// A book of everything that the tableaux here use. The nodes: bottom, top, a name, and what is made of the name.
struct Parts {
    draft: Draft,
    bottom_fact: usize,
    name_fact: usize,
    both_fact: usize,
    typical_fact: usize,
    some_fact: usize,
    not_typical_fact: usize,
    role_fact: usize,
    /// From top to bottom: both alternatives close at once.
    absurd: usize,
    /// From the name to top: only the first alternative can close.
    harmless: usize,
}

fn parts() -> Parts {
    let mut draft = Draft::default();
    let (bottom, top, name) = (draft.node(1, 0, 0), draft.node(0, 0, 0), draft.node(2, 0, 0));
    let both = draft.node(4, name, top);
    let typical = draft.node(8, name, 0);
    let some = draft.node(7, 3, name);
    let not_typical = draft.node(3, typical, 0);
    Parts {
        bottom_fact: draft.fact(0, bottom),
        name_fact: draft.fact(1, name),
        both_fact: draft.fact(2, both),
        typical_fact: draft.fact(3, typical),
        some_fact: draft.fact(4, some),
        not_typical_fact: draft.fact(5, not_typical),
        role_fact: draft.role_fact(3, 30, 31),
        absurd: draft.inclusion(top, bottom),
        harmless: draft.inclusion(name, top),
        draft,
    }
}

fn one_around(random: &mut Random, limit: usize) -> usize {
    random.between(limit - 1, limit + 1)
}

fn tableau(draft: &Draft, steps: &[Step]) -> HandIn {
    HandIn::tableau(draft.sealed(), written(steps))
}

/// A hand-in at a limit.
pub fn hand_in(random: &mut Random) -> HandIn {
    match random.below(30) {
        0 => constraints_one_by_one(random),
        1 => constraints_in_twos(random),
        2 => edges(random),
        3 => splits_to_the_last_step(random),
        4 => splits_over(random),
        5 => labels_of_roles(random),
        6 => labels_of_better(random),
        7 => labels_cut_back(random),
        8 => steps(random),
        9 => steps_over(random),
        10 => all_entries_used(random),
        11 => book_bytes(random),
        12 => counts_over(random),
        13 | 14 => largest_model(random),
        15 => lengths_of_models(random),
        16 => sizes(random),
        17 => last_node(random),
        18 => numbers_cut_back(random),
        19 => everything_full(random),
        _ => any_rule_where_a_list_ends(random),
    }
}

/// The same fact again and again, and then a close.
fn constraints_one_by_one(random: &mut Random) -> HandIn {
    let parts = parts();
    let mut steps = vec![Step::new(1, parts.bottom_fact, 0)];
    steps.resize(one_around(random, LIST), Step::new(1, parts.name_fact, 0));
    steps.push(Step::new(13, 0, 0));
    tableau(&parts.draft, &steps)
}

/// A rule that adds two constraints, where there is room for one, two or three.
fn constraints_in_twos(random: &mut Random) -> HandIn {
    let parts = parts();
    let mut steps = vec![Step::new(1, parts.bottom_fact, 0)];
    let (fact, last) = match random.below(3) {
        0 => (parts.both_fact, Step::new(4, 1, 0)),
        1 => (parts.typical_fact, Step::new(8, 1, 0)),
        _ => (parts.some_fact, Step::new(6, 1, 0)),
    };
    steps.resize(random.between(LIST - 3, LIST), Step::new(1, fact, 0));
    steps.push(last);
    steps.push(Step::new(13, 0, 0));
    tableau(&parts.draft, &steps)
}

/// The same role fact again and again; the last edge may be one to a new label.
fn edges(random: &mut Random) -> HandIn {
    let parts = parts();
    let mut steps = vec![Step::new(1, parts.bottom_fact, 0), Step::new(1, parts.some_fact, 0)];
    steps.resize(2 + one_around(random, LIST), Step::new(1, parts.role_fact, 0));
    if random.percent(50) {
        steps.pop();
        steps.push(Step::new(6, 1, 0));
    }
    steps.push(Step::new(13, 0, 0));
    tableau(&parts.draft, &steps)
}

/// 4,095 pending splits, 4,096 closes and one step more: the last step that there may be closes the last branch.
fn splits_to_the_last_step(random: &mut Random) -> HandIn {
    let parts = parts();
    let splits = random.between(LIST - 3, LIST - 1);
    let mut steps = vec![Step::new(1, parts.bottom_fact, 0)];
    steps.extend((0..splits).map(|i| Step::new(2, parts.harmless, i % INDIVIDUALS)));
    steps.resize(2 * splits + 2, Step::new(13, 0, 0));
    if random.percent(30) {
        steps.truncate(steps.len() - 1);
    }
    tableau(&parts.draft, &steps)
}

/// As many pending splits as fit, or one more; then closes, as far as the steps reach.
fn splits_over(random: &mut Random) -> HandIn {
    let parts = parts();
    let splits = one_around(random, LIST);
    let mut steps: Vec<Step> = (0..splits).map(|i| Step::new(2, parts.absurd, i % INDIVIDUALS)).collect();
    for i in (0..splits).rev() {
        steps.push(Step::new(13, i, 0));
    }
    steps.truncate(STEP_LIMIT);
    tableau(&parts.draft, &steps)
}

/// New labels by a role up to the last one, or one more, and the use of the last.
fn labels_of_roles(random: &mut Random) -> HandIn {
    let parts = parts();
    let new = one_around(random, LABEL_LIMIT - INDIVIDUALS);
    let mut steps = vec![Step::new(1, parts.bottom_fact, 0), Step::new(1, parts.some_fact, 0)];
    steps.resize(2 + new, Step::new(6, 1, 0));
    steps.push(Step::new(2, parts.absurd, random.between(LABEL_LIMIT - 2, LABEL_LIMIT)));
    steps.extend([Step::new(13, 0, 0), Step::new(13, 0, 0)]);
    tableau(&parts.draft, &steps)
}

/// New labels by "better" up to the last one, or one more.
fn labels_of_better(random: &mut Random) -> HandIn {
    let parts = parts();
    let new = one_around(random, LABEL_LIMIT - INDIVIDUALS);
    let mut steps = vec![
        Step::new(1, parts.name_fact, 0),
        Step::new(1, parts.not_typical_fact, 0),
        Step::new(3, 1, 0),
        // first: 5 fails the name; it closes against nothing, so bottom comes in by the absurd inclusion
        Step::new(9, 2, 0),
        Step::new(2, parts.absurd, 5),
        Step::new(13, 4, 0),
        Step::new(13, 4, 0),
    ];
    // second: 5 admits the name, constraint 3
    steps.extend((0..new).map(|_| Step::new(10, 3, 0)));
    // each new label holds the name and bars it: carry a bar along an edge that does not leave it, or close
    if random.percent(20) {
        steps.push(Step::new(11, 5, random.below(new)));
    }
    let last = random.between(LABEL_LIMIT - 1, LABEL_LIMIT);
    steps.push(Step::new(2, parts.absurd, last));
    let constraints = 4 + 2 * new;
    steps.extend([Step::new(13, constraints, 0), Step::new(13, constraints, 0)]);
    tableau(&parts.draft, &steps)
}

/// A label that was made in the first alternative is gone in the second, until it is made again.
fn labels_cut_back(random: &mut Random) -> HandIn {
    let parts = parts();
    let mut steps = vec![
        Step::new(1, parts.bottom_fact, 0),
        Step::new(1, parts.some_fact, 0),
        Step::new(2, parts.harmless, 0),
        Step::new(6, 1, 0),
        Step::new(2, parts.absurd, 32),
        Step::new(13, 0, 0),
        Step::new(13, 0, 0),
    ];
    if random.percent(50) {
        steps.push(Step::new(6, 1, 0));
    }
    steps.push(Step::new(2, parts.absurd, 32));
    steps.extend([Step::new(13, 0, 0), Step::new(13, 0, 0)]);
    tableau(&parts.draft, &steps)
}

/// Constraints and edges of the first alternative are gone in the second.
fn numbers_cut_back(random: &mut Random) -> HandIn {
    let parts = parts();
    let mut draft = parts.draft;
    let name = 2;
    let all = draft.node(6, 3, name);
    let all_fact = draft.fact(30, all);
    let mut steps = vec![
        Step::new(1, parts.bottom_fact, 0),
        Step::new(1, all_fact, 0),
        Step::new(2, parts.harmless, 0),
        Step::new(1, parts.role_fact, 0),
        Step::new(7, 1, 0),
        Step::new(13, 0, 0),
    ];
    match random.below(4) {
        0 => steps.push(Step::new(3, 3, 0)),
        1 => steps.push(Step::new(7, 1, 0)),
        2 => steps.push(Step::new(12, 3, 0)),
        _ => steps.extend([Step::new(1, parts.role_fact, 0), Step::new(7, 1, 0)]),
    }
    steps.push(Step::new(13, 0, 0));
    tableau(&draft, &steps)
}

/// About as many steps as there may be.
fn steps(random: &mut Random) -> HandIn {
    let parts = parts();
    let count = one_around(random, STEP_LIMIT);
    let mut steps = vec![Step::new(1, parts.bottom_fact, 0)];
    // a split and the close of its first alternative leave one constraint more
    while steps.len() + 3 <= count {
        steps.push(Step::new(2, parts.absurd, random.below(INDIVIDUALS)));
        steps.push(Step::new(13, 0, 0));
    }
    while steps.len() + 1 < count {
        steps.push(Step::new(1, parts.role_fact, 0));
    }
    steps.push(Step::new(13, 0, 0));
    let mut bytes = written(&steps);
    match random.below(8) {
        0 => drop(bytes.pop()),
        1 => bytes.push(0),
        _ => {}
    }
    HandIn::tableau(parts.draft.sealed(), bytes)
}

/// Far more steps than there may be, up to more bytes than count.
fn steps_over(random: &mut Random) -> HandIn {
    let length = match random.below(5) {
        0 => random.between(40_961, 40_964),
        1 => random.between(40_965, 65_530),
        _ => random.between(FILE_LIMIT - 2, FILE_LIMIT + 20),
    };
    HandIn::tableau(parts().draft.sealed(), (0..length).map(|i| if i % 5 == 0 { 1 } else { 0 }).collect())
}

/// A book of 256 entries, each of which the tableau names.
fn all_entries_used(random: &mut Random) -> HandIn {
    let mut draft = Draft { note: books::note(random), ..Draft::default() };
    let (bottom, name) = (draft.node(1, 0, 0), draft.node(2, 63, 0));
    let entries = random.between(ENTRY_LIMIT - 2, ENTRY_LIMIT);
    let last = random.below(entries);
    let mut steps = Vec::new();
    let mut constraints = 0;
    let mut bottom_at = 0;
    let mut splits = 0;
    for i in 0..entries {
        if i == last {
            draft.fact(random.below(INDIVIDUALS), bottom);
            steps.push(Step::new(1, i, 0));
            bottom_at = constraints;
            constraints += 1;
        } else {
            match random.below(3) {
                0 => {
                    draft.fact(random.below(INDIVIDUALS), name);
                    steps.push(Step::new(1, i, 0));
                    constraints += 1;
                }
                1 => {
                    draft.role_fact(random.below(16), random.below(INDIVIDUALS), random.below(INDIVIDUALS));
                    steps.push(Step::new(1, i, 0));
                }
                _ => {
                    draft.inclusion(name, name);
                    steps.push(Step::new(2, i, random.below(INDIVIDUALS)));
                    constraints += 1;
                    splits += 1;
                }
            }
        }
    }
    if splits > 0 {
        // bottom may have come after some of the splits: it is put on those branches again
        for _ in 0..splits {
            steps.push(Step::new(13, bottom_at, 0));
        }
    }
    steps.push(Step::new(13, bottom_at, 0));
    if random.percent(70) {
        // bottom first, so that every branch has it
        let at = steps.iter().position(|step| step.op == 1 && usize::from(step.a) == last).unwrap_or(0);
        let first = steps.remove(at);
        steps.insert(0, first);
        for step in &mut steps {
            if step.op == 13 {
                step.a = 0;
            }
        }
    }
    tableau(&draft, &steps)
}

/// A book whose note makes it as long as what counts of a file, or longer.
fn book_bytes(random: &mut Random) -> HandIn {
    let mut parts = parts();
    let records = parts.draft.distance() + 8;
    let length = random.between(FILE_LIMIT - 1, FILE_LIMIT + 1);
    parts.draft.note = (0..length - records).map(|_| random.byte()).collect();
    let mut book = parts.draft.sealed();
    if random.percent(50) {
        // bytes that do not count
        book.extend((0..random.between(1, 30)).map(|_| random.byte()));
    }
    let steps = [Step::new(1, parts.bottom_fact, 0), Step::new(13, 0, 0)];
    if random.percent(70) {
        HandIn::tableau(book, written(&steps))
    } else {
        HandIn::model(book, models::interpretation(random, 1), vec![0; 4])
    }
}

/// One node or entry more than a book may have, all of them otherwise lawful.
fn counts_over(random: &mut Random) -> HandIn {
    let mut shape = Shape::largest(random);
    if random.percent(50) {
        shape.nodes = NODE_LIMIT + random.below(2);
    } else {
        shape.entries = ENTRY_LIMIT + random.below(2);
    }
    let draft = books::lawful(random, &shape);
    if random.percent(50) {
        HandIn::tableau(draft.sealed(), Vec::new())
    } else {
        HandIn::model(draft.sealed(), models::interpretation(random, 2), vec![0; 8])
    }
}

/// A book of 512 nodes and 256 entries, on 32 elements, of which it may be true.
fn largest_model(random: &mut Random) -> HandIn {
    let shape = Shape::largest(random);
    let n = random.between(ELEMENTS - 1, ELEMENTS);
    let interpretation = models::interpretation(random, n);
    let order = models::strict_order(random, n);
    let draft = true_book(random, &shape, &interpretation, &order);
    HandIn::model(draft.sealed(), interpretation, models::pairs(&order))
}

/// Interpretations and pairs of nearly the right length, or longer than what counts.
fn lengths_of_models(random: &mut Random) -> HandIn {
    let draft = parts().draft;
    let n = random.between(1, ELEMENTS);
    let mut interpretation = models::interpretation(random, n);
    let order = models::strict_order(random, n);
    let mut pairs = models::pairs(&order);
    match random.below(4) {
        0 => interpretation.resize(random.pick(&[0, 1, 4, 2_336, 2_338, FILE_LIMIT, FILE_LIMIT + 1, 70_000]), 0),
        1 => pairs
            .resize(random.pick(&[0, 1, 2, 3, 5, 127, 129, 130, 131, 132, 136, 65_532, FILE_LIMIT, 65_536, 65_540]), 0),
        2 => {
            interpretation.resize(INTERPRETATION_BYTES - 1, 0);
            pairs.resize(133, 0);
        }
        _ => interpretation.truncate(random.below(INTERPRETATION_BYTES)),
    }
    HandIn::model(draft.sealed(), interpretation, pairs)
}

/// Numbers of elements at both ends, with orders of another size now and then.
fn sizes(random: &mut Random) -> HandIn {
    let n = random.pick(&[1, 1, 2, 31, 32, 32]);
    let interpretation = models::interpretation(random, n);
    let size = if random.percent(60) { n } else { random.pick(&[1, 2, 31, 32]) };
    let order = models::strict_order(random, size);
    let shape = Shape::small(random);
    HandIn::model(books::lawful(random, &shape).sealed(), interpretation, models::pairs(&order))
}

/// A tableau over the last node of the largest book.
fn last_node(random: &mut Random) -> HandIn {
    let shape = Shape { nodes: NODE_LIMIT - 1, entries: ENTRY_LIMIT - 1, ..Shape::largest(random) };
    let mut draft = books::lawful(random, &shape);
    let last = draft.node(random.below(2) as u8, 0, 0);
    let fact = draft.fact(31, last);
    tableau(&draft, &[Step::new(1, fact, 0), Step::new(13, 0, 0)])
}

/// Constraints, edges and labels close to their limits at once.
fn everything_full(random: &mut Random) -> HandIn {
    let parts = parts();
    let labels = LABEL_LIMIT - INDIVIDUALS;
    let mut steps = vec![Step::new(1, parts.bottom_fact, 0), Step::new(1, parts.some_fact, 0)];
    steps.extend((0..labels).map(|_| Step::new(6, 1, 0)));
    steps.extend((labels..LIST - 1).map(|_| Step::new(1, parts.role_fact, 0)));
    steps.extend((labels + 2..LIST - 1).map(|i| Step::new(2, parts.harmless, i % LABEL_LIMIT)));
    let last =
        [Step::new(6, 1, 0), Step::new(1, parts.role_fact, 0), Step::new(1, parts.name_fact, 0), Step::new(13, 0, 0)];
    steps.push(random.pick(&last));
    steps.push(random.pick(&last));
    steps.push(random.pick(&last));
    steps.resize(STEP_LIMIT.min(steps.len() + random.below(4_000)), Step::new(13, 0, 0));
    tableau(&parts.draft, &steps)
}

/// Steps of a proof, before one of which a list is filled up to its last places.
fn any_rule_where_a_list_ends(random: &mut Random) -> HandIn {
    let mut draft = books::contradictory(random);
    let (name, role) = (draft.node(2, random.below(64), 0), random.below(16));
    let (fact, role_fact) = (draft.fact(random.below(32), name), draft.role_fact(role, 30, 31));
    let bytes = draft.sealed();
    let book = SealedBook::open(&bytes);
    let mut steps = prove(random, &book, Style { most_steps: 80, eager: 90, wild: 0 }).steps;
    // before a step of one of its ops, each as likely as the others
    let mut ops: Vec<u8> = steps.iter().map(|step| step.op).filter(|&op| op < 12).collect();
    ops.sort_unstable();
    ops.dedup();
    let op = if ops.is_empty() { 1 } else { random.pick(&ops) };
    let places: Vec<usize> = (0..steps.len()).filter(|&i| steps[i].op == op).collect();
    let at = if places.is_empty() { 0 } else { random.pick(&places) };
    let mut room = Room::new();
    let mut tableau = Tableau::new(&book, room.lend());
    for &step in &steps[..at] {
        let _ = tableau.step(step);
    }
    let (filling, count) = if random.percent(80) {
        (Step::new(1, fact, 0), tableau.constraints().len())
    } else {
        (Step::new(1, role_fact, 0), tableau.edges().len())
    };
    let filled = LIST - count - random.below(3);
    steps.splice(at..at, (0..filled).map(|_| filling));
    HandIn::tableau(bytes, written(&steps))
}
