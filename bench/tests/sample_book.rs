//! The sample book of the documents, its model and its tableaux, marked by the plain marker.

use bench::hand_ins::draft::Draft;
use bench::reference::book::{Book, WorkingBook, copy_of};
use bench::reference::interpretation::INTERPRETATION_BYTES;
use bench::reference::journal::Journal;
use bench::reference::marking::{mark_model, mark_tableau};
use bench::reference::order::{Order, Pairs, Ranks};
use bench::reference::records::RawNode;
use bench::reference::refusal::Refusal;
use bench::reference::refute::refute;
use bench::reference::sealed::SealedBook;
use bench::reference::show::show;
use bench::reference::slot_table::SlotTable;
use bench::reference::tableau::{Constraint, Edge, Lists, Split};

fn sample() -> Draft {
    let mut draft = Draft::default();
    let (release, yanked, paired) = (draft.node(2, 0, 0), draft.node(2, 1, 0), draft.node(2, 2, 0));
    let typical_release = draft.node(8, release, 0);
    let both = draft.node(4, release, yanked);
    let typical_both = draft.node(8, both, 0);
    let not_paired = draft.node(3, paired, 0);
    draft.inclusion(typical_release, paired);
    draft.inclusion(typical_both, not_paired);
    draft.fact(0, typical_both);
    draft
}

fn contradictory() -> Draft {
    let mut draft = sample();
    draft.fact(0, 3);
    draft
}

fn model() -> Vec<u8> {
    let mut bytes = vec![0; INTERPRETATION_BYTES];
    bytes[0] = 2;
    (bytes[1], bytes[5], bytes[9]) = (3, 1, 2);
    bytes
}

fn steps(numbers: &[(u8, u16, u16)]) -> Vec<u8> {
    let step = |&(op, a, b): &(u8, u16, u16)| {
        let ([a0, a1], [b0, b1]) = (a.to_le_bytes(), b.to_le_bytes());
        [op, a0, a1, b0, b1]
    };
    numbers.iter().flat_map(step).collect()
}

fn refutation() -> Vec<u8> {
    steps(&[(1, 2, 0), (1, 3, 0), (2, 0, 0), (12, 1, 2), (2, 1, 0), (12, 0, 3), (3, 3, 0), (12, 2, 4)])
}

fn refuted(book: &impl Book, steps: &[u8], constraints: usize) -> Result<usize, (u32, usize)> {
    let mut constraints = vec![Constraint { label: 9, ..Constraint::default() }; constraints];
    let mut edges = [Edge { from: 9, role: 9, to: 9 }; 1];
    let mut splits = [Split::default(); 1];
    let lists = Lists { constraints: &mut constraints, edges: &mut edges, splits: &mut splits };
    let answer = refute(book, steps, lists);
    assert!(constraints.iter().all(|constraint| *constraint == Constraint::default()));
    assert_eq!(edges, [Edge::default()]);
    assert_eq!(splits, [Split::default()]);
    answer.map(|used| used.count()).map_err(told)
}

fn told(refusal: Refusal) -> (u32, usize) {
    (refusal.why.number(), refusal.place)
}

fn pairs(masks: &[u32]) -> Vec<u8> {
    masks.iter().flat_map(|mask| mask.to_le_bytes()).collect()
}

#[test]
fn the_sample_model_is_shown() {
    let bytes = sample().sealed();
    let book = SealedBook::open(&bytes);
    let mut order = Pairs::fresh();
    assert_eq!(order.fill(&pairs(&[2, 0])), Ok(()));
    let mut list = [7; 9];
    assert_eq!(show(&book, &model(), &order, &mut list), Ok(2));
    assert_eq!(list, [3, 1, 2, 2, 1, 1, 1, 0, 0]);
    assert_eq!(mark_model(&bytes, &model(), &pairs(&[2, 0])).to_string(), "satisfied, elements 2\n");
}

#[test]
fn equal_ranks_fail_the_first_entry() {
    let bytes = sample().sealed();
    let mut order = Ranks::fresh();
    assert_eq!(order.fill(&[0, 0]), Ok(()));
    assert_eq!(order.size(), 2);
    let answer = show(&SealedBook::open(&bytes), &model(), &order, &mut [0; 7]);
    assert_eq!(answer.map_err(told), Err((18, 0)));
}

#[test]
fn pairs_that_are_not_transitive_are_refused() {
    let bytes = sample().sealed();
    assert_eq!(mark_model(&bytes, &model(), &pairs(&[2, 1])).to_string(), "refused 15 at 0\n");
}

#[test]
fn the_longer_book_is_refuted_where_there_is_room() {
    let bytes = contradictory().sealed();
    let book = SealedBook::open(&bytes);
    assert_eq!(refuted(&book, &refutation(), 5), Ok(4));
    assert_eq!(refuted(&book, &refutation(), 4), Err((11, 6)));
    assert_eq!(refuted(&copy_of::<SlotTable>(&book), &refutation(), 5), Ok(4));
    assert_eq!(refuted(&copy_of::<Journal>(&book), &refutation(), 5), Ok(4));
    assert_eq!(mark_tableau(&bytes, &refutation()).to_string(), "closed, entries used 4\n");
}

#[test]
fn the_wrong_hand_in_stops_at_its_last_step() {
    let bytes = sample().sealed();
    let wrong = steps(&[(1, 2, 0), (8, 0, 0), (4, 1, 0), (2, 0, 0), (9, 5, 0), (12, 3, 6), (12, 2, 6)]);
    assert_eq!(mark_tableau(&bytes, &wrong).to_string(), "refused 10 at 6\n");
}

#[test]
fn the_sample_book_has_64_bytes() {
    let bytes = sample().sealed();
    assert_eq!(bytes.len(), 64);
    assert_eq!(bytes[56..], [7, 0, 3, 0, 0x38, 0, 0, 0]);
}

#[test]
fn typical_of_typical_is_refused() {
    let bytes = sample().sealed();
    let mut table: SlotTable = copy_of(&SealedBook::open(&bytes));
    assert_eq!(table.add_node(RawNode::new(8, 3, 0)).map_err(told), Err((5, 7)));
    let mut journal: Journal = copy_of(&SealedBook::open(&bytes));
    assert_eq!(journal.add_node(RawNode::new(8, 3, 0)).map_err(told), Err((5, 7)));
    assert_eq!(journal.strike(2), Ok(()));
    assert_eq!(journal.strike(2).map_err(told), Err((6, 2)));
}
