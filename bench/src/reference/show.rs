//! Whether a hand-in is a model of a book.

use super::book::Book;
use super::interpretation::Interpretation;
use super::order::{Order, all_below};
use super::records::{Entry, Node};
use super::refusal::{Refusal, Why};

/// The elements below the size that have a property.
fn set_of(size: usize, has: impl Fn(usize) -> bool) -> u32 {
    (0..size).fold(0, |set, x| set | u32::from(has(x)) << x)
}

/// The set of a node, where the sets of the nodes before it are given.
fn extension(node: Node, sets: &[u32], model: &Interpretation, order: &impl Order) -> u32 {
    let size = model.size();
    let set = |c: u16| sets[usize::from(c)];
    match node {
        Node::Top => all_below(size),
        Node::Bottom => 0,
        Node::Name(name) => model.name(name),
        Node::Not(c) => all_below(size) & !set(c),
        Node::And(c, d) => set(c) & set(d),
        Node::Or(c, d) => set(c) | set(d),
        Node::All(role, c) => {
            let (leads, outside) = (model.role(role), !set(c));
            set_of(size, |x| leads[x] & outside == 0)
        }
        Node::Exists(role, c) => {
            let (leads, inside) = (model.role(role), set(c));
            set_of(size, |x| leads[x] & inside != 0)
        }
        Node::Typical(c) => {
            let inside = set(c);
            set_of(size, |x| inside >> x & 1 == 1 && order.better(x) & inside == 0)
        }
    }
}

/// Whether an entry is true, where the sets of all nodes are given.
pub fn is_true(entry: Entry, sets: &[u32], model: &Interpretation) -> bool {
    let set = |c: u16| sets[usize::from(c)];
    match entry {
        Entry::Inclusion { left, right } => set(left) & !set(right) == 0,
        Entry::Fact { individual, node } => set(node) >> model.individual(individual) & 1 == 1,
        Entry::RoleFact { role, from, to } => model.role(role)[model.individual(from)] >> model.individual(to) & 1 == 1,
    }
}

/// The set of each node in the list, bottom up. The list has a place for each node.
pub fn fill(book: &impl Book, model: &Interpretation, order: &impl Order, list: &mut [u32]) {
    for i in 0..book.node_count() {
        let (earlier, rest) = list.split_at_mut(i);
        if let (Some(node), Some(set)) = (book.node(i), rest.first_mut()) {
            *set = extension(node, earlier, model, order);
        }
    }
}

/// Accepts a model of the book's live entries and answers its size. The list then has the set of each node and zeros
/// behind them, as it has after a failed entry; after other refusals it has only zeros.
pub fn show(book: &impl Book, model: &[u8], order: &impl Order, list: &mut [u32]) -> Result<usize, Refusal> {
    list.fill(0);
    let model = Interpretation::read(model)?;
    if order.size() != model.size() {
        return Err(Why::OrderSize.at(order.size()));
    }
    if list.len() < book.node_count() {
        return Err(Why::ListLength.at(list.len()));
    }
    fill(book, &model, order, list);
    let fails = |i: &usize| book.line(*i).is_some_and(|line| line.live && !is_true(line.entry, list, &model));
    match (0..book.entry_count()).find(fails) {
        Some(entry) => Err(Why::EntryFails.at(entry)),
        None => Ok(model.size()),
    }
}
