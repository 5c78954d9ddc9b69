//! Books: what every book answers, and what a working book takes.

use super::records::{Line, Node, RawEntry, RawNode};
use super::refusal::Refusal;

/// A lawful list of nodes and a lawful list of entries with live marks.
pub trait Book {
    fn node_count(&self) -> usize;
    fn entry_count(&self) -> usize;

    /// Node i, or none past the end.
    fn node(&self, i: usize) -> Option<Node>;

    /// Entry i with its mark, or none past the end.
    fn line(&self, i: usize) -> Option<Line>;
}

/// A book that takes nodes, entries and strikes.
pub trait WorkingBook: Book {
    /// Two empty lists.
    fn new() -> Self;

    fn add_node(&mut self, raw: RawNode) -> Result<usize, Refusal>;
    fn enter(&mut self, raw: RawEntry) -> Result<usize, Refusal>;
    fn strike(&mut self, entry: usize) -> Result<(), Refusal>;
}

/// A working book with the nodes, entries and marks of another book.
pub fn copy_of<W: WorkingBook>(book: &impl Book) -> W {
    let mut copy = W::new();
    for node in (0..book.node_count()).filter_map(|i| book.node(i)) {
        copy.add_node(node.into()).expect("a lawful node");
    }
    for line in (0..book.entry_count()).filter_map(|i| book.line(i)) {
        let number = copy.enter(line.entry.into()).expect("a lawful entry");
        if !line.live {
            copy.strike(number).expect("a live entry");
        }
    }
    copy
}
