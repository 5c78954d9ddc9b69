//! A book that is read within the bytes that it was opened on.

use super::book::Book;
use super::check::{ENTRY_BYTES, NODE_BYTES, check};
use super::records::{Line, Node, RawEntry, RawNode};
use super::refusal::Refusal;

pub struct SealedBook<'a> {
    nodes: &'a [[u8; NODE_BYTES]],
    entries: &'a [[u8; ENTRY_BYTES]],
}

impl<'a> SealedBook<'a> {
    /// The book that is sealed in the bytes; else the first thing wrong with them.
    pub fn read(bytes: &'a [u8]) -> Result<SealedBook<'a>, Refusal> {
        let frame = check(bytes)?;
        Ok(SealedBook { nodes: frame.nodes, entries: frame.entries })
    }

    /// The book that is sealed in the bytes, or the empty book where check refuses.
    pub fn open(bytes: &'a [u8]) -> SealedBook<'a> {
        SealedBook::read(bytes).unwrap_or(SealedBook { nodes: &[], entries: &[] })
    }
}

impl Book for SealedBook<'_> {
    fn node_count(&self) -> usize {
        self.nodes.len()
    }

    fn entry_count(&self) -> usize {
        self.entries.len()
    }

    fn node(&self, i: usize) -> Option<Node> {
        self.nodes.get(i).and_then(|bytes| RawNode::from_bytes(bytes).node())
    }

    fn line(&self, i: usize) -> Option<Line> {
        let (raw, live) = RawEntry::from_bytes(self.entries.get(i)?);
        raw.entry().map(|entry| Line { entry, live })
    }
}
