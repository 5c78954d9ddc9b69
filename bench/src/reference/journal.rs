//! A book that only appends records, at most 1,024, and scans them at each question.

use super::book::{Book, WorkingBook};
use super::lawful::{fitting_entry, fitting_node};
use super::records::{ENTRY_LIMIT, Entry, Line, NODE_LIMIT, Node, RawEntry, RawNode};
use super::refusal::{Refusal, Why};

enum Record {
    Node { node: Node, plain: bool },
    Entry(Entry),
    Strike(usize),
}

pub struct Journal {
    records: Vec<Record>,
    node_count: usize,
    entry_count: usize,
}

impl Journal {
    fn nodes(&self) -> impl Iterator<Item = (Node, bool)> {
        self.records.iter().filter_map(|record| match record {
            Record::Node { node, plain } => Some((*node, *plain)),
            _ => None,
        })
    }

    fn entries(&self) -> impl Iterator<Item = Entry> {
        self.records.iter().filter_map(|record| match record {
            Record::Entry(entry) => Some(*entry),
            _ => None,
        })
    }

    fn is_struck(&self, entry: usize) -> bool {
        self.records.iter().any(|record| matches!(record, Record::Strike(struck) if *struck == entry))
    }

    fn plain(&self, i: u16) -> Option<bool> {
        self.nodes().nth(usize::from(i)).map(|(_, plain)| plain)
    }
}

impl Book for Journal {
    fn node_count(&self) -> usize {
        self.node_count
    }

    fn entry_count(&self) -> usize {
        self.entry_count
    }

    fn node(&self, i: usize) -> Option<Node> {
        self.nodes().nth(i).map(|(node, _)| node)
    }

    fn line(&self, i: usize) -> Option<Line> {
        let entry = self.entries().nth(i)?;
        Some(Line { entry, live: !self.is_struck(i) })
    }
}

impl WorkingBook for Journal {
    fn new() -> Journal {
        Journal { records: Vec::with_capacity(NODE_LIMIT + 2 * ENTRY_LIMIT), node_count: 0, entry_count: 0 }
    }

    fn add_node(&mut self, raw: RawNode) -> Result<usize, Refusal> {
        let count = self.node_count;
        if count == NODE_LIMIT {
            return Err(Why::NodesFull.at(count));
        }
        let (node, plain) = fitting_node(raw, |i| self.plain(i)).map_err(|why| why.at(count))?;
        self.records.push(Record::Node { node, plain });
        self.node_count += 1;
        Ok(count)
    }

    fn enter(&mut self, raw: RawEntry) -> Result<usize, Refusal> {
        let count = self.entry_count;
        if count == ENTRY_LIMIT {
            return Err(Why::EntriesFull.at(count));
        }
        let typical = |i| matches!(self.node(usize::from(i)), Some(Node::Typical(_)));
        let entry = fitting_entry(raw, |i| self.plain(i), typical).map_err(|why| why.at(count))?;
        self.records.push(Record::Entry(entry));
        self.entry_count += 1;
        Ok(count)
    }

    fn strike(&mut self, entry: usize) -> Result<(), Refusal> {
        if entry >= self.entry_count || self.is_struck(entry) {
            return Err(Why::NotLive.at(entry));
        }
        self.records.push(Record::Strike(entry));
        Ok(())
    }
}
