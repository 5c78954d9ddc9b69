//! A book in slots: records with their marks, each asked for in one step.

use super::book::{Book, WorkingBook};
use super::lawful::{fitting_entry, fitting_node};
use super::records::{ENTRY_LIMIT, Line, NODE_LIMIT, Node, RawEntry, RawNode};
use super::refusal::{Refusal, Why};

struct Slot {
    node: Node,
    plain: bool,
}

pub struct SlotTable {
    nodes: Vec<Slot>,
    lines: Vec<Line>,
}

impl SlotTable {
    fn plain(&self, i: u16) -> Option<bool> {
        self.nodes.get(usize::from(i)).map(|slot| slot.plain)
    }
}

impl Book for SlotTable {
    fn node_count(&self) -> usize {
        self.nodes.len()
    }

    fn entry_count(&self) -> usize {
        self.lines.len()
    }

    fn node(&self, i: usize) -> Option<Node> {
        self.nodes.get(i).map(|slot| slot.node)
    }

    fn line(&self, i: usize) -> Option<Line> {
        self.lines.get(i).copied()
    }
}

impl WorkingBook for SlotTable {
    fn new() -> SlotTable {
        SlotTable { nodes: Vec::with_capacity(NODE_LIMIT), lines: Vec::with_capacity(ENTRY_LIMIT) }
    }

    fn add_node(&mut self, raw: RawNode) -> Result<usize, Refusal> {
        let count = self.nodes.len();
        if count == NODE_LIMIT {
            return Err(Why::NodesFull.at(count));
        }
        let (node, plain) = fitting_node(raw, |i| self.plain(i)).map_err(|why| why.at(count))?;
        self.nodes.push(Slot { node, plain });
        Ok(count)
    }

    fn enter(&mut self, raw: RawEntry) -> Result<usize, Refusal> {
        let count = self.lines.len();
        if count == ENTRY_LIMIT {
            return Err(Why::EntriesFull.at(count));
        }
        let typical = |i| matches!(self.node(usize::from(i)), Some(Node::Typical(_)));
        let entry = fitting_entry(raw, |i| self.plain(i), typical).map_err(|why| why.at(count))?;
        self.lines.push(Line { entry, live: true });
        Ok(count)
    }

    fn strike(&mut self, entry: usize) -> Result<(), Refusal> {
        match self.lines.get_mut(entry) {
            Some(line) if line.live => {
                line.live = false;
                Ok(())
            }
            _ => Err(Why::NotLive.at(entry)),
        }
    }
}
