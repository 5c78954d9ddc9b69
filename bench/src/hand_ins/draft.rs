//! Drafts of books: any records, lawful or not, and how they are sealed.

use crate::reference::records::{RawEntry, RawNode};

#[derive(Clone, Debug, Default)]
pub struct Draft {
    pub note: Vec<u8>,
    pub nodes: Vec<RawNode>,
    /// Entries, and whether each is live.
    pub entries: Vec<(RawEntry, bool)>,
}

impl Draft {
    /// Adds a node and answers its number.
    pub fn node(&mut self, kind: u8, a: usize, b: usize) -> usize {
        self.nodes.push(RawNode::new(kind, a as u16, b as u16));
        self.nodes.len() - 1
    }

    /// Adds a live entry and answers its number.
    pub fn entry(&mut self, kind: u8, a: usize, b: usize, c: usize) -> usize {
        self.entries.push((RawEntry::new(kind, a as u16, b as u16, c as u16), true));
        self.entries.len() - 1
    }

    pub fn inclusion(&mut self, left: usize, right: usize) -> usize {
        self.entry(1, left, right, 0)
    }

    pub fn fact(&mut self, individual: usize, node: usize) -> usize {
        self.entry(2, individual, node, 0)
    }

    pub fn role_fact(&mut self, role: usize, from: usize, to: usize) -> usize {
        self.entry(3, role, from, to)
    }

    /// Bytes of nodes and entries.
    pub fn distance(&self) -> usize {
        5 * self.nodes.len() + 7 * self.entries.len()
    }

    pub fn sealed(&self) -> Vec<u8> {
        let mut bytes = self.note.clone();
        bytes.extend(self.nodes.iter().flat_map(|node| node.to_bytes()));
        bytes.extend(self.entries.iter().flat_map(|&(entry, live)| entry.to_bytes(live)));
        bytes.extend((self.nodes.len() as u16).to_le_bytes());
        bytes.extend((self.entries.len() as u16).to_le_bytes());
        bytes.extend((self.distance() as u32).to_le_bytes());
        bytes
    }

    /// For each node whether no T occurs in it, where its operands are there.
    pub fn plain(&self) -> Vec<bool> {
        let mut plain: Vec<bool> = Vec::with_capacity(self.nodes.len());
        for node in &self.nodes {
            let mark = |i: u16| plain.get(usize::from(i)).copied().unwrap_or(true);
            let is_plain = match node.kind {
                8 => false,
                3 => mark(node.a),
                4 | 5 => mark(node.a) && mark(node.b),
                _ => true,
            };
            plain.push(is_plain);
        }
        plain
    }
}
