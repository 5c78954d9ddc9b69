//! Nodes and entries: as they are written, and as values.

pub const NODE_LIMIT: usize = 512;
pub const ENTRY_LIMIT: usize = 256;
pub const NAMES: usize = 64;
pub const ROLES: usize = 16;
pub const INDIVIDUALS: usize = 32;

/// A node as it is written. Any numbers may stand here.
#[derive(Clone, Copy, Debug, Default, PartialEq, Eq)]
pub struct RawNode {
    pub kind: u8,
    pub a: u16,
    pub b: u16,
}

/// An entry as it is written, without its mark.
#[derive(Clone, Copy, Debug, Default, PartialEq, Eq)]
pub struct RawEntry {
    pub kind: u8,
    pub a: u16,
    pub b: u16,
    pub c: u16,
}

#[derive(Clone, Copy, Debug, PartialEq, Eq)]
pub enum Node {
    Top,
    Bottom,
    Name(u16),
    Not(u16),
    And(u16, u16),
    Or(u16, u16),
    All(u16, u16),
    Exists(u16, u16),
    Typical(u16),
}

#[derive(Clone, Copy, Debug, PartialEq, Eq)]
pub enum Entry {
    Inclusion { left: u16, right: u16 },
    Fact { individual: u16, node: u16 },
    RoleFact { role: u16, from: u16, to: u16 },
}

/// An entry with its live mark.
#[derive(Clone, Copy, Debug, PartialEq, Eq)]
pub struct Line {
    pub entry: Entry,
    pub live: bool,
}

/// Added to the kind of a struck entry in sealed bytes.
pub const STRUCK: u8 = 16;

fn low_first(low: u8, high: u8) -> u16 {
    u16::from_le_bytes([low, high])
}

impl RawNode {
    pub fn new(kind: u8, a: u16, b: u16) -> RawNode {
        RawNode { kind, a, b }
    }

    pub fn from_bytes(&[kind, a0, a1, b0, b1]: &[u8; 5]) -> RawNode {
        RawNode { kind, a: low_first(a0, a1), b: low_first(b0, b1) }
    }

    pub fn to_bytes(self) -> [u8; 5] {
        let ([a0, a1], [b0, b1]) = (self.a.to_le_bytes(), self.b.to_le_bytes());
        [self.kind, a0, a1, b0, b1]
    }

    /// The node of this kind, or none where the kind is unknown.
    pub fn node(self) -> Option<Node> {
        let RawNode { kind, a, b } = self;
        Some(match kind {
            0 => Node::Top,
            1 => Node::Bottom,
            2 => Node::Name(a),
            3 => Node::Not(a),
            4 => Node::And(a, b),
            5 => Node::Or(a, b),
            6 => Node::All(a, b),
            7 => Node::Exists(a, b),
            8 => Node::Typical(a),
            _ => return None,
        })
    }
}

impl RawEntry {
    pub fn new(kind: u8, a: u16, b: u16, c: u16) -> RawEntry {
        RawEntry { kind, a, b, c }
    }

    /// An entry in sealed bytes: the entry as it is written, and whether it is live.
    pub fn from_bytes(&[kind, a0, a1, b0, b1, c0, c1]: &[u8; 7]) -> (RawEntry, bool) {
        let live = kind & STRUCK == 0;
        let (a, b, c) = (low_first(a0, a1), low_first(b0, b1), low_first(c0, c1));
        (RawEntry { kind: kind & !STRUCK, a, b, c }, live)
    }

    pub fn to_bytes(self, live: bool) -> [u8; 7] {
        let kind = if live { self.kind } else { self.kind | STRUCK };
        let ([a0, a1], [b0, b1], [c0, c1]) = (self.a.to_le_bytes(), self.b.to_le_bytes(), self.c.to_le_bytes());
        [kind, a0, a1, b0, b1, c0, c1]
    }

    /// The entry of this kind, or none where the kind is unknown.
    pub fn entry(self) -> Option<Entry> {
        let RawEntry { kind, a, b, c } = self;
        Some(match kind {
            1 => Entry::Inclusion { left: a, right: b },
            2 => Entry::Fact { individual: a, node: b },
            3 => Entry::RoleFact { role: a, from: b, to: c },
            _ => return None,
        })
    }
}

impl From<Node> for RawNode {
    fn from(node: Node) -> RawNode {
        match node {
            Node::Top => RawNode::new(0, 0, 0),
            Node::Bottom => RawNode::new(1, 0, 0),
            Node::Name(name) => RawNode::new(2, name, 0),
            Node::Not(c) => RawNode::new(3, c, 0),
            Node::And(c, d) => RawNode::new(4, c, d),
            Node::Or(c, d) => RawNode::new(5, c, d),
            Node::All(role, c) => RawNode::new(6, role, c),
            Node::Exists(role, c) => RawNode::new(7, role, c),
            Node::Typical(c) => RawNode::new(8, c, 0),
        }
    }
}

impl From<Entry> for RawEntry {
    fn from(entry: Entry) -> RawEntry {
        match entry {
            Entry::Inclusion { left, right } => RawEntry::new(1, left, right, 0),
            Entry::Fact { individual, node } => RawEntry::new(2, individual, node, 0),
            Entry::RoleFact { role, from, to } => RawEntry::new(3, role, from, to),
        }
    }
}
