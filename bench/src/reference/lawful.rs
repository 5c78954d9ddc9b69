//! The tests of an offered record, in the order of their numbers: kind, range, operands, T in its place.

use super::records::{Entry, INDIVIDUALS, NAMES, Node, ROLES, RawEntry, RawNode};
use super::refusal::Why;

/// A node that fits after those whose marks are given, and its own mark: whether no T occurs in it. The marks answer
/// none for a node that is not there.
pub fn fitting_node(raw: RawNode, plain: impl Fn(u16) -> Option<bool>) -> Result<(Node, bool), Why> {
    let node = raw.node().ok_or(Why::NodeKind)?;
    let in_range = match node {
        Node::Top | Node::Bottom => raw.a == 0 && raw.b == 0,
        Node::Name(name) => usize::from(name) < NAMES && raw.b == 0,
        Node::Not(_) | Node::Typical(_) => raw.b == 0,
        Node::And(..) | Node::Or(..) => true,
        Node::All(role, _) | Node::Exists(role, _) => usize::from(role) < ROLES,
    };
    if !in_range {
        return Err(Why::NodeRange);
    }
    let mark = |operand| plain(operand).ok_or(Why::NodeOperand);
    let is_plain = match node {
        Node::Top | Node::Bottom | Node::Name(_) => true,
        Node::Not(c) => mark(c)?,
        Node::And(c, d) | Node::Or(c, d) => {
            let (c, d) = (mark(c)?, mark(d)?);
            c && d
        }
        Node::All(_, c) | Node::Exists(_, c) => {
            if !mark(c)? {
                return Err(Why::NodeTypical);
            }
            true
        }
        Node::Typical(c) => {
            if !mark(c)? {
                return Err(Why::NodeTypical);
            }
            false
        }
    };
    Ok((node, is_plain))
}

/// An entry that fits the nodes of a book: the marks are as above, and `typical` tells which nodes are T of something.
pub fn fitting_entry(
    raw: RawEntry,
    plain: impl Fn(u16) -> Option<bool>,
    typical: impl Fn(u16) -> bool,
) -> Result<Entry, Why> {
    let entry = raw.entry().ok_or(Why::EntryKind)?;
    let in_range = match entry {
        Entry::Inclusion { .. } => raw.c == 0,
        Entry::Fact { individual, .. } => usize::from(individual) < INDIVIDUALS && raw.c == 0,
        Entry::RoleFact { role, from, to } => {
            usize::from(role) < ROLES && usize::from(from) < INDIVIDUALS && usize::from(to) < INDIVIDUALS
        }
    };
    if !in_range {
        return Err(Why::EntryRange);
    }
    let mark = |operand| plain(operand).ok_or(Why::EntryOperand);
    match entry {
        Entry::Inclusion { left, right } => {
            let (left_plain, right_plain) = (mark(left)?, mark(right)?);
            if !right_plain || !(left_plain || typical(left)) {
                return Err(Why::EntryTypical);
            }
        }
        Entry::Fact { node, .. } => {
            mark(node)?;
        }
        Entry::RoleFact { .. } => {}
    }
    Ok(entry)
}
