//! The test of sealed bytes.

use super::lawful::{fitting_entry, fitting_node};
use super::records::{ENTRY_LIMIT, NODE_LIMIT, RawEntry, RawNode};
use super::refusal::{Refusal, Why};

pub const NODE_BYTES: usize = 5;
pub const ENTRY_BYTES: usize = 7;
pub const TRAILER_BYTES: usize = 8;

/// The records that the trailer of sealed bytes tells of.
#[derive(Clone, Copy)]
pub struct Frame<'a> {
    pub nodes: &'a [[u8; NODE_BYTES]],
    pub entries: &'a [[u8; ENTRY_BYTES]],
    /// The first byte of the first node.
    start: usize,
}

/// The frame of the bytes, where the trailer is one.
fn frame(bytes: &[u8]) -> Result<Frame<'_>, Refusal> {
    let bad = |why: Why| why.at(bytes.len());
    let (before, trailer) = bytes.split_last_chunk::<TRAILER_BYTES>().ok_or(bad(Why::TooShort))?;
    let &[n0, n1, e0, e1, d0, d1, d2, d3] = trailer;
    let node_count = usize::from(u16::from_le_bytes([n0, n1]));
    let entry_count = usize::from(u16::from_le_bytes([e0, e1]));
    let distance = u32::from_le_bytes([d0, d1, d2, d3]) as usize;
    if node_count > NODE_LIMIT || entry_count > ENTRY_LIMIT {
        return Err(bad(Why::CountsOverLimit));
    }
    if distance != NODE_BYTES * node_count + ENTRY_BYTES * entry_count {
        return Err(bad(Why::WrongDistance));
    }
    let start = before.len().checked_sub(distance).ok_or(bad(Why::NoRoom))?;
    let (nodes, entries) = before[start..].split_at(NODE_BYTES * node_count);
    Ok(Frame { nodes: nodes.as_chunks().0, entries: entries.as_chunks().0, start })
}

/// The frame of bytes that are a sealed book; else the first thing wrong.
pub fn check(bytes: &[u8]) -> Result<Frame<'_>, Refusal> {
    let frame = frame(bytes)?;
    let mut marks = [false; NODE_LIMIT];
    for (i, node) in frame.nodes.iter().enumerate() {
        let earlier = &marks[..i];
        let (_, plain) = fitting_node(RawNode::from_bytes(node), |j| earlier.get(usize::from(j)).copied())
            .map_err(|why| why.at(frame.start + NODE_BYTES * i))?;
        marks[i] = plain;
    }
    let marks = &marks[..frame.nodes.len()];
    let entries_start = frame.start + NODE_BYTES * frame.nodes.len();
    for (i, entry) in frame.entries.iter().enumerate() {
        let (raw, _) = RawEntry::from_bytes(entry);
        let typical = |j| RawNode::from_bytes(&frame.nodes[usize::from(j)]).kind == 8;
        fitting_entry(raw, |j| marks.get(usize::from(j)).copied(), typical)
            .map_err(|why| why.at(entries_start + ENTRY_BYTES * i))?;
    }
    Ok(frame)
}
