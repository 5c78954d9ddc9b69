//! Books that are not lawful, and bytes that are not quite a book.

use super::draft::Draft;
use super::random::Random;

/// Makes a record of the draft unlawful, where it has one. It may be so in several ways, of which one is told first.
pub fn damage_record(random: &mut Random, draft: &mut Draft) {
    let ways = random.pick(&[1, 1, 2, 3]);
    if !draft.entries.is_empty() && (draft.nodes.is_empty() || random.percent(60)) {
        let i = random.below(draft.entries.len());
        (0..ways).for_each(|_| damage_entry(random, draft, i));
    } else if !draft.nodes.is_empty() {
        let i = random.below(draft.nodes.len());
        (0..ways).for_each(|_| damage_node(random, draft, i));
    }
}

/// An operand that is over a limit, barely or by far.
fn over(random: &mut Random, limit: usize) -> u16 {
    match random.below(4) {
        0 | 1 => limit as u16,
        2 => (limit + random.below(10)) as u16,
        _ => u16::MAX - (random.below(3) as u16),
    }
}

fn damage_node(random: &mut Random, draft: &mut Draft, i: usize) {
    let plain = draft.plain();
    let with_typical: Vec<usize> = (0..i).filter(|&j| !plain[j]).collect();
    let node = &mut draft.nodes[i];
    match random.below(10) {
        0 => node.kind = random.pick(&[9, 10, 16, 18, 24, 127, 254, 255]),
        1 => (node.kind, node.a, node.b) = (2, over(random, 64), 0),
        2 => (node.kind, node.a) = (random.pick(&[6, 7]), over(random, 16)),
        3 => match node.kind {
            0 | 1 => node.a = over(random, 1),
            _ => node.b = over(random, 1),
        },
        4 => node.b = over(random, 1),
        5 => (node.kind, node.a, node.b) = (3, over(random, i), 0),
        6 => (node.kind, node.b) = (random.pick(&[4, 5]), over(random, i)),
        7 => (node.kind, node.a) = (random.pick(&[4, 5]), over(random, i)),
        8 => (node.kind, node.a, node.b) = (random.pick(&[6, 7]), random.below(16) as u16, over(random, i)),
        _ => {
            if !with_typical.is_empty() {
                let typical = random.pick(&with_typical) as u16;
                (node.kind, node.a, node.b) = match random.below(3) {
                    0 => (8, typical, 0),
                    kind => (5 + kind as u8, random.below(16) as u16, typical),
                };
            }
        }
    }
}

fn damage_entry(random: &mut Random, draft: &mut Draft, i: usize) {
    let plain = draft.plain();
    let count = draft.nodes.len();
    let with_typical: Vec<usize> = (0..count).filter(|&j| !plain[j]).collect();
    let deep: Vec<usize> = with_typical.iter().copied().filter(|&j| draft.nodes[j].kind != 8).collect();
    let entry = &mut draft.entries[i].0;
    match random.below(9) {
        0 => entry.kind = random.pick(&[0, 4, 5, 8, 15, 32, 33, 34, 64, 129, 239]),
        1 => (entry.kind, entry.a) = (2, over(random, 32)),
        2 => (entry.kind, entry.a, entry.b, entry.c) = (3, over(random, 16), 0, 0),
        3 => (entry.kind, entry.a, entry.b, entry.c) = (3, 0, over(random, 32), 31),
        4 => (entry.kind, entry.a, entry.b, entry.c) = (3, 15, 31, over(random, 32)),
        5 => (entry.kind, entry.c) = (random.pick(&[1, 2]), over(random, 1)),
        6 => match random.below(3) {
            0 => (entry.kind, entry.a, entry.b, entry.c) = (2, random.below(32) as u16, over(random, count), 0),
            1 => (entry.kind, entry.a) = (1, over(random, count)),
            _ => (entry.kind, entry.b) = (1, over(random, count)),
        },
        7 if !with_typical.is_empty() => (entry.kind, entry.b, entry.c) = (1, random.pick(&with_typical) as u16, 0),
        _ if !deep.is_empty() => (entry.kind, entry.a, entry.c) = (1, random.pick(&deep) as u16, 0),
        _ => entry.c = over(random, 1),
    }
}

/// Damages the bytes of a sealed book: often the trailer, else any byte or the length.
pub fn damage_bytes(random: &mut Random, bytes: &mut Vec<u8>) {
    let end = bytes.len();
    match random.below(12) {
        0 | 1 if end >= 8 => {
            // a count, off by one or over its limit
            let at = end - 8 + 2 * random.below(2);
            let count = u16::from_le_bytes([bytes[at], bytes[at + 1]]);
            let changed = match random.below(5) {
                0 => count.wrapping_add(1),
                1 => count.wrapping_sub(1),
                2 => random.pick(&[257, 513]),
                3 => random.pick(&[256, 512]),
                _ => random.word(),
            };
            bytes[at..at + 2].copy_from_slice(&changed.to_le_bytes());
        }
        2 | 3 if end >= 8 => {
            let at = end - 4;
            let distance = u32::from_le_bytes([bytes[at], bytes[at + 1], bytes[at + 2], bytes[at + 3]]);
            let changed = match random.below(5) {
                0 => distance.wrapping_add(1),
                1 => distance.wrapping_sub(1),
                2 => distance | 1 << (16 + random.below(16)),
                3 => u32::MAX,
                _ => random.bits() as u32,
            };
            bytes[at..].copy_from_slice(&changed.to_le_bytes());
        }
        4 if end > 0 => {
            // the first bytes are missing
            let cut = random.between(1, end.min(40));
            bytes.drain(..cut);
        }
        5 if end > 0 => {
            let cut = random.between(1, end.min(10));
            bytes.truncate(end - cut);
        }
        6 => bytes.truncate(random.below(8).min(end)),
        7 => {
            let more = random.between(1, 8);
            bytes.extend((0..more).map(|_| random.byte()));
        }
        8 => {
            // a trailer alone, of records that are not there
            let (nodes, entries) = (random.below(4), random.below(4));
            bytes.truncate(random.below(20).min(end));
            bytes.extend((nodes as u16).to_le_bytes());
            bytes.extend((entries as u16).to_le_bytes());
            bytes.extend((5 * nodes as u32 + 7 * entries as u32).to_le_bytes());
        }
        _ if end > 0 => {
            for _ in 0..random.between(1, 3) {
                let at = random.below(end);
                bytes[at] = if random.percent(50) { bytes[at] ^ 1 << random.below(8) } else { random.byte() };
            }
        }
        _ => bytes.push(random.byte()),
    }
}

/// Random bytes, which are hardly ever a book.
pub fn noise(random: &mut Random, longest: usize) -> Vec<u8> {
    let length = random.between(0, longest);
    (0..length).map(|_| random.byte()).collect()
}
