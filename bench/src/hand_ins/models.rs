//! Random interpretations and orders, valid and not.

use super::random::Random;
use crate::reference::interpretation::{FIRST_INDIVIDUAL, FIRST_NAME, FIRST_ROLE, INTERPRETATION_BYTES};
use crate::reference::order::{ELEMENTS, elements};
use crate::reference::records::{INDIVIDUALS, NAMES, ROLES};

/// The bytes of a random valid interpretation of `n` elements.
pub fn interpretation(random: &mut Random, n: usize) -> Vec<u8> {
    let mut bytes = Vec::with_capacity(INTERPRETATION_BYTES);
    bytes.push(n as u8);
    let (in_names, in_roles) = (random.pick(&[0, 10, 30, 50, 80, 100]), random.pick(&[0, 5, 20, 50, 100]));
    for _ in 0..NAMES {
        bytes.extend(random.mask(n, in_names).to_le_bytes());
    }
    for _ in 0..ROLES {
        for x in 0..ELEMENTS {
            let leads = if x < n { random.mask(n, in_roles) } else { 0 };
            bytes.extend(leads.to_le_bytes());
        }
    }
    let few = random.percent(30);
    for _ in 0..INDIVIDUALS {
        bytes.push(if few { random.below(n.min(2)) } else { random.below(n) } as u8);
    }
    bytes
}

/// Makes one field of an interpretation bad.
pub fn spoil(random: &mut Random, bytes: &mut [u8]) {
    let n = usize::from(bytes[0]).clamp(1, ELEMENTS);
    let past = |random: &mut Random| if random.percent(50) { n } else { random.between(n, 255) };
    match random.below(5) {
        0 => bytes[0] = random.pick(&[0, 33, 34, 64, 128, 255]),
        1 | 2 if n < ELEMENTS => {
            let first = random.pick(&[FIRST_NAME, FIRST_ROLE]);
            let count = if first == FIRST_NAME { NAMES } else { ROLES * ELEMENTS };
            let bit = if random.percent(50) { n } else { random.between(n, ELEMENTS - 1) };
            bytes[first + 4 * random.below(count) + bit / 8] |= 1 << (bit % 8);
        }
        3 if n < ELEMENTS => {
            // what is not there leads to what is
            let x = random.between(n, ELEMENTS - 1);
            let y = random.below(n);
            let field = FIRST_ROLE + 4 * (ELEMENTS * random.below(ROLES) + x);
            bytes[field + y / 8] |= 1 << (y % 8);
        }
        _ => bytes[FIRST_INDIVIDUAL + random.below(INDIVIDUALS)] = past(random) as u8,
    }
}

/// A random strict order: for each element what is better.
pub fn strict_order(random: &mut Random, n: usize) -> Vec<u32> {
    let mut better = vec![0; n];
    let mut places: Vec<usize> = (0..n).collect();
    random.shuffle(&mut places);
    match random.below(5) {
        0 => {}
        1 => {
            // a chain
            let mut above = 0;
            for &x in &places {
                better[x] = above;
                above |= 1 << x;
            }
        }
        2 => {
            // ranks
            let ranks: Vec<usize> = (0..n).map(|_| random.below(4)).collect();
            for x in 0..n {
                better[x] = (0..n).fold(0, |set, y| set | u32::from(ranks[y] < ranks[x]) << y);
            }
        }
        _ => {
            // some pairs, and what follows from them
            let often = random.pick(&[3, 10, 30, 70]);
            for (i, &x) in places.iter().enumerate() {
                for &y in &places[..i] {
                    if random.percent(often) {
                        better[x] |= better[y] | 1 << y;
                    }
                }
            }
        }
    }
    better
}

/// Makes an order one that is hardly strict any more, and mostly is not.
pub fn spoil_order(random: &mut Random, better: &mut [u32]) {
    let n = better.len();
    let x = random.below(n);
    match random.below(6) {
        0 => better[x] |= 1 << x,
        1 if n < ELEMENTS => better[x] |= 1 << random.between(n, ELEMENTS - 1),
        2 => {
            // a pair back
            if let Some(y) = elements(better[x]).filter(|&y| y < n).last() {
                better[y] |= 1 << x;
            }
        }
        3 => better[x] &= better[x].wrapping_sub(1),
        4 => better[x] = random.mask(n, 50),
        _ => better[x] ^= 1 << random.below(n),
    }
}

pub fn pairs(better: &[u32]) -> Vec<u8> {
    better.iter().flat_map(|mask| mask.to_le_bytes()).collect()
}
