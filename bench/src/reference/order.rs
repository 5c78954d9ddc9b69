//! Orders: for each element the set of better elements, as a mask of 32 bits.

use super::refusal::{Refusal, Why};

pub const ELEMENTS: usize = 32;

pub trait Order {
    fn size(&self) -> usize;

    /// The elements better than this one; none past the size.
    fn better(&self, element: usize) -> u32;
}

/// The set of all elements below the size, which is 1 to 32.
pub fn all_below(size: usize) -> u32 {
    u32::MAX >> (ELEMENTS - size)
}

/// The elements of a set, from the lowest.
pub fn elements(set: u32) -> impl Iterator<Item = usize> {
    (0..ELEMENTS).filter(move |x| set >> x & 1 == 1)
}

/// An order as rows of masks. Each value is a strict order.
#[derive(Clone, Debug)]
struct Rows {
    size: usize,
    better: [u32; ELEMENTS],
}

impl Rows {
    fn fresh() -> Rows {
        Rows { size: 1, better: [0; ELEMENTS] }
    }

    fn better(&self, element: usize) -> u32 {
        self.better.get(element).copied().unwrap_or(0)
    }
}

/// An order that is filled from a mask of 4 bytes for each element.
#[derive(Clone, Debug)]
pub struct Pairs(Rows);

impl Pairs {
    pub fn fresh() -> Pairs {
        Pairs(Rows::fresh())
    }

    pub fn fill(&mut self, bytes: &[u8]) -> Result<(), Refusal> {
        let (masks, rest) = bytes.as_chunks::<4>();
        if !rest.is_empty() || masks.is_empty() || masks.len() > ELEMENTS {
            return Err(Why::PairsLength.at(bytes.len()));
        }
        let mut rows = Rows { size: masks.len(), better: [0; ELEMENTS] };
        for (row, mask) in rows.better.iter_mut().zip(masks) {
            *row = u32::from_le_bytes(*mask);
        }
        let all = all_below(rows.size);
        for (x, &better) in rows.better[..rows.size].iter().enumerate() {
            if better >> x & 1 == 1 {
                return Err(Why::BetterThanItself.at(x));
            }
            if better & !all != 0 {
                return Err(Why::BetterPastSize.at(x));
            }
            if elements(better).any(|y| rows.better[y] & !better != 0) {
                return Err(Why::NotTransitive.at(x));
            }
        }
        self.0 = rows;
        Ok(())
    }
}

impl Order for Pairs {
    fn size(&self) -> usize {
        self.0.size
    }

    fn better(&self, element: usize) -> u32 {
        self.0.better(element)
    }
}

/// An order that is filled from a rank for each element: the better has the lower byte.
#[derive(Clone, Debug)]
pub struct Ranks(Rows);

impl Ranks {
    pub fn fresh() -> Ranks {
        Ranks(Rows::fresh())
    }

    pub fn fill(&mut self, bytes: &[u8]) -> Result<(), Refusal> {
        if bytes.is_empty() || bytes.len() > ELEMENTS {
            return Err(Why::RanksLength.at(bytes.len()));
        }
        let mut rows = Rows { size: bytes.len(), better: [0; ELEMENTS] };
        for (row, rank) in rows.better.iter_mut().zip(bytes) {
            for (y, other) in bytes.iter().enumerate() {
                *row |= u32::from(other < rank) << y;
            }
        }
        self.0 = rows;
        Ok(())
    }
}

impl Order for Ranks {
    fn size(&self) -> usize {
        self.0.size
    }

    fn better(&self, element: usize) -> u32 {
        self.0.better(element)
    }
}
