//! Interpretations: what a model is beside its order, read from 2,337 bytes.

use super::order::{ELEMENTS, all_below};
use super::records::{INDIVIDUALS, NAMES, ROLES};
use super::refusal::{Refusal, Why};

pub const FIRST_NAME: usize = 1;
pub const FIRST_ROLE: usize = FIRST_NAME + 4 * NAMES;
pub const FIRST_INDIVIDUAL: usize = FIRST_ROLE + 4 * ROLES * ELEMENTS;
pub const INTERPRETATION_BYTES: usize = FIRST_INDIVIDUAL + INDIVIDUALS;

pub struct Interpretation {
    size: usize,
    names: [u32; NAMES],
    roles: [[u32; ELEMENTS]; ROLES],
    individuals: [u8; INDIVIDUALS],
}

fn masks<const N: usize>(bytes: &[u8]) -> [u32; N] {
    let mut masks = [0; N];
    for (mask, bytes) in masks.iter_mut().zip(bytes.as_chunks::<4>().0) {
        *mask = u32::from_le_bytes(*bytes);
    }
    masks
}

impl Interpretation {
    /// The interpretation that the bytes say; else the length, or the lowest bad field.
    pub fn read(bytes: &[u8]) -> Result<Interpretation, Refusal> {
        if bytes.len() != INTERPRETATION_BYTES {
            return Err(Why::InterpretationLength.at(bytes.len()));
        }
        let size = usize::from(bytes[0]);
        if !(1..=ELEMENTS).contains(&size) {
            return Err(Why::BadSize.at(0));
        }
        let names = masks(&bytes[FIRST_NAME..FIRST_ROLE]);
        let mut roles = [[0; ELEMENTS]; ROLES];
        for (role, bytes) in roles.iter_mut().zip(bytes[FIRST_ROLE..FIRST_INDIVIDUAL].chunks_exact(4 * ELEMENTS)) {
            *role = masks(bytes);
        }
        let mut individuals = [0; INDIVIDUALS];
        individuals.copy_from_slice(&bytes[FIRST_INDIVIDUAL..]);
        let interpretation = Interpretation { size, names, roles, individuals };
        match interpretation.bad_field() {
            Some(refusal) => Err(refusal),
            None => Ok(interpretation),
        }
    }

    fn bad_field(&self) -> Option<Refusal> {
        let past = !all_below(self.size);
        for (i, mask) in self.names.iter().enumerate() {
            if mask & past != 0 {
                return Some(Why::BadNameMask.at(FIRST_NAME + 4 * i));
            }
        }
        for (i, &mask) in self.roles.as_flattened().iter().enumerate() {
            let place = FIRST_ROLE + 4 * i;
            if mask & past != 0 {
                return Some(Why::BadRoleMask.at(place));
            }
            if i % ELEMENTS >= self.size && mask != 0 {
                return Some(Why::BadRoleElement.at(place));
            }
        }
        let position = self.individuals.iter().position(|&x| usize::from(x) >= self.size);
        position.map(|i| Why::BadIndividual.at(FIRST_INDIVIDUAL + i))
    }

    pub fn size(&self) -> usize {
        self.size
    }

    /// The set of a concept name.
    pub fn name(&self, name: u16) -> u32 {
        self.names.get(usize::from(name)).copied().unwrap_or(0)
    }

    /// For each element, the elements that the role leads to.
    pub fn role(&self, role: u16) -> &[u32; ELEMENTS] {
        self.roles.get(usize::from(role)).unwrap_or(&[0; ELEMENTS])
    }

    /// The element of an individual.
    pub fn individual(&self, individual: u16) -> usize {
        self.individuals.get(usize::from(individual)).map_or(0, |&x| usize::from(x))
    }
}
