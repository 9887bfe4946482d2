//! Refusals.

/// A refusal (document 01: refusal): its number in the refusal table and its
/// place, which is a line, an edge, a vertex, a position or an odd set, all
/// counted from 1, or 0.
#[derive(Clone, Copy, Debug, PartialEq, Eq)]
pub struct Refusal {
    /// The number in the refusal table, from 1.
    pub number: u32,
    /// The place.
    pub place: u64,
}

impl Refusal {
    /// The refusal of this number at this place.
    pub fn new(number: u32, place: u64) -> Refusal {
        Refusal { number, place }
    }
}
