//! The answers by the numbers of docs/ANSWERS.md.

#[derive(Clone, Copy, Debug, PartialEq, Eq)]
pub enum Answer {
    Accepted(usize),
    Short {
        place: u32,
        need: usize,
        have: usize,
        least: usize,
    },
    Long(usize),
    Inconsistent(u32),
    Field(u32),
    Room {
        need: usize,
        have: usize,
    },
}

/// How many cells a table of counts has: one for each answer, or for each of its places.
pub const CELLS: usize = 43;

impl Answer {
    /// The answer's own number, and then what it tells.
    pub fn numbers(self) -> Vec<u32> {
        match self {
            Answer::Accepted(result) => vec![0, result as u32],
            Answer::Short { place, need, have, least } => vec![1, place, need as u32, have as u32, least as u32],
            Answer::Long(length) => vec![2, length as u32],
            Answer::Inconsistent(place) => vec![3, place],
            Answer::Field(place) => vec![4, place],
            Answer::Room { need, have } => vec![5, need as u32, have as u32],
        }
    }

    /// Where the answer is counted.
    pub fn cell(self) -> usize {
        match self {
            Answer::Accepted(_) => 0,
            Answer::Short { place, .. } => place as usize,
            Answer::Long(_) => 10,
            Answer::Inconsistent(place) => 10 + place as usize,
            Answer::Field(place) => 19 + place as usize,
            Answer::Room { .. } => 42,
        }
    }
}

/// Answer 2 for a length, which it tells up to 65,535.
pub fn long(length: usize) -> Answer {
    Answer::Long(length.min(65_535))
}
