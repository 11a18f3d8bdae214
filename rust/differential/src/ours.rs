//! The safe crate, with its answers as numbers.
use crate::numbers::to_values;
use crate::types::Record;
use oracle::values::{Values, COUNT};
use s2xv2::{Progress, Refusal};

/// An answer's number and what it tells, with 0 where it tells less.
pub type Told = [u32; 5];

/// What a body or a slot reads as.
#[derive(Debug, PartialEq)]
pub struct Reading<'a> {
    pub told: Told,
    pub values: Values,
    pub tail: &'a [u8],
}

fn number(n: usize) -> u32 {
    u32::try_from(n).expect("no answer tells so much")
}

pub fn told<T>(result: &Result<T, Refusal>, accepted: impl Fn(&T) -> [usize; 2]) -> Told {
    match result {
        Ok(result) => {
            let [first, second] = accepted(result);
            [0, number(first), number(second), 0, 0]
        }
        Err(refusal) => {
            let [first, second, third, fourth] = refusal.told().map(number);
            [refusal.number().into(), first, second, third, fourth]
        }
    }
}

/// The same of the oracle's numbers.
pub fn padded(numbers: &[u32]) -> Told {
    let mut told = [0; 5];
    told[..numbers.len()].copy_from_slice(numbers);
    told
}

pub fn length(result: Result<usize, Refusal>) -> Told {
    told(&result, |length| [*length, 0])
}

/// Stores made, whether it is done, and the answer's number, as the oracle's step has them.
pub fn step(result: Result<Progress, Refusal>) -> [u32; 3] {
    match result {
        Ok(progress) => [number(progress.stores), progress.done.into(), 0],
        Err(refusal) => [0, 0, refusal.number().into()],
    }
}

/// A body's reading, which tells where the tail starts.
pub fn reading<'a>(body: &[u8], result: &Result<Record<'a>, Refusal>) -> Reading<'a> {
    Reading {
        told: told(result, |record| [body.len() - record.reserved_tail.len(), 0]),
        values: result.as_ref().map_or([0; COUNT], to_values),
        tail: result.as_ref().map_or(&[], |record| record.reserved_tail),
    }
}
