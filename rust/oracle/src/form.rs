//! Good form of a slot, from docs/ANSWERS.md alone: a walk over its descriptors, one behind the other from byte 0.
use std::ops::Range;

/// What is found in a slot.
#[derive(Clone, Debug, PartialEq, Eq)]
pub enum Form {
    /// A size that is not from 21 to 257.
    WrongSize,
    /// The offset of the first descriptor that breaks the form, and why it does.
    Broken(usize, Cause),
    /// Good form, and stuffing alone.
    Empty,
    /// Good form, and where our one descriptor starts and ends.
    Ours(Range<usize>),
}

/// Why a descriptor breaks the form: the first of these that holds.
#[derive(Clone, Copy, Debug, PartialEq, Eq, PartialOrd, Ord)]
pub enum Cause {
    OneByteLeft,
    PastTheEnd,
    ForeignTag,
    Length0,
    ThirdByte,
    Second,
}

/// The descriptor at an offset, if it is stuffing or the first of ours.
fn descriptor(slot: &[u8], at: usize, first: bool) -> Result<&[u8], Cause> {
    let length = *slot.get(at + 1).ok_or(Cause::OneByteLeft)?;
    let found = slot.get(at..at + 2 + usize::from(length)).ok_or(Cause::PastTheEnd)?;
    match found {
        [0x42, ..] => Ok(found),
        [0x7F, _] => Err(Cause::Length0),
        [0x7F, _, 0x24, ..] if first => Ok(found),
        [0x7F, _, 0x24, ..] => Err(Cause::Second),
        [0x7F, ..] => Err(Cause::ThirdByte),
        _ => Err(Cause::ForeignTag),
    }
}

/// Each descriptor is stuffing or ours, at most one is ours, and the last one ends where the slot ends.
pub fn form(slot: &[u8]) -> Form {
    if !(21..=257).contains(&slot.len()) {
        return Form::WrongSize;
    }
    let mut ours = None;
    let mut at = 0;
    while at < slot.len() {
        let end = match descriptor(slot, at, ours.is_none()) {
            Ok(found) => at + found.len(),
            Err(cause) => return Form::Broken(at, cause),
        };
        if slot[at] == 0x7F {
            ours = Some(at..end);
        }
        at = end;
    }
    ours.map_or(Form::Empty, Form::Ours)
}
