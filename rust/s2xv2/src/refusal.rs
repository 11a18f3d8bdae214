//! Why a call was refused.
use crate::places::{field, inconsistent, short};
use core::fmt;

/// Why a call was refused: the refusals of docs/ANSWERS.md by their names, and two of the boundary's own, [`Refusal::TooManyIds`] and
/// [`Refusal::BadArchive`].
///
/// It prints as a sentence that names the part or the field.
///
/// ```
/// use s2xv2::{places, Refusal, S2Xv2SatelliteDeliverySystem};
///
/// let mut body = [0; 18];
/// assert!(S2Xv2SatelliteDeliverySystem::parse(&body).is_ok());
///
/// body[4] = 0x50;
/// let refusal = S2Xv2SatelliteDeliverySystem::parse(&body).unwrap_err();
/// assert_eq!(refusal, Refusal::Short { place: 4, need: 19, have: 18, least: 27 });
/// assert!(matches!(refusal, Refusal::Short { place: places::short::TIMESLICE_NUMBER, .. }));
/// assert_eq!((refusal.number(), refusal.told()), (1, [4, 19, 18, 27]));
/// assert_eq!(
///     refusal.to_string(),
///     "the body ends inside the timeslice number: 19 bytes are needed, 18 are there, and the whole has at least 27"
/// );
/// ```
#[derive(Debug, Clone, Copy, PartialEq, Eq, Hash)]
#[non_exhaustive]
pub enum Refusal {
    /// The body ends inside a part.
    Short {
        /// Which part, from 1 to 9 in wire order: [`places::short`](short).
        place: u8,
        /// Where that part ends.
        need: usize,
        /// How long the body is.
        have: usize,
        /// How long the whole body is at the least, by what is there of it.
        least: usize,
    },
    /// A body or an encoding of more than 4,096 bytes.
    Long {
        /// Its length, or 65,535 where it is above that.
        length: u16,
    },
    /// A record that contradicts itself.
    Inconsistent {
        /// The first place of list A that holds, from 1 to 9: [`places::inconsistent`](inconsistent).
        place: u8,
    },
    /// A value that the wire cannot carry.
    Field {
        /// The first place of list B that holds, from 1 to 22: [`places::field`](field).
        place: u8,
    },
    /// An output buffer that is too small.
    Room {
        /// How many bytes the record takes.
        need: usize,
        /// How many the buffer has.
        have: usize,
    },
    /// A slot of a wrong size: below 21 or above 257 bytes.
    Slot,
    /// A descriptor that is larger than the slot, or exactly one byte smaller.
    NoFit {
        /// The descriptor's size.
        size: usize,
    },
    /// A step on a slot of another size than at begin, or of a job that no begin and steps could give.
    OtherSize,
    /// A slot of a good size that is not in good form.
    SlotForm {
        /// Where the first descriptor starts that breaks the form, counted from the slot's start: one that runs past the slot's end or of which
        /// one byte is left, one that is neither stuffing nor ours, a 0x7F of length 0, or the second 0x7F.
        offset: usize,
    },
    /// A record with more than 255 ids. Their count crosses the boundary in one byte, so it is refused before anything crosses.
    TooManyIds {
        /// How many ids the record has.
        count: usize,
    },
    /// An answer with numbers that the library's contracts do not allow: what is linked is not the archive that this crate was made for. No
    /// bytes, record, slot or job of the caller's lead to it.
    BadArchive,
}

/// The words for a place, which counts from 1.
fn words(list: &[&'static str], place: u8) -> &'static str {
    let at = usize::from(place).checked_sub(1);
    at.and_then(|at| list.get(at)).copied().unwrap_or("a place that no list has")
}

/// So many are there.
fn are(count: usize) -> &'static str {
    if count == 1 {
        "is"
    } else {
        "are"
    }
}

impl Refusal {
    /// The number of the refusal: 1 to 8, and 12. [`Refusal::TooManyIds`] has 100 and [`Refusal::BadArchive`] 101, numbers of this crate's
    /// own: no archive answers them.
    #[must_use]
    pub const fn number(&self) -> u8 {
        match self {
            Self::Short { .. } => 1,
            Self::Long { .. } => 2,
            Self::Inconsistent { .. } => 3,
            Self::Field { .. } => 4,
            Self::Room { .. } => 5,
            Self::Slot => 6,
            Self::NoFit { .. } => 7,
            Self::OtherSize => 8,
            Self::SlotForm { .. } => 12,
            Self::TooManyIds { .. } => 100,
            Self::BadArchive => 101,
        }
    }

    /// What the refusal tells, in the order of its fields, with 0 where it tells less.
    #[must_use]
    pub fn told(&self) -> [usize; 4] {
        match *self {
            Self::Short { place, need, have, least } => [place.into(), need, have, least],
            Self::Long { length } => [length.into(), 0, 0, 0],
            Self::Inconsistent { place } | Self::Field { place } => [place.into(), 0, 0, 0],
            Self::Room { need, have } => [need, have, 0, 0],
            Self::NoFit { size } => [size, 0, 0, 0],
            Self::SlotForm { offset } => [offset, 0, 0, 0],
            Self::TooManyIds { count } => [count, 0, 0, 0],
            Self::Slot | Self::OtherSize | Self::BadArchive => [0; 4],
        }
    }
}

impl fmt::Display for Refusal {
    fn fmt(&self, f: &mut fmt::Formatter<'_>) -> fmt::Result {
        match *self {
            Self::Short { place, need, have, least } => {
                let part = words(short::WORDS, place);
                write!(
                    f,
                    "the body ends inside {part}: {need} bytes are needed, {have} {} there, and the whole has at least {least}",
                    are(have)
                )
            }
            Self::Long { length: u16::MAX } => f.write_str("65535 bytes or more are too long: 4096 are the most"),
            Self::Long { length } => write!(f, "{length} bytes are too long: 4096 are the most"),
            Self::Inconsistent { place } => write!(f, "the record contradicts itself: {}", words(inconsistent::WORDS, place)),
            Self::Field { place } => write!(f, "the wire cannot carry the record: {}", words(field::WORDS, place)),
            Self::Room { need, have } => write!(f, "the buffer is too small: {need} bytes are needed, {have} {} there", are(have)),
            Self::Slot => f.write_str("the slot has a wrong size: a slot has 21 to 257 bytes"),
            Self::NoFit { size } => write!(
                f,
                "a descriptor of {size} bytes is larger than the slot, or exactly one byte smaller"
            ),
            Self::OtherSize => f.write_str("the slot has another size than at begin, or no begin and steps could give the job"),
            Self::SlotForm { offset } => write!(f, "the slot is not in good form: the descriptor at offset {offset} breaks it"),
            Self::TooManyIds { count } => write!(f, "the record has {count} ids: 255 are the most that can cross the boundary"),
            Self::BadArchive => f.write_str("the linked archive gave no answer that its contracts allow: it is not the one for this crate"),
        }
    }
}

impl core::error::Error for Refusal {}

#[cfg(test)]
mod tests {
    use super::*;
    use alloc::string::ToString;

    #[test]
    fn sentences() {
        for (refusal, sentence) in [
            (
                Refusal::Short {
                    place: 1,
                    need: 18,
                    have: 1,
                    least: 18,
                },
                "the body ends inside the core: 18 bytes are needed, 1 is there, and the whole has at least 18",
            ),
            (
                Refusal::Short {
                    place: 6,
                    need: 23,
                    have: 19,
                    least: 27,
                },
                "the body ends inside a secondary delivery system id: 23 bytes are needed, 19 are there, and the whole has at least 27",
            ),
            (Refusal::Long { length: 4097 }, "4097 bytes are too long: 4096 are the most"),
            (
                Refusal::Long { length: 65_535 },
                "65535 bytes or more are too long: 4096 are the most",
            ),
            (
                Refusal::Inconsistent { place: 8 },
                "the record contradicts itself: sffi is present though sffi_selector is clear",
            ),
            (
                Refusal::Field { place: 9 },
                "the wire cannot carry the record: satellite_id is above 16777215",
            ),
            (
                Refusal::Field { place: 22 },
                "the wire cannot carry the record: postamble_pli is above 7",
            ),
            (
                Refusal::Room { need: 18, have: 0 },
                "the buffer is too small: 18 bytes are needed, 0 are there",
            ),
            (Refusal::Slot, "the slot has a wrong size: a slot has 21 to 257 bytes"),
            (
                Refusal::NoFit { size: 21 },
                "a descriptor of 21 bytes is larger than the slot, or exactly one byte smaller",
            ),
            (
                Refusal::SlotForm { offset: 20 },
                "the slot is not in good form: the descriptor at offset 20 breaks it",
            ),
            (
                Refusal::TooManyIds { count: 256 },
                "the record has 256 ids: 255 are the most that can cross the boundary",
            ),
            (
                Refusal::BadArchive,
                "the linked archive gave no answer that its contracts allow: it is not the one for this crate",
            ),
        ] {
            assert_eq!(refusal.to_string(), sentence);
        }
    }

    #[test]
    fn what_each_tells() {
        for (refusal, told) in [
            (
                Refusal::Short {
                    place: 4,
                    need: 19,
                    have: 18,
                    least: 27,
                },
                [4, 19, 18, 27],
            ),
            (Refusal::Long { length: 4097 }, [4097, 0, 0, 0]),
            (Refusal::Inconsistent { place: 8 }, [8, 0, 0, 0]),
            (Refusal::Field { place: 22 }, [22, 0, 0, 0]),
            (Refusal::Room { need: 18, have: 17 }, [18, 17, 0, 0]),
            (Refusal::Slot, [0; 4]),
            (Refusal::NoFit { size: 21 }, [21, 0, 0, 0]),
            (Refusal::OtherSize, [0; 4]),
            (Refusal::SlotForm { offset: 256 }, [256, 0, 0, 0]),
        ] {
            assert_eq!(refusal.told(), told);
        }
    }

    #[test]
    fn the_two_of_the_boundary_have_numbers_of_their_own() {
        let ids = Refusal::TooManyIds { count: 300 };
        assert_eq!((ids.number(), ids.told()), (100, [300, 0, 0, 0]));
        assert_eq!((Refusal::BadArchive.number(), Refusal::BadArchive.told()), (101, [0; 4]));
    }

    #[test]
    fn places_that_no_list_has() {
        for place in [0, 23, 255] {
            assert!(Refusal::Field { place }.to_string().ends_with("a place that no list has"));
        }
    }
}
