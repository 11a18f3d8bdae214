//! The begins with a name of the program `replay_jobs`: each answer of begin, by the plain model of `jobs.rs`. Where
//! begin is refused, the job that it gives is refused by a step, and the slot stays as it was; where that is for its
//! form, it is then made empty and begun again.
use crate::jobs::{again, begin, filled, step};
use crate::stream::Stream;
use crate::values::*;

/// A record with every part that mode 5 has, no two of its wide fields alike.
const FULL: [(usize, u32); 37] = [
    (0, 0x0102_0304),
    (MODE, 5),
    (FLAG, 1),
    (ROLL_OFF, 6),
    (RESERVED_2, 2),
    (6, 1),
    (7, 1),
    (BOND, 1),
    (POLARIZATION, 3),
    (RESERVED_1, 1),
    (TS_GS, 2),
    (PROFILES, 21),
    (SATELLITE, 0x000A_0B0C),
    (15, 0x1122_3344),
    (16, 0x5566_7788),
    (STREAM_THERE, 1),
    (STREAM, 153),
    (RESERVED_6, 37),
    (TIMESLICE_THERE, 1),
    (TIMESLICE, 170),
    (RESERVED_7, 85),
    (ID_0, 0xBBCC_DDEE),
    (ID_1, 0x1234_5678),
    (BONDS, 2),
    (SUPERFRAME_THERE, 1),
    (SOSF, 154),
    (SFFI_SELECTOR, 1),
    (PLAN_SELECTOR, 1),
    (BLOCK_RESERVED_2, 1),
    (REFERENCE, 703_710),
    (SFFI_THERE, 1),
    (SFFI, 11),
    (PAYLOAD, 344_865),
    (PLAN_THERE, 1),
    (PLAN, 0xFEDC_BA98),
    (PILOTS, 19),
    (POSTAMBLE, 5),
];

/// What makes of it one with no conditional part, in mode 9.
const CORE: [(usize, u32); 8] = [
    (MODE, 9),
    (MODE_RESERVED, 1),
    (FLAG, 0),
    (STREAM_THERE, 0),
    (TIMESLICE_THERE, 0),
    (BOND, 3),
    (BONDS, 0),
    (SUPERFRAME_THERE, 0),
];

/// A slot: its size; the tag, the length and the third byte of its first descriptor; and the tag of the one behind it.
type Layout = (usize, [u8; 4]);

/// Empty ones, ones that hold a record, those that are in no good form, named by what is wrong with them, and such a one in wrong sizes.
const EMPTY_20: Layout = (20, [0x42, 18, 0x24, 0x42]);
const EMPTY_21: Layout = (21, [0x42, 19, 0x24, 0x42]);
const EMPTY_22: Layout = (22, [0x42, 20, 0x24, 0x42]);
const HELD_60: Layout = (60, [0x7F, 47, 0x24, 0x42]);
const HELD_258: Layout = (258, [0x7F, 250, 0x24, 0x42]);
const FIRST_TAG: Layout = (60, [0x48, 47, 0x24, 0x42]);
const EXTENSION: Layout = (60, [0x7F, 47, 0x17, 0x42]);
const LENGTH_0: Layout = (60, [0x7F, 0, 0x24, 0x42]);
const SECOND_TAG: Layout = (60, [0x7F, 47, 0x24, 0x48]);
const BROKEN_20: Layout = (20, [0x48, 18, 0x24, 0x42]);
const BROKEN_258: Layout = (258, [0x7F, 250, 0x24, 0x48]);

/// Faults of a record in mode 9: a satellite_id of 25 bits, and the mode `Reserved(1)`.
const WIDE: (usize, u32) = (SATELLITE, 0x010A_0B0C);
const MODE_1: (usize, u32) = (MODE, 1);

/// A name, a slot, whether the record has all parts, fields that are set anew, and the tail's length.
type Row = (&'static str, Layout, bool, &'static [(usize, u32)], usize);

const ROWS: [Row; 23] = [
    ("empty slot of 21", EMPTY_21, false, &[], 0),
    ("over a record", HELD_60, true, &[], 5),
    ("slot of 20", EMPTY_20, false, &[], 0),
    ("slot of 258", HELD_258, false, &[], 3),
    ("first tag", FIRST_TAG, false, &[], 2),
    ("extension", EXTENSION, false, &[], 2),
    ("length 0", LENGTH_0, false, &[], 2),
    ("second tag", SECOND_TAG, false, &[], 2),
    ("mode Reserved(1)", HELD_60, false, &[MODE_1], 2),
    ("no superframe", HELD_60, false, &[(MODE, 4), (MODE_RESERVED, 0)], 2),
    ("4097 bytes", HELD_60, false, &[], 4079),
    ("4096 bytes", HELD_60, false, &[], 4078),
    ("one byte larger", EMPTY_21, false, &[], 1),
    ("one byte smaller", EMPTY_22, false, &[], 0),
    ("wide satellite_id", HELD_60, false, &[WIDE], 2),
    ("bond count 0", HELD_60, true, &[(BONDS, 0)], 2),
    ("6 before 12, 20 bytes", BROKEN_20, false, &[MODE_1, WIDE], 2),
    ("6 before 12, 258 bytes", BROKEN_258, false, &[MODE_1, WIDE], 2),
    ("12 before 3", FIRST_TAG, false, &[MODE_1], 2),
    ("12 before both lists", SECOND_TAG, false, &[MODE_1, WIDE], 2),
    ("3 before 2", HELD_60, false, &[MODE_1], 4079),
    ("2 before 7", HELD_60, false, &[WIDE], 4079),
    ("7 before 4", EMPTY_22, false, &[WIDE], 0),
];

/// Drawn bytes, with a first descriptor, and behind it one that ends where the slot ends.
fn laid((size, [tag, length, third, second]): Layout) -> Vec<u8> {
    let mut bytes = filled(length.into(), size);
    bytes[..3].copy_from_slice(&[tag, length, third]);
    let end = length as usize + 2;
    if end + 2 <= size {
        bytes[end] = second;
        bytes[end + 1] = (size - end - 2) as u8;
    }
    bytes
}

fn record(full: bool, set: &[(usize, u32)]) -> Values {
    let core: &[(usize, u32)] = if full { &[] } else { &CORE };
    let mut values = [0; COUNT];
    for (field, value) in FULL.iter().chain(core).chain(set) {
        values[*field] = *value;
    }
    values
}

/// A begin that was run: what it answers; what a step of its job answers, how many stores it makes and whether the job
/// is done; a digest of the slot after the step; and what begin answers in the emptied slot.
pub struct Run {
    pub name: &'static str,
    pub told: Vec<u32>,
    pub step: [u32; 3],
    pub digest: u32,
    pub again: Option<Vec<u32>>,
}

/// All of them.
pub fn rows() -> Vec<Run> {
    let run = |(name, layout, full, set, tail): &Row| {
        let mut slot = laid(*layout);
        let (told, mut job) = begin(&slot, &record(*full, set), &filled(1, *tail));
        let [stores, done, answer] = step(&mut job, &mut slot, 1000);
        let mut s = Stream::default();
        s.put_bytes("byte of the slot", &slot);
        Run {
            name,
            again: again(&told, &slot),
            told,
            step: [answer, stores, done],
            digest: s.digest,
        }
    };
    ROWS.iter().map(run).collect()
}
