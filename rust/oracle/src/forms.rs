//! The slots with a name of the program `replay_jobs`: arrangements of stuffing and ours, and what breaks the form.
use crate::jobs::{again, begin, reading};
use crate::values::COUNT;

/// A name, a slot's size, and its descriptors by tag and length; these come again from the first where they do not reach the slot's end.
type Row = (&'static str, usize, &'static [(u8, u8)]);

const ROWS: [Row; 39] = [
    ("stuffing, ours of length 1", 21, &[(0x42, 16), (0x7F, 1)]),
    ("ours of length 1, stuffing", 21, &[(0x7F, 1), (0x42, 16)]),
    ("stuffing, ours to the end", 44, &[(0x42, 10), (0x7F, 30)]),
    ("stuffing, ours, stuffing", 44, &[(0x42, 10), (0x7F, 19), (0x42, 9)]),
    ("ours, stuffing twice", 44, &[(0x7F, 19), (0x42, 0), (0x42, 19)]),
    ("stuffing, ours of a body of 17", 44, &[(0x42, 0), (0x7F, 18), (0x42, 20)]),
    ("stuffing twice", 44, &[(0x42, 10), (0x42, 30)]),
    ("128 pieces", 256, &[(0x42, 0)]),
    ("length 0, then 0x24", 44, &[(0x7F, 0), (0x24, 40)]),
    ("length 0, then stuffing", 44, &[(0x7F, 0), (0x42, 40)]),
    ("one byte left", 44, &[(0x42, 10), (0x7F, 29)]),
    ("one byte past the end", 44, &[(0x42, 10), (0x7F, 31)]),
    ("stuffing past the end", 44, &[(0x42, 10), (0x42, 31)]),
    ("a length of 255", 44, &[(0x42, 10), (0x7F, 255)]),
    ("two of ours", 44, &[(0x7F, 19), (0x7F, 21)]),
    ("two of ours, stuffing between", 44, &[(0x7F, 19), (0x42, 0), (0x7F, 19)]),
    ("foreign tag in the middle", 44, &[(0x42, 10), (0x48, 8), (0x7F, 20)]),
    ("foreign tag behind ours", 44, &[(0x42, 0), (0x7F, 19), (0x48, 19)]),
    ("size 20", 20, &[(0x42, 0), (0x42, 16)]),
    ("size 21", 21, &[(0x42, 0), (0x42, 17)]),
    ("size 257", 257, &[(0x42, 0), (0x7F, 253)]),
    ("size 258", 258, &[(0x42, 1), (0x7F, 253)]),
    ("size 20, broken", 20, &[(0x48, 3)]),
    ("size 258, broken", 258, &[(0x48, 3)]),
    ("first past the end", 44, &[(0x42, 43)]),
    ("first tag foreign", 44, &[(0x48, 42)]),
    ("stuffing, one byte left", 44, &[(0x42, 41)]),
    ("stuffing, foreign tag", 44, &[(0x42, 10), (0x48, 30)]),
    ("stuffing, length 0", 44, &[(0x42, 10), (0x7F, 0), (0x42, 28)]),
    ("stuffing, two of ours", 44, &[(0x42, 0), (0x7F, 19), (0x7F, 19)]),
    ("ours, one byte left", 44, &[(0x7F, 41)]),
    ("ours, stuffing past the end", 44, &[(0x7F, 19), (0x42, 22)]),
    ("ours, foreign tag", 44, &[(0x7F, 19), (0x48, 21)]),
    ("ours, length 0", 44, &[(0x7F, 19), (0x7F, 0), (0x42, 19)]),
    ("ours, a second past the end", 44, &[(0x7F, 19), (0x7F, 22)]),
    ("foreign tag past the end", 44, &[(0x42, 10), (0x48, 31)]),
    ("length 0 at the end", 44, &[(0x42, 40), (0x7F, 0)]),
    ("length 0 and 0x24 at the end", 44, &[(0x42, 39), (0x7F, 0), (0x24, 0)]),
    ("one byte left of 257", 257, &[(0x42, 254)]),
];

/// The same with another third byte, which stands at a place.
const OTHER_THIRD: [(Row, usize); 3] = [
    (("first with another third byte", 44, &[(0x7F, 42)]), 2),
    (("stuffing, another third byte", 44, &[(0x42, 10), (0x7F, 30)]), 14),
    (("ours, another third byte", 44, &[(0x7F, 19), (0x7F, 21)]), 23),
];

/// The bytes of a slot: what is not the head of a descriptor is 0.
fn laid(size: usize, descriptors: &[(u8, u8)]) -> Vec<u8> {
    let mut bytes = vec![];
    for (tag, length) in descriptors.iter().cycle() {
        if bytes.len() >= size {
            break;
        }
        let mut content = vec![0; (*length).into()];
        if *tag == 0x7F && *length > 0 {
            content[0] = 0x24;
        }
        bytes.extend([*tag, *length]);
        bytes.extend(content);
    }
    bytes.truncate(size);
    bytes
}

/// A slot that was run: what it reads as, what begin answers for the default record, and what it answers once the slot is made empty.
pub struct Run {
    pub name: &'static str,
    pub shown: Vec<u32>,
    pub told: Vec<u32>,
    pub again: Option<Vec<u32>>,
}

fn run(name: &'static str, slot: &[u8]) -> Run {
    let told = begin(slot, &[0; COUNT], &[]).0;
    Run {
        name,
        shown: reading(slot),
        again: again(&told, slot),
        told,
    }
}

/// All of them.
pub fn rows() -> Vec<Run> {
    let plain = ROWS.iter().map(|(name, size, descriptors)| run(name, &laid(*size, descriptors)));
    let other = OTHER_THIRD.iter().map(|((name, size, descriptors), at)| {
        let mut slot = laid(*size, descriptors);
        slot[*at] = 0x25;
        run(name, &slot)
    });
    plain.chain(other).collect()
}
