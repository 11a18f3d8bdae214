//! The cases with a name: each row of the table of bodies at the edges, the errors that look right, the edges of
//! both lists, and the rows of the table of least totals.
use crate::generator::{plain, Body, Written};
use crate::values::*;

/// A body's length, and bytes of it that are not 0.
type BodyRow = (usize, &'static [(usize, u8)]);

const BODIES: [BodyRow; 28] = [
    // The rows of the table, in its order.
    (0, &[]),
    (18, &[]),
    (19, &[]),
    (18, &[(4, 0x08)]),
    (20, &[(4, 0x10), (6, 0x80)]),
    (18, &[(6, 0x80)]),
    (18, &[(4, 0x20)]),
    (23, &[(5, 0x04), (18, 0x01)]),
    (23, &[(5, 0x04)]),
    (18, &[(5, 0x08)]),
    (25, &[(4, 0x40)]),
    (26, &[(4, 0x40), (19, 0x40)]),
    (29, &[(4, 0x40), (19, 0x40)]),
    // What tells a right reader from one that errs: no index in mode 4, no ids at bond 3.
    (26, &[(4, 0x40), (6, 0x80)]),
    (18, &[(5, 0x0C)]),
    // The ends of the sizes.
    (17, &[]),
    (30, &[(4, 0x40), (19, 0x40)]),
    (27, &[(5, 0x04), (18, 0x01)]),
    (41, &[(4, 0x58), (5, 0x04), (20, 0x01), (30, 0x40)]),
    (40, &[(4, 0x58), (5, 0x04), (20, 0x01), (30, 0x40)]),
    (4096, &[]),
    (4097, &[]),
    // The rows of the table of least totals that are not among those above.
    (17, &[(4, 0x50)]),
    (18, &[(4, 0x50)]),
    (18, &[(5, 0x04)]),
    (19, &[(5, 0x04), (18, 0x01)]),
    (18, &[(4, 0x58), (5, 0x04)]),
    (25, &[(4, 0x40), (19, 0x40)]),
];

/// A mode, whether the fields are at their largest, the tail's length, the rule of the buffer, and fields that are set anew.
type RecordRow = (u32, u32, usize, u32, &'static [(usize, u32)]);

const RECORDS: [RecordRow; 43] = [
    // The table, and the errors that look right: a value that is masked, a refusal in the middle of the stores.
    (0, 0, 0, 2, &[(SATELLITE, 16_777_216)]),
    (0, 0, 0, 2, &[(SATELLITE, 16_777_215)]),
    (1, 1, 0, 2, &[(INDEX, 262_144)]),
    (5, 1, 0, 2, &[(POSTAMBLE, 8)]),
    (0, 0, 0, 2, &[(BOND, 2)]),
    // List B, with what stands behind the first place in its order.
    (0, 0, 0, 2, &[(MODE, 16)]),
    (0, 0, 0, 2, &[(BOND, 5)]),
    (0, 0, 0, 2, &[(POLARIZATION, 4), (RESERVED_1, 2)]),
    (0, 0, 0, 2, &[(RESERVED_1, 2)]),
    (1, 1, 0, 2, &[(RESERVED_1, 2)]),
    (1, 1, 0, 2, &[(INDEX_THERE, 0), (RESERVED_6, 64)]),
    (1, 1, 0, 2, &[(INDEX, 262_144), (RESERVED_6, 64)]),
    (1, 1, 0, 2, &[(RESERVED_6, 64)]),
    (0, 0, 0, 2, &[(BOND, 1)]),
    (0, 0, 0, 2, &[(BOND, 1), (BONDS, 3)]),
    (0, 0, 0, 1, &[(BOND, 1), (BONDS, 255)]),
    (0, 0, 0, 2, &[(BOND, 1), (BONDS, 255)]),
    (0, 0, 0, 2, &[(BOND, 1), (RESERVED_7, 128)]),
    (0, 0, 0, 2, &[(BOND, 1), (BONDS, 1), (RESERVED_7, 128)]),
    (4, 1, 0, 2, &[(REFERENCE, 1_048_576), (PAYLOAD, 1_048_576), (BLOCK_RESERVED_2, 4)]),
    (4, 1, 0, 2, &[(PAYLOAD, 1_048_576), (BLOCK_RESERVED_2, 4)]),
    (4, 1, 0, 2, &[(BLOCK_RESERVED_2, 4), (SFFI, 16)]),
    (4, 1, 0, 2, &[(SFFI_THERE, 0), (PLAN_THERE, 0)]),
    (4, 0, 0, 2, &[(RESERVED_4, 16)]),
    (4, 1, 0, 2, &[(PLAN_THERE, 0), (PILOTS, 32)]),
    (5, 1, 0, 2, &[(PILOTS, 32), (POSTAMBLE, 8)]),
    (5, 1, 3, 2, &[]),
    // List A.
    (1, 0, 0, 2, &[(MODE_RESERVED, 1)]),
    (0, 0, 0, 2, &[(FLAG, 1)]),
    (1, 0, 0, 2, &[(SELECTOR, 0)]),
    (0, 0, 0, 2, &[(SELECTOR, 1)]),
    (1, 0, 0, 2, &[(INDEX_THERE, 1)]),
    (2, 0, 0, 2, &[(TIMESLICE_THERE, 0)]),
    (0, 0, 0, 2, &[(BOND, 5), (BONDS, 1)]),
    (4, 0, 0, 2, &[(SUPERFRAME_THERE, 0)]),
    (4, 0, 0, 2, &[(SFFI_THERE, 1)]),
    (4, 0, 0, 2, &[(PLAN_THERE, 1)]),
    (0, 0, 0, 2, &[(PLAN_THERE, 1)]),
    // The limit, and the room.
    (0, 0, 4078, 2, &[]),
    (0, 0, 4079, 2, &[]),
    (0, 0, 65_516, 2, &[]),
    (0, 0, 65_518, 2, &[]),
    (0, 0, 0, 0, &[(ROLL_OFF, 8)]),
];

pub fn bodies() -> Vec<Body> {
    BODIES
        .iter()
        .map(|(length, set)| {
            let mut bytes = vec![0; *length];
            for (at, byte) in *set {
                bytes[*at] = *byte;
            }
            Body { bytes, spare: 1 }
        })
        .collect()
}

pub fn records() -> Vec<Written> {
    RECORDS
        .iter()
        .map(|(mode, full, tail, rule, set)| {
            let mut values = plain(*mode, *full);
            for (field, value) in *set {
                values[*field] = *value;
            }
            Written {
                values,
                tail: *tail,
                rule: *rule,
                spare: 0,
            }
        })
        .collect()
}
