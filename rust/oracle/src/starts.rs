//! The slots on which the jobs of the program `replay_jobs` start: stuffing and ours in every arrangement.
use crate::jobs::{begin, filled, step, stuffing};
use crate::values::COUNT;

/// The head of a stuffing descriptor of so many bytes.
fn lay_stuffing(slot: &mut [u8], at: usize, size: usize) {
    slot[at] = 0x42;
    slot[at + 1] = (size - 2) as u8;
}

/// The head of one of ours, and the bytes of its body that say that there is nothing but the core and a tail.
fn lay_ours(slot: &mut [u8], at: usize, size: usize) {
    slot[at..at + 3].copy_from_slice(&[0x7F, (size - 2) as u8, 0x24]);
    slot[at + 7..at + 9].copy_from_slice(&[0x07, 0xF3]);
}

/// Stuffing in pieces of 2 bytes; where the part's length is odd, the last piece has 3.
fn lay_pieces(part: &mut [u8]) {
    let n = part.len();
    for at in (0..n / 2 * 2).step_by(2) {
        lay_stuffing(part, at, 2);
    }
    if n % 2 == 1 {
        lay_stuffing(part, n - 3, 3);
    }
}

/// Empty; the default record; stuffing in front of ours; on both sides of it; pieces of stuffing alone; ours and pieces behind it; pieces and
/// ours last. Bytes inside a descriptor are drawn. Where the slot is too small for a whole body beside the stuffing, ours is shorter, and the
/// reader refuses its body.
pub fn start_of(start: u32, case: u32, n: usize) -> Vec<u8> {
    let mut slot = if start < 2 { stuffing(n) } else { filled(case, n) };
    let side = 2 + (n - 21) / 8;
    let ours = if n < 23 { n - 2 } else { 22 - n % 2 };
    match start {
        0 => {}
        1 => {
            let (_, mut job) = begin(&slot, &[0; COUNT], &[]);
            step(&mut job, &mut slot, 1000);
        }
        2 => {
            lay_stuffing(&mut slot, 0, side);
            lay_ours(&mut slot, side, n - side);
        }
        3 => {
            lay_stuffing(&mut slot, 0, side);
            lay_ours(&mut slot, side, n - side - side);
            lay_stuffing(&mut slot, n - side, side);
        }
        4 => lay_pieces(&mut slot),
        5 => {
            lay_ours(&mut slot, 0, ours);
            lay_pieces(&mut slot[ours..]);
        }
        _ => {
            lay_pieces(&mut slot[..n - ours]);
            lay_ours(&mut slot, n - ours, ours);
        }
    }
    slot
}
