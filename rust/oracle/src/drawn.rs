//! Slots by draws, for the program `replay_jobs`: descriptors of drawn sizes that cover a slot, ours among them or not, and then other bytes at
//! none to three drawn places.
use crate::form::{form, Form};
use crate::generator::{next, seed};
use crate::jobs::{again, begin, filled, reading};
use crate::stream::Stream;
use crate::values::COUNT;

pub const SLOTS: u32 = 131_072;

/// The high half of a state.
fn draw(x: u32) -> usize {
    (x / 65_536) as usize
}

/// A size that a slot may have, but for one case in 32.
fn slot_size(d: usize) -> usize {
    match d % 64 {
        0 => 20,
        1 => 258,
        2..=9 => 21 + d / 64 % 237,
        _ => 21 + d / 64 % 44,
    }
}

/// A descriptor's size: all that is left where it would leave less than 2 bytes.
fn cut(size: usize, left: usize) -> usize {
    if left < size + 2 {
        left
    } else {
        size
    }
}

fn stuffing_size(d: usize, left: usize) -> usize {
    let size = match d % 8 {
        0..=3 => 2,
        4 => left,
        5 | 6 => 2 + d / 8 % 8,
        _ => 2 + d / 8 % 64,
    };
    cut(size, left)
}

fn ours_size(d: usize, left: usize) -> usize {
    let size = match d % 4 {
        0 => 3 + d / 4 % 16,
        1 => left,
        _ => 21 + d / 4 % 24,
    };
    cut(size, left)
}

/// Descriptors from byte 0 to the end. One of three is ours: the first alone, or where `many` is set each of them.
pub fn covered(n: usize, many: bool, mut x: u32) -> Vec<u8> {
    let mut slot = vec![0; n];
    let (mut at, mut held) = (0, false);
    while at < n {
        let (left, d) = (n - at, draw(next(x)));
        let ours = draw(x) % 3 == 0 && left > 2 && (many || !held);
        let size = if ours { ours_size(d, left) } else { stuffing_size(d, left) };
        if ours {
            slot[at..at + size].copy_from_slice(&filled(draw(next(next(x))) as u32, size));
            slot[at + 2] = 0x24;
        }
        slot[at] = if ours { 0x7F } else { 0x42 };
        slot[at + 1] = (size - 2) as u8;
        held |= ours;
        at += size;
        x = next(next(next(x)));
    }
    slot
}

/// Another byte at one place, which is more often one of the first four.
pub fn damage(slot: &mut [u8], x: u32) {
    let (d, e) = (draw(x), draw(next(x)));
    let at = if d % 4 == 0 { d / 4 % 4 } else { d / 4 % slot.len() };
    slot[at] = match e % 8 {
        0 => 0x42,
        1 => 0x7F,
        2 => 0x24,
        3 => 0,
        4 => 1,
        5 => slot[at].wrapping_add(1),
        6 => slot[at].wrapping_sub(1),
        _ => (e / 256) as u8,
    };
}

/// The slot of a case: in one of four undamaged.
fn slot_of(case: u32) -> Vec<u8> {
    let x = seed(case);
    let mut slot = covered(slot_size(draw(next(x))), case % 16 == 0, next(next(x)));
    let y = seed(case + SLOTS);
    if case % 4 > 0 {
        damage(&mut slot, y);
    }
    if case % 4 > 1 {
        damage(&mut slot, next(next(y)));
    }
    if case % 4 > 2 {
        damage(&mut slot, next(next(next(next(y)))));
    }
    slot
}

/// The counts of slots that read as a record, as empty, that answer 6, and that answer 1; of those that answer 12 by cause, with a cell behind
/// them for an offset at which there is none; and of those in which begin is accepted once they are made empty.
#[derive(Default)]
pub struct Counts {
    pub shown: [u32; 4],
    pub broken: [u32; 7],
    pub again: u32,
}

impl Counts {
    fn count(&mut self, form: &Form, shown: &[u32]) {
        match (form, shown[0]) {
            (Form::Broken(_, cause), _) => self.broken[*cause as usize] += 1,
            (_, 0) => self.shown[0] += 1,
            (Form::Empty, _) => self.shown[1] += 1,
            (Form::WrongSize, _) => self.shown[2] += 1,
            (Form::Ours(_), _) => self.shown[3] += 1,
        }
    }
}

/// What the slot of a case reads as, where its tail stands and how long it is, what begin answers for the default record, and, where the form
/// is broken, what it answers once the slot is made empty.
pub fn run(case: u32, s: &mut Stream, counts: &mut Counts) {
    let slot = slot_of(case);
    let shown = reading(&slot);
    counts.count(&form(&slot), &shown);
    s.put_all("reading of the slot", &shown);
    s.put_all("tail of the slot", if shown[0] == 0 { &shown[1..] } else { &[0, 0] });
    let told = begin(&slot, &[0; COUNT], &[]).0;
    s.put_all("answer of begin", &told);
    if let Some(told) = again(&told, &slot) {
        s.put_all("answer of begin in the emptied slot", &told);
        counts.again += u32::from(told[0] == 0);
    }
}
