//! A plain model of the slot and its job, from docs/ANSWERS.md alone, and the cases of the program `replay_jobs`: for every slot size and several
//! records and starts every number of stores, what the slot then reads as, and what a new job begun there leaves.
use crate::answer::Answer;
use crate::crate_side::{length, read, write};
use crate::form::{form, Form};
use crate::generator::{next, seed};
use crate::starts::start_of;
use crate::stream::Stream;
use crate::values::{Values, COUNT};

pub const SIZES: u32 = 237;
pub const CASES: u32 = SIZES * 16;

/// The stuffing descriptor of so many bytes.
pub fn stuffing(n: usize) -> Vec<u8> {
    let mut bytes = vec![0xFF; n];
    bytes[0] = 0x42;
    bytes[1] = (n - 2) as u8;
    bytes
}

/// The stores of a job, in their order, and how many are made; none for a begin that was refused.
pub struct Job {
    pub stores: Vec<(usize, u8)>,
    pub made: usize,
}

/// The answer of a begin: 0 and the number of stores, or a refusal; and the job.
pub fn begin(slot: &[u8], record: &Values, tail: &[u8]) -> (Vec<u32>, Job) {
    let none = Job { stores: vec![], made: 0 };
    match form(slot) {
        Form::WrongSize => return (vec![6], none),
        Form::Broken(offset, _) => return (vec![12, offset as u32], none),
        Form::Empty | Form::Ours(_) => {}
    }
    let measured = length(record, tail);
    let Answer::Accepted(size) = measured else {
        return (measured.numbers(), none);
    };
    let (n, d) = (slot.len(), size + 3);
    if d > n || d + 1 == n {
        return (vec![7, d as u32], none);
    }
    let mut body = vec![0; size];
    let answer = write(record, tail, &mut body);
    let Answer::Accepted(_) = answer else {
        return (answer.numbers(), none);
    };
    let mut rest = vec![0x24];
    rest.extend(body);
    if d < n {
        rest.extend(stuffing(n - d));
    }
    let mut stores = vec![(0, 0x42), (1, (n - 2) as u8)];
    stores.extend(rest.into_iter().enumerate().map(|(k, b)| (k + 2, b)));
    stores.extend([(1, (d - 2) as u8), (0, 0x7F)]);
    (vec![0, n as u32 + 2], Job { stores, made: 0 })
}

/// The answer of a begin in a slot that was refused for its form and then made empty, for a record that fills it; none for another answer.
pub fn again(told: &[u32], slot: &[u8]) -> Option<Vec<u32>> {
    let filling = |n: usize| begin(&stuffing(n), &[0; COUNT], &vec![0; n - 21]).0;
    (told[0] == 12).then(|| filling(slot.len()))
}

/// How many stores were made, whether none are left, and the answer.
pub fn step(job: &mut Job, slot: &mut [u8], allowance: usize) -> [u32; 3] {
    if job.stores.is_empty() {
        return [0, 0, 8];
    }
    let count = allowance.min(job.stores.len() - job.made);
    for (place, byte) in &job.stores[job.made..job.made + count] {
        slot[*place] = *byte;
    }
    job.made += count;
    [count as u32, u32::from(job.made == job.stores.len()), 0]
}

/// What a slot reads as: 0 with the tail's place, counted from the slot's start, and its length; 9 for an empty one; or a refusal.
pub fn reading(slot: &[u8]) -> Vec<u32> {
    let ours = match form(slot) {
        Form::WrongSize => return vec![6],
        Form::Broken(offset, _) => return vec![12, offset as u32],
        Form::Empty => return vec![9],
        Form::Ours(ours) => ours,
    };
    let start = ours.start + 3;
    let body = read(&slot[start..ours.end]);
    match body.answer {
        Answer::Accepted(place) => vec![0, (start + place) as u32, body.tail.len() as u32],
        refused => refused.numbers(),
    }
}

/// So many bytes, by draws.
pub fn filled(start: u32, count: usize) -> Vec<u8> {
    let mut x = seed(start);
    let mut bytes = vec![0; count];
    for b in &mut bytes {
        x = next(x);
        *b = (x / 16_777_216) as u8;
    }
    bytes
}

/// The record and the start of a case: the first six records on an empty slot and over the default record in turn, and then those that fill
/// the slot (1) and that have all parts (5) on each of the other starts.
fn kind_and_start(case: u32) -> (u32, u32) {
    let block = case / SIZES;
    match block {
        0..=5 => (block, block % 2),
        _ => (1 + block % 2 * 4, block / 2 - 1),
    }
}

fn body_of(case: u32, kind: u32, n: usize) -> Vec<u8> {
    let count = match kind {
        0 => 18,
        1 => n - 3,
        2 => n - 4,
        3 => n - 5,
        4 => n - 2,
        _ => 18 + (n - 21) / 2,
    };
    let mut bytes = filled(case + 7, count);
    bytes[4] = if kind == 5 { 0x5F } else { 0x07 };
    bytes[5] = if kind == 5 { 0xF7 } else { 0xF3 };
    bytes
}

/// The counts of begins that were accepted and refused, and of slots that read as a record, as empty, and as neither.
pub type Counts = [u32; 5];

pub fn run(case: u32, s: &mut Stream, counts: &mut Counts) {
    let n = 21 + (case % SIZES) as usize;
    let (kind, start) = kind_and_start(case);
    let body = body_of(case, kind, n);
    let record = read(&body);
    let start = start_of(start, case, n);
    let told = begin(&start, &record.values, record.tail).0;
    s.put_all("answer of begin", &told);
    counts[usize::from(told[0] != 0)] += 1;
    for made in 0..=n + 2 {
        let mut slot = start.clone();
        let mut job = begin(&start, &record.values, record.tail).1;
        s.put_all("stores, done and answer of the step", &step(&mut job, &mut slot, made));
        let shown = reading(&slot);
        s.put_all("reading of the slot", &shown);
        counts[match shown[0] {
            0 => 2,
            9 => 3,
            _ => 4,
        }] += 1;
        s.put_bytes("byte of the slot", &slot);
        let (_, mut again) = begin(&slot, &[0; COUNT], &filled(1, n - 21));
        step(&mut again, &mut slot, 1000);
        s.put_bytes("byte of the slot after a new job", &slot);
    }
}
