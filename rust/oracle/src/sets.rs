//! The sets: what is asked of the crate in each case, and what is counted.
use crate::answer::{Answer, CELLS};
use crate::crate_side::{length, read, write};
use crate::generator::*;
use crate::stream::Stream;
use crate::values::NAMES;

/// What a buffer holds before it is written.
pub const BEFORE: u8 = 165;

pub struct Set {
    pub name: &'static str,
    pub cases: u32,
}

pub const SETS: [Set; 5] = [
    Set { name: "cuts", cases: CUTS },
    Set { name: "bits", cases: BITS },
    Set {
        name: "bodies",
        cases: BODIES,
    },
    Set { name: "walk", cases: WALK },
    Set {
        name: "records",
        cases: RECORDS,
    },
];

/// One case of a set, into the stream. What is counted is the answer of the read, or of the write in the sets of records.
pub fn run(set: usize, case: u32, tail: &[u8], s: &mut Stream) -> Answer {
    match set {
        0 => run_body(&cut(case), s),
        1 => run_body(&bit(case), s),
        2 => run_body(&body(case), s),
        3 => run_record(&walk(case), tail, s),
        _ => run_record(&record(case), tail, s),
    }
}

/// What a body reads as.
fn put_reading(bytes: &[u8], s: &mut Stream) -> Answer {
    let reading = read(bytes);
    s.put_all("answer of the reader", &reading.answer.numbers());
    for (name, value) in NAMES.iter().zip(reading.values) {
        s.put(name, value);
    }
    s.put("length of the tail", reading.tail.len() as u32);
    s.put_bytes("byte of the tail", reading.tail);
    reading.answer
}

/// A body is read, and where it is accepted written back.
pub fn run_body(body: &Body, s: &mut Stream) -> Answer {
    let answer = put_reading(&body.bytes, s);
    if let Answer::Accepted(_) = answer {
        let reading = read(&body.bytes);
        let mut buf = vec![BEFORE; body.bytes.len() + body.spare];
        let back = write(&reading.values, reading.tail, &mut buf);
        s.put_all("answer of the writer", &back.numbers());
        s.put_bytes("byte of the buffer", &buf);
    }
    answer
}

/// A record is measured and written, and where it is accepted read back.
pub fn run_record(case: &Written, tail: &[u8], s: &mut Stream) -> Answer {
    let tail = &tail[..case.tail];
    let measured = length(&case.values, tail);
    s.put_all("answer of the length", &measured.numbers());
    let Answer::Accepted(size) = measured else {
        return put_write(case, tail, 64, s);
    };
    put_write(case, tail, size, s)
}

fn put_write(case: &Written, tail: &[u8], size: usize, s: &mut Stream) -> Answer {
    let mut buf = vec![BEFORE; room(size, case.rule, case.spare)];
    let answer = write(&case.values, tail, &mut buf);
    s.put_all("answer of the writer", &answer.numbers());
    s.put_bytes("byte of the buffer", &buf);
    if let Answer::Accepted(written) = answer {
        put_reading(&buf[..written], s);
    }
    answer
}

/// A whole set: the counts of its answers, and the digest of all that was said.
pub fn run_all(set: usize, tail: &[u8]) -> ([u32; CELLS], u32) {
    let mut counts = [0; CELLS];
    let mut s = Stream::default();
    for case in 0..SETS[set].cases {
        counts[run(set, case, tail, &mut s).cell()] += 1;
    }
    (counts, s.digest)
}
