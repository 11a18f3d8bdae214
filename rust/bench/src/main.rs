//! Runs one row, so that the instructions of two runs with different repeats can be subtracted; prints the number of calls that it made.
//!
//!     bench parse|serialize|length crate|library|raw|safe|empty SET REPEATS
//!     bench allocate crate SET REPEATS
//!     bench tail library|empty SET REPEATS
//!     bench slot-read library|raw|safe|empty held|empty|ARRANGEMENT REPEATS
//!     bench slot-tail library|empty held|empty REPEATS
//!     bench make-empty library|safe|empty SIZE REPEATS
//!     bench begin library|raw|safe|empty SLOT REPEATS
//!     bench begin-on library|raw|safe|empty ARRANGEMENT REPEATS
//!     bench job value|place|empty SLOT/ALLOWANCE REPEATS
//!     bench agree                  tells whether all sides do the same on every input, and the inputs are as docs/SPEED.md says
//!
//! SET is `mixed`, `no-ids`, `no-tail`, `cut`, `mode-1`, `mode-5`, or `tail-` with 0, 31, 64, 1024 or 4078. SLOT is a size, with `=` behind it
//! for descriptors that fill it; an ALLOWANCE may be `all`. An ARRANGEMENT of a slot of 257 bytes is `stuffing`, `ours`, `ours-stuffing`,
//! `stuffing-ours`, `pieces` or `pieces-ours`, or one that is refused for its form: `broken`, `broken-pieces`, `stuffing-broken` or
//! `pieces-broken`. The side `empty` is the loop with no call in it.
mod boundary;
mod inputs;
mod rows;
mod slots;

use inputs::{bodies, Set};
use slots::Kind;
use std::process::ExitCode;

fn row(name: &str, side: &str, inputs: &str, repeats: &str) -> Option<usize> {
    let repeats: usize = repeats.parse().ok()?;
    match name {
        "parse" => rows::parse(side, &bodies(Set::named(inputs)?), repeats),
        "serialize" => rows::serialize(side, Set::named(inputs)?, &bodies(Set::named(inputs)?), repeats),
        "length" => rows::length(side, &bodies(Set::named(inputs)?), repeats),
        "allocate" => Some(rows::allocate(&bodies(Set::named(inputs)?), repeats)),
        "tail" => rows::tail(side, &bodies(Set::named(inputs)?), repeats),
        "slot-read" => slots::read(side, inputs, repeats),
        "slot-tail" => slots::tail(side, inputs, repeats),
        "make-empty" => slots::make_empty(side, inputs.parse().ok()?, repeats),
        "begin" => slots::begin(side, slot(inputs)?, None, repeats),
        "begin-on" => slots::begin(side, slots::CORE, Some(inputs), repeats),
        "job" => job(side, inputs, repeats),
        _ => None,
    }
}

fn slot(words: &str) -> Option<Kind> {
    let size = words.trim_end_matches('=');
    Some(Kind {
        size: size.parse().ok()?,
        filled: size != words,
    })
}

fn job(side: &str, inputs: &str, repeats: usize) -> Option<usize> {
    let (words, allowance) = inputs.split_once('/')?;
    let allowance = match allowance {
        "all" => usize::MAX,
        number => number.parse().ok()?,
    };
    slots::job(side, slot(words)?, allowance, repeats)
}

fn agree() -> Option<usize> {
    let shaped = Set::ROWS.iter().all(|(_, set)| {
        let bodies = bodies(*set);
        let shape = match *set {
            Set::Mixed => rows::covered(&bodies),
            Set::Cut => rows::refused(&bodies) == inputs::COUNT,
            Set::Mode1 => rows::of_length(&bodies, 18),
            Set::Mode5 => rows::of_length(&bodies, 41),
            Set::Tail(length) => rows::of_length(&bodies, 18 + length),
            _ => rows::refused(&bodies) * 8 == inputs::COUNT,
        };
        shape && rows::agree(&bodies)
    });
    (slots::agree() && shaped).then_some(Set::ROWS.len() * inputs::COUNT)
}

fn main() -> ExitCode {
    let arguments: Vec<String> = std::env::args().skip(1).collect();
    let arguments: Vec<&str> = arguments.iter().map(String::as_str).collect();
    let calls = match arguments[..] {
        ["agree"] => agree(),
        [name, side, inputs, repeats] => row(name, side, inputs, repeats),
        _ => None,
    };
    let Some(calls) = calls else {
        eprintln!("no such row, or the sides differ");
        return ExitCode::FAILURE;
    };
    println!("{calls}");
    ExitCode::SUCCESS
}
