//! The proved library, asked through its C boundary and the safe crate, beside the crate's own code and the plain model of the oracle.
//!
//!     differential [COUNT]      at least COUNT comparisons of calls on bodies and records, 200,000 without it, a job for each 50 of them,
//!                               and the names of all codes
//!
//! A comparison is of all that one call says and leaves: the answer with what it tells, each field, the tail, each byte of the buffer or
//! slot. Each call on a record is made with the raw record as well, and compared with the typed one. The first difference ends the run.
mod bodies;
mod ours;
mod slots;
mod tally;
mod types;

#[path = "../../oracle/src/labels.rs"]
mod labels;
#[path = "../../oracle/src/numbers.rs"]
mod numbers;
use oracle::{crate_side, values};

use std::process::ExitCode;
use tally::Tally;
use types::Record;

const COUNT: u64 = 200_000;

/// The names of every code, and the body's own name and number.
fn names(tally: &mut Tally) -> Result<(), String> {
    for code in 0..=255 {
        tally.same(&labels::names(code), &oracle::labels::names(code), || {
            format!("names of the code {code}")
        })?;
    }
    tally.same(&(Record::NAME, Record::TAG_EXTENSION), &crate_side::NAME_AND_TAG, || {
        "name and tag extension of the body".to_string()
    })
}

fn run(count: u64, tally: &mut Tally) -> Result<(), String> {
    bodies::named(tally)?;
    let mut case = 0;
    while tally.comparisons < count {
        bodies::case(case, tally)?;
        case += 1;
    }
    println!("bodies and records: {} comparisons in {case} cases", tally.comparisons);
    let before = tally.comparisons;
    let jobs = u32::try_from(count / 50).unwrap_or(u32::MAX);
    for case in 0..jobs {
        slots::case(case, tally)?;
    }
    println!("slots and jobs: {} comparisons in {jobs} cases", tally.comparisons - before);
    let before = tally.comparisons;
    names(tally)?;
    println!("names: {} comparisons", tally.comparisons - before);
    Ok(())
}

fn main() -> ExitCode {
    let Ok(count) = std::env::args().nth(1).map_or(Ok(COUNT), |word| word.parse()) else {
        eprintln!("differential [COUNT]");
        return ExitCode::FAILURE;
    };
    let mut tally = Tally::default();
    let outcome = run(count, &mut tally);
    println!("answers by number: {}", tally.answers());
    println!("slots in no good form, by cause: {}", tally.causes());
    match outcome {
        Ok(()) => {
            println!("raw records beside the typed ones: {} comparisons", tally.beside);
            println!("{} comparisons, no difference", tally.comparisons);
            ExitCode::SUCCESS
        }
        Err(difference) => {
            println!("{difference}\n{} comparisons, the last one differs", tally.comparisons);
            ExitCode::FAILURE
        }
    }
}
