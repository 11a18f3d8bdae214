//! The crate's own code beside the Rattle. See docs/DIFFERENCES.md for what stands in for what is missing.
//!
//!     oracle record                writes what the program `replay` has to print
//!     oracle record-jobs           writes what the program `replay_jobs` has to print, by a plain model of the slot and its job
//!     oracle codes                 tells whether RollOff, Polarization and S2Xv2Mode give their codes back
//!     oracle edges                 shows what the crate itself answers to the cases with a name that the library refuses otherwise
//!     oracle show SET CASE         shows every number of a case, by name
//!     oracle compare PROGRAM       finds the first case in which PROGRAM, a built `replay`, differs
use oracle::answer::{Answer, CELLS};
use oracle::stream::Stream;
use oracle::{begins, compare, crate_side, drawn, forms, generator, jobs, named, sets};
use std::process::ExitCode;

fn words(numbers: &[u32]) -> String {
    numbers.iter().map(u32::to_string).collect::<Vec<_>>().join(" ")
}

fn print_named(kind: &str, number: usize, answer: Answer, digest: u32) {
    println!("{kind} {number}: {}; {digest}", words(&answer.numbers()));
}

fn print_counts(counts: &[u32; CELLS]) {
    for (answer, cells) in [0..1, 1..10, 10..11, 11..20, 20..42, 42..43].into_iter().enumerate() {
        println!("{answer} {}", words(&counts[cells]));
    }
}

fn record() {
    let tail = generator::tail();
    for (k, body) in named::bodies().iter().enumerate() {
        let mut s = Stream::default();
        print_named("body", k + 1, sets::run_body(body, &mut s), s.digest);
    }
    for (k, case) in named::records().iter().enumerate() {
        let mut s = Stream::default();
        print_named("record", k + 1, sets::run_record(case, &tail, &mut s), s.digest);
    }
    for (k, set) in sets::SETS.iter().enumerate() {
        println!("{} {}", set.name, set.cases);
        let (counts, digest) = sets::run_all(k, &tail);
        print_counts(&counts);
        println!("digest {digest}");
    }
}

fn record_jobs() {
    let again = |told: Option<Vec<u32>>| told.map_or(String::new(), |told| format!("; again {}", words(&told)));
    for row in begins::rows() {
        let (told, step) = (words(&row.told), words(&row.step));
        println!("begin {}: {told}; step {step}; slot {}{}", row.name, row.digest, again(row.again));
    }
    for row in forms::rows() {
        let (shown, told) = (words(&row.shown), words(&row.told));
        println!("slot {}: {shown}; begin {told}{}", row.name, again(row.again));
    }
    let mut counts = jobs::Counts::default();
    let mut s = Stream::default();
    for case in 0..jobs::CASES {
        jobs::run(case, &mut s, &mut counts);
    }
    println!("jobs {}\n{}\ndigest {}", jobs::CASES, words(&counts), s.digest);
    let mut counts = drawn::Counts::default();
    let mut s = Stream::default();
    for case in 0..drawn::SLOTS {
        drawn::run(case, &mut s, &mut counts);
    }
    println!("slots {}\n{}", drawn::SLOTS, words(&counts.shown));
    println!("form {}\nagain {}\ndigest {}", words(&counts.broken), counts.again, s.digest);
}

/// The cases with a name to which the crate's answer is not the library's.
fn edges() {
    let tail = generator::tail();
    for (k, body) in named::bodies().iter().enumerate() {
        if let Answer::Long(_) = crate_side::read(&body.bytes).answer {
            println!("body {}: {}", k + 1, crate_side::unjudged_read(&body.bytes));
        }
    }
    for (k, case) in named::records().iter().enumerate() {
        let tail = &tail[..case.tail];
        match crate_side::write(&case.values, tail, &mut [sets::BEFORE; 5000]) {
            Answer::Accepted(_) => {}
            answer => {
                let words = words(&answer.numbers());
                println!(
                    "record {}: {words}; {}",
                    k + 1,
                    crate_side::unjudged_write(&case.values, tail, sets::BEFORE)
                );
            }
        }
    }
}

fn show(set: &str, case: &str) {
    let set = sets::SETS.iter().position(|s| s.name == set).expect("no such set");
    for (name, value) in compare::rows(set, case.parse().expect("a case is a number")) {
        println!("{name}: {value}");
    }
}

fn main() -> ExitCode {
    let arguments: Vec<String> = std::env::args().skip(1).collect();
    let arguments: Vec<&str> = arguments.iter().map(String::as_str).collect();
    let good = match arguments[..] {
        ["record"] => {
            record();
            true
        }
        ["record-jobs"] => {
            record_jobs();
            true
        }
        ["edges"] => {
            edges();
            true
        }
        ["codes"] => crate_side::codes_come_back(),
        ["show", set, case] => {
            show(set, case);
            true
        }
        ["compare", program] => compare::compare(program),
        _ => {
            eprintln!("oracle record | record-jobs | codes | edges | show SET CASE | compare PROGRAM");
            false
        }
    };
    if good {
        ExitCode::SUCCESS
    } else {
        ExitCode::FAILURE
    }
}
