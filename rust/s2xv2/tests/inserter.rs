//! The example as a test: many seeds, and every kind of thing was seen.
#[path = "../examples/inserter.rs"]
mod inserter;

use inserter::{run, Seen};

#[test]
fn every_copy_reads_as_before_empty_or_as_written() {
    for seed in 0..8 {
        let seen = run(seed, 10_000);
        let kinds = [
            seen.copies,
            seen.slots_as_before,
            seen.slots_empty,
            seen.slots_as_written,
            seen.stores,
            seen.jobs_begun,
            seen.jobs_refused,
            seen.jobs_done,
            seen.cancelled_before_the_first_store,
            seen.cancelled_between_stores,
            seen.ended_after_the_last_store,
        ];
        assert!(kinds.iter().all(|count| *count > 0), "{seen:#?}");
    }
}

#[test]
fn a_seed_gives_the_same_again() {
    assert_eq!(run(7, 2_000), run(7, 2_000));
    assert_ne!(run(7, 2_000), Seen::default());
}
