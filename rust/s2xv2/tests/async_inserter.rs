//! The example of futures as a test: many seeds, every kind of thing was seen, and what must not be read would have been seen.
#[path = "../examples/async_inserter.rs"]
mod async_inserter;

use async_inserter::{run, Reads, Watched};
use s2xv2::{Job, S2Xv2SatelliteDeliverySystem as Record, Slot};

#[test]
fn every_copy_reads_as_before_empty_or_as_written() {
    for seed in 0..8 {
        let seen = run(seed, 10_000);
        let kinds = [
            seen.copies,
            seen.slots_as_before,
            seen.slots_empty,
            seen.slots_as_written,
            seen.tasks,
            seen.polls,
            seen.dropped_before_the_first_poll,
            seen.dropped_between_two_polls,
            seen.begun_where_one_was_dropped,
            seen.finished,
        ];
        assert!(kinds.iter().all(|count| *count > 0), "{seen:#?}");
        assert_eq!(seen.slots_as_something_else, 0);
        let dropped = seen.dropped_before_the_first_poll + seen.dropped_between_two_polls;
        assert_eq!((seen.begun_where_one_was_dropped, seen.finished), (dropped, seen.tasks - dropped));
    }
}

#[test]
fn a_seed_gives_the_same_again() {
    assert_eq!(run(7, 2_000), run(7, 2_000));
}

/// A slot of 21 bytes that holds a record with this id, or is empty.
fn slot(id: Option<u32>) -> Vec<u8> {
    let mut bytes = vec![0; Slot::MIN_SIZE];
    let mut slot = Slot::new(&mut bytes);
    slot.make_empty().unwrap();
    if let Some(id) = id {
        let mut record = Record::default();
        record.delivery_system_id = id;
        let _ = Job::begin(&slot, &record).unwrap().step(&mut slot, usize::MAX);
    }
    bytes
}

/// What a slot that held 1 and is to hold 2 reads as, copy by copy.
fn reads(copies: &[&Vec<u8>]) -> Vec<Reads> {
    let body = |id: u32| slot(Some(id))[3..].to_vec();
    let mut watched = Watched {
        place: 0..Slot::MIN_SIZE,
        before: Some(body(1)),
        body: body(2),
        last: Reads::Before,
    };
    copies.iter().map(|copy| watched.read(copy)).collect()
}

#[test]
fn anything_else_is_seen() {
    use Reads::{Before, Empty, Other, Written};
    let [before, empty, written, another] = [Some(1), None, Some(2), Some(3)].map(slot);
    let in_order = [&before, &before, &empty, &empty, &written, &written];
    assert_eq!(reads(&in_order), [Before, Before, Empty, Empty, Written, Written]);
    for (first, then) in [(&empty, &before), (&written, &empty), (&written, &before), (&empty, &another)] {
        assert_eq!(reads(&[first, then])[1], Other);
    }
    assert_eq!(reads(&[&vec![0x7F; Slot::MIN_SIZE]]), [Other]);
}
