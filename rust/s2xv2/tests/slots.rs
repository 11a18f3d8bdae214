//! Slots of every size, and jobs stepped in every way that the crate allows.
mod common;

use common::full;
use s2xv2::{read_slot, Job, Progress, Refusal, S2Xv2SatelliteDeliverySystem as Record, Slot};

fn empty(n: usize) -> Vec<u8> {
    let mut bytes = vec![7; n];
    Slot::new(&mut bytes).make_empty().unwrap();
    bytes
}

fn progress(stores: usize, done: bool) -> Result<Progress, Refusal> {
    Ok(Progress { stores, done })
}

#[test]
fn sizes_of_a_slot() {
    for n in 0..300 {
        let mut bytes = vec![7; n];
        let told = Slot::new(&mut bytes).make_empty();
        if (21..=257).contains(&n) {
            assert_eq!(told, Ok(()));
            assert_eq!(bytes[..2], [0x42, (n - 2) as u8]);
            assert!(bytes[2..].iter().all(|byte| *byte == 0xFF));
            assert_eq!(read_slot(&bytes), Ok(None));
        } else {
            assert_eq!(told, Err(Refusal::Slot));
            assert!(bytes.iter().all(|byte| *byte == 7));
            assert_eq!(read_slot(&bytes), Err(Refusal::Slot));
            assert_eq!(Job::begin(&Slot::new(&mut bytes), &Record::default()), Err(Refusal::Slot));
        }
    }
}

#[test]
fn a_body_that_ends_inside_a_part() {
    let mut bytes = [0; 21];
    bytes[..3].copy_from_slice(&[0x7F, 1, 0x24]);
    bytes[3..5].copy_from_slice(&[0x42, 16]);
    let refusal = Refusal::Short {
        place: 1,
        need: 18,
        have: 0,
        least: 18,
    };
    assert_eq!(Slot::new(&mut bytes).read(), Err(refusal));
    assert!(Job::begin(&Slot::new(&mut bytes), &Record::default()).is_ok());
}

#[test]
fn forms_of_a_slot() {
    for (start, broken) in [
        ([0x42, 19, 0x24], None),
        ([0x42, 18, 0x24], Some(20)),
        ([0x42, 20, 0x24], Some(0)),
        ([0x42, 255, 0x24], Some(0)),
        ([0x7F, 19, 0x24], None),
        ([0x7F, 18, 0x24], Some(20)),
        ([0x7F, 19, 0x25], Some(0)),
        ([0x7F, 0, 0x42], Some(0)),
        ([0x43, 19, 0x24], Some(0)),
    ] {
        let mut bytes = [0; 21];
        bytes[..3].copy_from_slice(&start);
        let refusal = broken.map(|offset| Refusal::SlotForm { offset });
        assert_eq!(read_slot(&bytes).err(), refusal, "{start:02X?}");
        let begun = Job::begin(&Slot::new(&mut bytes), &Record::default());
        assert_eq!(begun.err(), refusal, "{start:02X?}");
    }
}

#[test]
fn what_fits() {
    let tail = [9; 300];
    for n in [21, 22, 23, 64, 256, 257] {
        let mut bytes = empty(n);
        for count in 0..n - 15 {
            let mut record = Record::default();
            record.reserved_tail = &tail[..count];
            let size = count + 21;
            let begun = Job::begin(&Slot::new(&mut bytes), &record);
            if size > n || size + 1 == n {
                assert_eq!(begun, Err(Refusal::NoFit { size }));
            } else {
                let job = begun.unwrap();
                assert_eq!((job.slot_size(), job.descriptor_size()), (n, size));
                assert_eq!((job.stores_made(), job.stores_left()), (0, n + 2));
            }
        }
        assert_eq!(bytes, empty(n));
    }
}

#[test]
fn begin_refuses_in_its_order() {
    let tail = [9; 5000];
    let mut bytes = empty(64);
    let slot = Slot::new(&mut bytes);
    let mut record = full(0, &tail);
    record.satellite_id = u32::MAX;
    assert_eq!(Job::begin(&slot, &record), Err(Refusal::Long { length: 5028 }));
    record.reserved_tail = &tail[..100];
    assert_eq!(Job::begin(&slot, &record), Err(Refusal::NoFit { size: 131 }));
    record.reserved_tail = &[];
    assert_eq!(Job::begin(&slot, &record), Err(Refusal::Field { place: 9 }));
    record.channel_bond = 0;
    assert_eq!(Job::begin(&slot, &record), Err(Refusal::Inconsistent { place: 6 }));
    let mut bad = [7; 64];
    assert_eq!(Job::begin(&Slot::new(&mut bad), &record), Err(Refusal::SlotForm { offset: 0 }));
    assert_eq!(Job::begin(&Slot::new(&mut bad[..20]), &record), Err(Refusal::Slot));
    record.secondary_delivery_system_ids = vec![0; 256];
    assert_eq!(
        Job::begin(&Slot::new(&mut bad[..20]), &record),
        Err(Refusal::TooManyIds { count: 256 })
    );
}

/// The slot after a job of `record` on `start` was stepped by each allowance in turn.
fn stepped(start: &[u8], record: &Record<'_>, allowances: &[usize]) -> Vec<u8> {
    let mut bytes = start.to_vec();
    let mut slot = Slot::new(&mut bytes);
    let mut job = Job::begin(&slot, record).unwrap();
    let mut copy = job.clone();
    for allowance in allowances {
        let left = job.stores_left();
        let made = left.min(*allowance);
        let (next, told) = job.step(&mut slot, *allowance);
        assert_eq!(told, progress(made, made == left));
        let mut other = slot.bytes().to_vec();
        assert_eq!(copy.advance(&mut Slot::new(&mut other), *allowance), told);
        assert_eq!((&copy, other.as_slice()), (&next, slot.bytes()));
        job = next;
    }
    bytes
}

/// A slot that a job left.
fn held(n: usize, record: &Record<'_>) -> Vec<u8> {
    stepped(&empty(n), record, &[usize::MAX])
}

/// The same behind stuffing of 4 bytes: its first byte is 0x42, so that the first store of a job changes nothing.
fn behind_stuffing(n: usize, record: &Record<'_>) -> Vec<u8> {
    let mut bytes = vec![0x42, 2, 0xFF, 0xFF];
    bytes.extend(held(n - 4, record));
    bytes
}

#[test]
fn every_place_to_stop() {
    let old = full(2, &[]);
    let new = full(5, &[3, 2, 1]);
    for n in [47, 49, 50, 64, 257] {
        let end = stepped(&empty(n), &new, &[n + 2]);
        for (start, as_before) in [(held(n, &old), 0), (behind_stuffing(n, &old), 1)] {
            assert_eq!(read_slot(&start), Ok(Some(old.clone())));
            for stores in 0..=n + 4 {
                let cut = stepped(&start, &new, &[stores]);
                let expected = match stores {
                    _ if stores <= as_before => Some(old.clone()),
                    _ if stores < n + 2 => None,
                    _ => Some(new.clone()),
                };
                assert_eq!(read_slot(&cut), Ok(expected));
                assert_eq!(stepped(&cut, &new, &[usize::MAX]), end);
            }
        }
    }
}

#[test]
fn the_bytes_at_the_end() {
    let mut record = Record::default();
    record.reserved_tail = &[1, 2];
    let mut bytes = vec![0x7F, 21, 0x24];
    bytes.extend([0; 18]);
    bytes.extend([1, 2]);
    assert_eq!(stepped(&empty(23), &record, &[usize::MAX]), bytes);
    bytes.extend([0x42, 0]);
    assert_eq!(stepped(&empty(25), &record, &[usize::MAX]), bytes);
    bytes[24] = 3;
    bytes.extend([0xFF; 3]);
    assert_eq!(stepped(&empty(28), &record, &[usize::MAX]), bytes);
}

#[test]
fn every_allowance_ends_alike() {
    let new = full(5, &[3, 2, 1]);
    for n in [47, 64, 257] {
        let start = empty(n);
        let end = stepped(&start, &new, &[usize::MAX, 0, 1, usize::MAX]);
        assert_eq!(stepped(&start, &new, &vec![1; n + 5]), end);
        assert_eq!(stepped(&start, &new, &vec![8; n]), end);
        assert_eq!(stepped(&start, &new, &[0, 1, 0, 2, 0, usize::MAX]), end);
        assert_eq!(stepped(&start, &new, &[0, 0]), start);
    }
}

#[test]
fn a_slot_of_another_size() {
    let mut bytes = empty(64);
    let job = Job::begin(&Slot::new(&mut bytes), &full(5, &[])).unwrap();
    let (mut job, _) = job.step(&mut Slot::new(&mut bytes), 10);
    for n in [0, 1, 20, 21, 63, 65, 257, 258, 400] {
        let mut other = vec![7; n];
        let before = job.clone();
        for allowance in [0, 1, usize::MAX] {
            assert_eq!(job.advance(&mut Slot::new(&mut other), allowance), Err(Refusal::OtherSize));
            let (same, told) = job.clone().step(&mut Slot::new(&mut other), allowance);
            assert_eq!((same, told), (before.clone(), Err(Refusal::OtherSize)));
        }
        assert_eq!((&job, other), (&before, vec![7; n]));
    }
    assert_eq!(job.advance(&mut Slot::new(&mut bytes), usize::MAX), progress(56, true));
}

#[test]
fn a_step_does_not_judge_the_form() {
    let mut bytes = empty(64);
    let mut job = Job::begin(&Slot::new(&mut bytes), &full(5, &[])).unwrap();
    let mut other = [0x99; 64];
    assert_eq!(job.advance(&mut Slot::new(&mut other), 1), progress(1, false));
    assert_eq!((other[0], &other[1..]), (0x42, &[0x99; 63][..]));
}
