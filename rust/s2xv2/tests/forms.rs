//! Good form: the slots with a name, and bad input, beside a plain walk over a slot's descriptors.
use s2xv2::{read_slot, Job, RawRecord, Refusal, S2Xv2SatelliteDeliverySystem as Record, Slot};
use std::ops::Range;

/// A slot of so many bytes from the tags and lengths of its descriptors, which come again from the first where they do not reach its end. What is
/// not the head of a descriptor is 0.
fn laid(size: usize, heads: &[(u8, u8)]) -> Vec<u8> {
    let mut bytes = vec![];
    for (tag, length) in heads.iter().cycle() {
        if bytes.len() >= size {
            break;
        }
        bytes.extend([*tag, *length]);
        let third = if *tag == 0x7F { 0x24 } else { 0 };
        bytes.extend((0..*length).map(|k| if k == 0 { third } else { 0 }));
    }
    bytes.truncate(size);
    bytes
}

/// Where our descriptor starts and ends, if the slot is in good form.
fn ours(slot: &[u8]) -> Result<Option<Range<usize>>, Refusal> {
    if !(21..=257).contains(&slot.len()) {
        return Err(Refusal::Slot);
    }
    let (mut at, mut ours) = (0, None);
    while at < slot.len() {
        let broken = Refusal::SlotForm { offset: at };
        let length = *slot.get(at + 1).ok_or(broken)?;
        let end = at + 2 + usize::from(length);
        match slot.get(at..end).ok_or(broken)? {
            [0x42, ..] => {}
            [0x7F, _, 0x24, ..] if ours.is_none() => ours = Some(at..end),
            _ => return Err(broken),
        }
        at = end;
    }
    Ok(ours)
}

/// A slot that breaks the form at an offset is in good form if it is cut there, from 21 bytes on; and a job begins there once it is made empty.
fn repaired(slot: &[u8], offset: usize) {
    assert!(offset < 21 || judged(&slot[..offset]), "{slot:02X?}");
    let mut bytes = slot.to_vec();
    let mut slot = Slot::new(&mut bytes);
    assert_eq!(slot.make_empty(), Ok(()));
    assert!(Job::begin(&slot, &Record::default()).is_ok() || slot.bytes().len() == 22);
}

/// What a slot reads as, where its tail starts, and what begin says, are as the walk has it. Tells whether the slot is in good form.
fn judged(slot: &[u8]) -> bool {
    let form = ours(slot);
    let expected = match &form {
        Err(refusal) => Err(*refusal),
        Ok(None) => Ok(None),
        Ok(Some(ours)) => Record::parse(&slot[ours.start + 3..ours.end]).map(Some),
    };
    let read = read_slot(slot);
    assert_eq!(read, expected, "{slot:02X?}");
    if let (Ok(Some(record)), Ok(Some(ours))) = (&read, &form) {
        let place = record.reserved_tail.as_ptr() as usize - slot.as_ptr() as usize;
        let body = record.serialized_len().unwrap();
        assert_eq!(
            (place + record.reserved_tail.len(), body),
            (ours.end, ours.len() - 3),
            "{slot:02X?}"
        );
    }
    let mut raw = RawRecord::default();
    let tail = expected.map(|held| held.map(|record| record.reserved_tail));
    assert_eq!(raw.read_slot(slot), tail, "{slot:02X?}");

    let mut bytes = slot.to_vec();
    let begun = Job::begin(&Slot::new(&mut bytes), &Record::default()).map(|job| job.stores_left());
    let stores = match form {
        Err(refusal) => Err(refusal),
        Ok(_) if slot.len() == 22 => Err(Refusal::NoFit { size: 21 }),
        Ok(_) => Ok(slot.len() + 2),
    };
    assert_eq!((begun, bytes.as_slice()), (stores, slot), "{slot:02X?}");
    if let Err(Refusal::SlotForm { offset }) = stores {
        repaired(slot, offset);
    }
    !matches!(stores, Err(Refusal::Slot | Refusal::SlotForm { .. }))
}

/// Where the tail of the record that a slot holds starts and how long it is; or a refusal.
fn tail(size: usize, heads: &[(u8, u8)]) -> Result<Option<(usize, usize)>, Refusal> {
    let slot = laid(size, heads);
    judged(&slot);
    let record = read_slot(&slot)?;
    Ok(record.map(|record| {
        let tail = record.reserved_tail;
        (tail.as_ptr() as usize - slot.as_ptr() as usize, tail.len())
    }))
}

#[test]
fn stuffing_on_either_side() {
    let short = |have| Refusal::Short {
        place: 1,
        need: 18,
        have,
        least: 18,
    };
    assert_eq!(tail(21, &[(0x42, 16), (0x7F, 1)]), Err(short(0)));
    assert_eq!(tail(21, &[(0x7F, 1), (0x42, 16)]), Err(short(0)));
    assert_eq!(tail(44, &[(0x42, 0), (0x7F, 18), (0x42, 20)]), Err(short(17)));
    assert_eq!(tail(44, &[(0x42, 10), (0x7F, 30)]), Ok(Some((33, 11))));
    assert_eq!(tail(44, &[(0x42, 10), (0x7F, 21), (0x42, 7)]), Ok(Some((33, 2))));
    assert_eq!(tail(44, &[(0x7F, 19), (0x42, 0), (0x42, 19)]), Ok(Some((21, 0))));
    assert_eq!(tail(257, &[(0x42, 0), (0x7F, 253)]), Ok(Some((23, 234))));
    assert_eq!(tail(44, &[(0x42, 10), (0x42, 30)]), Ok(None));
    assert_eq!(tail(256, &[(0x42, 0)]), Ok(None));
    assert_eq!(tail(21, &[(0x42, 0), (0x42, 17)]), Ok(None));
}

#[test]
fn what_breaks_the_form() {
    for (size, heads, offset) in [
        (44, &[(0x7F, 0), (0x24, 40)][..], 0),
        (44, &[(0x7F, 0), (0x42, 40)], 0),
        (44, &[(0x42, 10), (0x7F, 29)], 43),
        (44, &[(0x42, 10), (0x7F, 31)], 12),
        (44, &[(0x42, 10), (0x42, 31)], 12),
        (44, &[(0x42, 10), (0x7F, 255)], 12),
        (44, &[(0x7F, 19), (0x7F, 21)], 21),
        (44, &[(0x7F, 19), (0x42, 0), (0x7F, 19)], 23),
        (44, &[(0x42, 10), (0x48, 8), (0x7F, 20)], 12),
        (44, &[(0x42, 0), (0x7F, 19), (0x48, 19)], 23),
    ] {
        assert_eq!(tail(size, heads), Err(Refusal::SlotForm { offset }), "{heads:02X?}");
    }
    for (size, heads) in [(20, &[(0x42, 0), (0x42, 16)]), (258, &[(0x42, 1), (0x7F, 253)])] {
        assert_eq!(tail(size, heads), Err(Refusal::Slot), "{heads:02X?}");
    }
}

/// Where the form of a slot breaks.
fn broken(slot: &[u8]) -> Option<usize> {
    assert!(!judged(slot));
    match read_slot(slot) {
        Err(Refusal::SlotForm { offset }) => Some(offset),
        _ => None,
    }
}

/// One of ours of 21 bytes.
fn smallest() -> Vec<u8> {
    laid(21, &[(0x7F, 19)])
}

#[test]
fn each_cause_behind_each_front() {
    let causes: [&[u8]; 9] = [
        &[0x42, 250],
        &[0x7F, 250, 0x24],
        &[0x48, 0],
        &[0x48, 250],
        &[0x7F, 3, 0x25],
        &[0x7F, 250, 0x25],
        &[0x7F, 0],
        &[0x7F, 0, 0x24],
        &[0xFF, 0xFF],
    ];
    let seconds: [&[u8]; 4] = [&[0x7F, 1, 0x24], &[0x7F, 3, 0x25], &[0x7F, 250, 0x24], &[0x7F, 0]];
    for front in [vec![], vec![0x42, 3, 1, 2, 3], smallest()] {
        let seconds = seconds.iter().filter(|_| front.len() == 21);
        for cause in causes.iter().chain(seconds) {
            let mut slot = [&front, *cause].concat();
            slot.resize(60, 0);
            assert_eq!(broken(&slot), Some(front.len()), "{slot:02X?}");
        }
    }
}

#[test]
fn causes_as_the_last_bytes() {
    let ends: [&[u8]; 6] = [&[0x42], &[0x7F], &[0x7F, 0], &[0x48, 0], &[0x42, 1], &[0x7F, 1, 0x25]];
    for n in 21..=257 {
        for end in ends {
            let front = n - end.len();
            let mut slot = laid(front, &[(0x42, (front - 2) as u8)]);
            slot.extend(end);
            assert_eq!(broken(&slot), Some(front), "{slot:02X?}");
        }
    }
}

#[test]
fn the_largest_offset() {
    for heads in [&[(0x42, 254)][..], &[(0x7F, 254)], &[(0x42, 0)], &[(0x7F, 20), (0x42, 232)]] {
        let mut slot = laid(256, heads);
        assert!(judged(&slot));
        for byte in [0x00, 0x42, 0x7F, 0x24, 0xFF] {
            slot.truncate(256);
            slot.push(byte);
            assert_eq!(broken(&slot), Some(256));
        }
    }
}

#[test]
fn every_descriptor_broken() {
    for n in 21..=257 {
        for heads in [
            &[(0x48, 0)][..],
            &[(0x7F, 0)],
            &[(0x00, 5), (0x7F, 0)],
            &[(0x41, 255)],
            &[(0x43, 1), (0x80, 2)],
        ] {
            assert_eq!(broken(&laid(n, heads)), Some(0), "{n} {heads:02X?}");
        }
        let third: Vec<u8> = [0x7F, 3, 0x25, 0x24, 0x24].into_iter().cycle().take(n).collect();
        assert_eq!(broken(&third), Some(0), "{n}");
    }
}

#[test]
fn the_same_byte_throughout() {
    for n in (0..300).chain([4096]) {
        for byte in [0x00, 0x42, 0x7F, 0x24, 0xFF] {
            let slot = vec![byte; n];
            // 0x42 is a length of 66, so descriptors of 68 bytes.
            let offset = if byte == 0x42 { n / 68 * 68 } else { 0 };
            let refusal = match n {
                21..=257 if offset < n => Some(Refusal::SlotForm { offset }),
                21..=257 => None,
                _ => Some(Refusal::Slot),
            };
            assert_eq!(judged(&slot), refusal.is_none(), "{n} of {byte:02X}");
            assert_eq!(read_slot(&slot).err(), refusal, "{n} of {byte:02X}");
        }
    }
}

#[test]
fn wrong_sizes() {
    for n in [0, 1, 2, 20, 258, 4096] {
        for heads in [&[(0x42, 0)][..], &[(0x7F, 1)], &[(0x42, 10), (0x7F, 30)], &[(0x42, 255)]] {
            assert!(!judged(&laid(n, heads)));
        }
    }
}

#[test]
fn every_byte_in_the_heads() {
    let (mut good, mut bad) = (0, 0);
    for heads in [
        &[(0x42, 42)][..],
        &[(0x7F, 42)],
        &[(0x7F, 19), (0x42, 21)],
        &[(0x42, 10), (0x7F, 30)],
        &[(0x42, 10), (0x7F, 19), (0x42, 9)],
        &[(0x42, 0)],
        &[(0x7F, 18), (0x42, 0), (0x42, 20)],
    ] {
        let slot = laid(44, heads);
        let end = usize::from(slot[1]) + 2;
        for at in [0, 1, 2, end, end + 1].into_iter().filter(|at| *at < slot.len()) {
            for byte in 0..=255 {
                let mut slot = slot.clone();
                slot[at] = byte;
                *(if judged(&slot) { &mut good } else { &mut bad }) += 1;
            }
        }
    }
    assert!(good > 500 && bad > 5000, "{good} {bad}");
}

#[test]
fn lengths_that_end_beside_the_end() {
    for n in 21..=257 {
        for front in [2, 3, n / 2, n - 4] {
            let left = n - front - 2;
            for (tag, length) in [0x42, 0x7F]
                .into_iter()
                .flat_map(|tag| [(tag, left - 1), (tag, left), (tag, left + 1)])
            {
                let slot = laid(n, &[(0x42, front as u8 - 2), (tag, length as u8)]);
                let good = length == left && (tag == 0x42 || length > 0);
                assert_eq!(judged(&slot), good, "{n} {front} {tag:02X} {length}");
            }
        }
    }
}
