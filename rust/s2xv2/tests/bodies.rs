//! Reading: the table of bodies at the edges, by themselves and in slots, and the ends of the sizes.
use s2xv2::{read_slot, RawRecord, Refusal, S2Xv2Mode, S2Xv2SatelliteDeliverySystem as Record, Slot};

/// A body of zeros but for these bytes.
fn body(length: usize, set: &[(usize, u8)]) -> Vec<u8> {
    let mut bytes = vec![0; length];
    for (at, byte) in set {
        bytes[*at] = *byte;
    }
    bytes
}

fn short(place: u8, need: usize, have: usize, least: usize) -> Refusal {
    Refusal::Short { place, need, have, least }
}

/// Bodies that end inside a part, and what is told of each.
fn cut() -> [(Vec<u8>, Refusal); 15] {
    [
        (body(0, &[]), short(1, 18, 0, 18)),
        (body(17, &[]), short(1, 18, 17, 18)),
        (body(17, &[(4, 0x50)]), short(1, 18, 17, 18)),
        (body(18, &[(4, 0x08)]), short(2, 19, 18, 19)),
        (body(20, &[(4, 0x10), (6, 0x80)]), short(3, 21, 20, 21)),
        (body(18, &[(4, 0x20)]), short(4, 19, 18, 19)),
        (body(18, &[(4, 0x50)]), short(4, 19, 18, 27)),
        (body(18, &[(5, 0x04)]), short(5, 19, 18, 23)),
        (body(19, &[(5, 0x04), (18, 0x01)]), short(6, 23, 19, 27)),
        (body(23, &[(5, 0x04), (18, 0x01)]), short(6, 27, 23, 27)),
        (body(18, &[(4, 0x58), (5, 0x04)]), short(2, 19, 18, 33)),
        (body(25, &[(4, 0x40)]), short(7, 26, 25, 26)),
        (body(25, &[(4, 0x40), (19, 0x40)]), short(7, 26, 25, 26)),
        (body(26, &[(4, 0x40), (19, 0x40)]), short(8, 29, 26, 30)),
        (body(29, &[(4, 0x40), (19, 0x40)]), short(9, 30, 29, 30)),
    ]
}

#[test]
fn bodies_that_end_inside_a_part() {
    let mut raw = RawRecord::default();
    for (body, refusal) in cut() {
        assert_eq!(Record::parse(&body), Err(refusal), "{body:?}");
        assert_eq!(RawRecord::parse(&body), Err(refusal), "{body:?}");
        assert_eq!(raw.parse_into(&body), Err(refusal), "{body:?}");
    }
}

/// A slot that holds a body, with stuffing of so many bytes behind it, or none.
fn held(body: &[u8], stuffing: usize) -> Vec<u8> {
    let mut slot = vec![0x7F, body.len() as u8 + 1, 0x24];
    slot.extend(body);
    if stuffing > 0 {
        slot.extend([0x42, stuffing as u8 - 2]);
        slot.resize(body.len() + 3 + stuffing, 0xFF);
    }
    slot
}

#[test]
fn slots_whose_body_ends_inside_a_part() {
    let mut raw = RawRecord::default();
    for (body, refusal) in cut() {
        for stuffing in [0, 2, 3, 18, 200] {
            let mut slot = held(&body, stuffing);
            let refusal = if slot.len() < Slot::MIN_SIZE { Refusal::Slot } else { refusal };
            assert_eq!(read_slot(&slot), Err(refusal), "{slot:?}");
            assert_eq!(raw.read_slot(&slot), Err(refusal), "{slot:?}");
            assert_eq!(Slot::new(&mut slot).read(), Err(refusal));
        }
    }
}

#[test]
fn bodies_of_exactly_their_size() {
    let cases = [
        body(18, &[]),
        body(19, &[(4, 0x08)]),
        body(21, &[(4, 0x10), (6, 0x80)]),
        body(19, &[(4, 0x20)]),
        body(23, &[(5, 0x04)]),
        body(27, &[(5, 0x04), (18, 0x01)]),
        body(26, &[(4, 0x40)]),
        body(30, &[(4, 0x40), (19, 0x40)]),
        body(41, &[(4, 0x58), (5, 0x04), (20, 0x01), (30, 0x40)]),
    ];
    for body in cases {
        let record = Record::parse(&body).unwrap();
        assert_eq!(record.reserved_tail, []);
        assert_eq!(record.serialized_len(), Ok(body.len()));
        let last = body.len() - 1;
        assert_eq!(Record::parse(&body[..last]).unwrap_err().number(), 1);
    }
}

#[test]
fn the_limit() {
    let longest = [0; 4096];
    let record = Record::parse(&longest).unwrap();
    assert_eq!(record.reserved_tail.len(), 4078);
    assert_eq!(record.reserved_tail.as_ptr(), longest[18..].as_ptr());
    assert_eq!(Record::parse(&[0; 4097]), Err(Refusal::Long { length: 4097 }));
    assert_eq!(Record::parse(&[0; 65_535]), Err(Refusal::Long { length: 65_535 }));
    assert_eq!(Record::parse(&vec![0; 1 << 20]), Err(Refusal::Long { length: 65_535 }));
}

#[test]
fn errors_that_look_right() {
    let body_4 = body(26, &[(4, 0x40), (6, 0x80)]);
    let record = Record::parse(&body_4).unwrap();
    assert_eq!(record.scrambling_sequence_index, None);
    assert_eq!((record.scrambling_sequence_selector, record.reserved_zero_future_use_1), (None, 1));
    for bond in [2, 3] {
        let body = body(18, &[(5, bond * 4)]);
        let record = Record::parse(&body).unwrap();
        assert_eq!((record.channel_bond, record.secondary_delivery_system_ids.len()), (bond, 0));
    }
}

#[test]
fn modes_have_the_parts_that_the_library_gives_them() {
    for code in 0..16 {
        let mut bytes = [0; 64];
        bytes[4] = code << 4;
        let record = Record::parse(&bytes).unwrap();
        let mode = record.s2xv2_mode;
        assert_eq!(mode, S2Xv2Mode::from_u8(code));
        assert_eq!(mode.has_scrambling_selector(), record.scrambling_sequence_selector.is_some());
        assert_eq!(mode.has_timeslice(), record.timeslice_number.is_some());
        assert_eq!(mode.has_superframe(), record.superframe.is_some());
    }
}

#[test]
fn the_default_is_the_body_of_zeros() {
    assert_eq!(Record::parse(&[0; 18]), Ok(Record::default()));
}
