//! Measuring and writing: every field non-zero, every boundary of the buffer, both lists.
mod common;

use common::full;
use s2xv2::{Refusal, RollOff, S2Xv2Mode, S2Xv2SatelliteDeliverySystem as Record, S2Xv2Superframe};

/// Mode 5 with all of its parts and a tail of two bytes.
#[rustfmt::skip]
const MODE_5: [u8; 43] = [
    0x01, 0x02, 0x03, 0x04, 0x5D, 0xB6, 0xF5, 0x05, 0x06, 0x07, 0x08, 0x09, 0x0A, 0x0B, 0x0C, 0x0D, 0x0E, 0x0F,
    0x10,
    0x13,
    0xAB, 0x14, 0x15, 0x16, 0x17, 0x18, 0x19, 0x1A, 0x1B,
    0x1C, 0xDD, 0x1E, 0x1F, 0x96, 0x20, 0x21, 0x22, 0x23, 0x24, 0x25, 0x9D,
    0xFE, 0xFF,
];

/// Mode 2 with all of its parts.
#[rustfmt::skip]
const MODE_2: [u8; 32] = [
    0x01, 0x02, 0x03, 0x04, 0x2D, 0xB6, 0xF5, 0x05, 0x06, 0x07, 0x08, 0x09, 0x0A, 0x0B, 0x0C, 0x0D, 0x0E, 0x0F,
    0x10,
    0xAA, 0x11, 0x22,
    0x13,
    0xAB, 0x14, 0x15, 0x16, 0x17, 0x18, 0x19, 0x1A, 0x1B,
];

#[test]
fn vectors_with_every_field_non_zero() {
    for (record, bytes) in [(full(5, &[0xFE, 0xFF]), &MODE_5[..]), (full(2, &[]), &MODE_2[..])] {
        let mut buffer = [0; 64];
        assert_eq!(record.serialize_into(&mut buffer), Ok(bytes.len()));
        assert_eq!(&buffer[..bytes.len()], bytes);
        assert_eq!(Record::parse(bytes), Ok(record));
    }
}

#[test]
fn every_mode_comes_back() {
    for mode in 0..16 {
        let record = full(mode, &[1, 2, 3]);
        let mut buffer = [0; 64];
        let size = record.serialize_into(&mut buffer).unwrap();
        assert_eq!(Record::parse(&buffer[..size]), Ok(record));
    }
}

#[test]
fn every_size_of_the_buffer() {
    let record = full(5, &[0xFE, 0xFF]);
    assert_eq!(record.serialized_len(), Ok(43));
    for have in 0..60 {
        let mut buffer = vec![0xA5; have];
        let told = record.serialize_into(&mut buffer);
        if have < 43 {
            assert_eq!(told, Err(Refusal::Room { need: 43, have }));
            assert!(buffer.iter().all(|byte| *byte == 0xA5));
        } else {
            assert_eq!(told, Ok(43));
            assert_eq!(buffer[..43], MODE_5);
            assert!(buffer[43..].iter().all(|byte| *byte == 0xA5));
        }
    }
}

#[test]
fn the_limit() {
    let tail = vec![7; 70_000];
    let mut buffer = vec![0xA5; 70_100];
    for (count, answer) in [
        (4078, Ok(4096)),
        (4079, Err(Refusal::Long { length: 4097 })),
        (65_516, Err(Refusal::Long { length: 65_534 })),
        (65_517, Err(Refusal::Long { length: 65_535 })),
        (70_000, Err(Refusal::Long { length: 65_535 })),
    ] {
        let mut record = Record::default();
        record.reserved_tail = &tail[..count];
        assert_eq!(record.serialized_len(), answer);
        assert_eq!(record.serialize_into(&mut buffer), answer);
    }
    assert_eq!(buffer[4095..4097], [7, 0xA5]);
}

/// A record in a mode, with something about it changed.
type Change = (u8, fn(&mut Record<'static>));

fn superframe<'r>(r: &'r mut Record<'static>) -> &'r mut S2Xv2Superframe {
    r.superframe.as_mut().expect("mode 4 or 5")
}

#[test]
fn list_a() {
    let rows: [Change; 9] = [
        (0, |r| r.s2xv2_mode = S2Xv2Mode::Reserved(0)),
        (0, |r| r.input_stream_identifier = None),
        (1, |r| r.scrambling_sequence_selector = None),
        (1, |r| r.scrambling_sequence_selector = Some(false)),
        (2, |r| r.timeslice_number = None),
        (0, |r| r.channel_bond = 2),
        (4, |r| r.superframe = None),
        (4, |r| superframe(r).sffi_selector = false),
        (5, |r| superframe(r).beam_hopping_time_plan_selector = false),
    ];
    for (place, (mode, change)) in (1..).zip(rows) {
        let mut record = full(mode, &[]);
        change(&mut record);
        assert_eq!(record.serialized_len(), Err(Refusal::Inconsistent { place }));
        assert_untouched(&record, Refusal::Inconsistent { place });
    }
}

#[test]
fn list_b() {
    let rows: [(u8, Change); 21] = [
        (1, (0, |r| r.s2xv2_mode = S2Xv2Mode::Reserved(16))),
        (2, (0, |r| r.roll_off = RollOff::Reserved(8))),
        (3, (0, |r| r.reserved_zero_future_use_2 = 4)),
        (4, (0, |r| (r.channel_bond, r.secondary_delivery_system_ids) = (4, vec![]))),
        (6, (0, |r| r.reserved_zero_future_use_1 = 2)),
        (7, (0, |r| r.ts_gs_s2x_mode = 4)),
        (8, (0, |r| r.receiver_profiles = 32)),
        (9, (0, |r| r.satellite_id = 1 << 24)),
        (10, (1, |r| r.scrambling_sequence_index = None)),
        (11, (1, |r| r.scrambling_sequence_index = Some(1 << 18))),
        (12, (1, |r| r.reserved_zero_future_use_6 = 64)),
        (13, (0, |r| r.secondary_delivery_system_ids.clear())),
        (14, (0, |r| r.reserved_zero_future_use_7 = 128)),
        (15, (4, |r| superframe(r).reference_scrambling_index = 1 << 20)),
        (16, (4, |r| superframe(r).payload_scrambling_index = 1 << 20)),
        (17, (4, |r| superframe(r).reserved_zero_future_use_2 = 4)),
        (18, (4, |r| superframe(r).sffi = None)),
        (19, (4, |r| superframe(r).sffi = Some(16))),
        (20, (4, |r| superframe(r).beamhopping_time_plan_id = None)),
        (21, (4, |r| superframe(r).superframe_pilots_wh_sequence_number = 32)),
        (22, (4, |r| superframe(r).postamble_pli = 8)),
    ];
    for (place, (mode, change)) in rows {
        let mut record = full(mode, &[]);
        change(&mut record);
        assert!(record.serialized_len().is_ok());
        assert_untouched(&record, Refusal::Field { place });
    }
}

fn assert_untouched(record: &Record<'_>, refusal: Refusal) {
    let mut buffer = vec![0xA5; 1200];
    assert_eq!(record.serialize_into(&mut buffer), Err(refusal));
    assert!(buffer.iter().all(|byte| *byte == 0xA5));
}

#[test]
fn counts_of_ids() {
    let mut record = full(0, &[]);
    for count in [0, 3, 4, 254, 255] {
        record.secondary_delivery_system_ids = vec![7; count];
        assert_eq!(record.serialized_len(), Ok(20 + 4 * count));
        assert_untouched(&record, Refusal::Field { place: 13 });
    }
    for count in [256, 257, 1000, 1 << 16] {
        record.secondary_delivery_system_ids = vec![7; count];
        assert_eq!(record.serialized_len(), Err(Refusal::TooManyIds { count }));
        assert_untouched(&record, Refusal::TooManyIds { count });
    }
}

#[test]
fn the_block_has_the_size_that_the_library_gives_it() {
    for hops in [false, true] {
        let mut record = full(4, &[]);
        superframe(&mut record).beam_hopping_time_plan_selector = hops;
        superframe(&mut record).beamhopping_time_plan_id = hops.then_some(7);
        let block = superframe(&mut record).serialized_len();
        assert_eq!(record.serialized_len(), Ok(18 + 1 + 9 + block));
    }
}

#[test]
fn what_is_not_on_the_wire_is_not_looked_at() {
    let mut record = Record::default();
    record.reserved_zero_future_use_6 = 255;
    record.reserved_zero_future_use_7 = 255;
    let mut buffer = [0xA5; 18];
    assert_eq!(record.serialize_into(&mut buffer), Ok(18));
    assert_eq!(Record::parse(&buffer), Ok(Record::default()));
}
