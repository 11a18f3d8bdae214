//! Reading, measuring and writing, by the crate, by the library through its boundary, and by the safe crate over it, as a raw record and as
//! the typed one. The bodies that are read are cut where they are cut; the records that are written are those of the same bodies uncut, made
//! beforehand by the side that writes them.
use crate::boundary;
use crate::inputs::{Body, Set};
use core::hint::black_box;
use origin::descriptors::extension::s2xv2_satellite_delivery_system::S2Xv2SatelliteDeliverySystem as Record;
use origin::descriptors::extension::{Parse, Serialize};
use s2xv2::{RawRecord, S2Xv2SatelliteDeliverySystem as Safe};

/// The room for records with a tail of at most 8 bytes, and for those with a long one.
pub const ROOM: usize = 64;
pub const LONG: usize = 4096;

/// The one loop of all rows: each input is hidden from the compiler before the call, and each result is kept after it. Tells how many calls
/// were made.
pub fn drive<I: Copy, R>(inputs: &[I], repeats: usize, mut call: impl FnMut(I) -> R) -> usize {
    for _ in 0..repeats {
        for input in inputs {
            black_box(&call(black_box(*input)));
        }
    }
    repeats * inputs.len()
}

/// A record of zeros, to be lent.
pub fn zeros() -> boundary::Record {
    boundary::Record {
        numbers: [0; 10],
        bytes: [0; 36],
    }
}

/// The library's record, or the raw one, with the tail that stands in the crate's.
pub struct Own<'a, R = boundary::Record> {
    pub record: R,
    pub tail: &'a [u8],
}

pub fn own(body: &[u8]) -> Own<'_> {
    let mut record = zeros();
    let answer = boundary::parse(body, &mut record);
    assert_eq!(answer.number, 0);
    Own {
        record,
        tail: &body[answer.first.into()..],
    }
}

pub fn raw(body: &[u8]) -> Own<'_, RawRecord> {
    let (record, tail) = RawRecord::parse(body).expect("an uncut body");
    Own { record, tail }
}

fn theirs(body: &[u8]) -> Record<'_> {
    Record::parse(body).expect("an uncut body")
}

pub fn safe(body: &[u8]) -> Safe<'_> {
    Safe::parse(body).expect("an uncut body")
}

/// The library and the raw record read into one record, which is lent to every call.
pub fn parse(side: &str, bodies: &[Body], repeats: usize) -> Option<usize> {
    let bodies: Vec<&[u8]> = bodies.iter().map(Body::lent).collect();
    let (mut lent, mut record) = (zeros(), RawRecord::default());
    Some(match side {
        "crate" => drive(&bodies, repeats, |body| Record::parse(body)),
        "library" => drive(&bodies, repeats, |body| boundary::parse(body, black_box(&mut lent))),
        "raw" => drive(&bodies, repeats, |body| black_box(&mut record).parse_into(body)),
        "safe" => drive(&bodies, repeats, |body| Safe::parse(body)),
        "empty" => drive(&bodies, repeats, |body| body.len()),
        _ => return None,
    })
}

/// What the crate's reader asks of the allocator, and no more: the list of ids of each body that has one.
pub fn allocate(bodies: &[Body], repeats: usize) -> usize {
    let counts: Vec<usize> = bodies
        .iter()
        .map(|body| Record::parse(body.lent()).map_or(0, |record| record.secondary_delivery_system_ids.len()))
        .collect();
    drive(&counts, repeats, |count| {
        (count != 0).then(|| black_box(Vec::<u32>::with_capacity(count)))
    })
}

/// The records of the bodies, by the side that makes them.
fn of<'a, T, R>(bodies: &'a [Body], repeats: usize, made: impl Fn(&'a [u8]) -> T, call: impl FnMut(&T) -> R) -> usize {
    let records: Vec<T> = bodies.iter().map(|body| made(&body.bytes)).collect();
    drive(&records.iter().collect::<Vec<_>>(), repeats, call)
}

pub fn serialize(side: &str, set: Set, bodies: &[Body], repeats: usize) -> Option<usize> {
    match set {
        Set::Tail(_) => serialize_in::<LONG>(side, bodies, repeats),
        _ => serialize_in::<ROOM>(side, bodies, repeats),
    }
}

/// Into one buffer, which nobody clears.
fn serialize_in<const N: usize>(side: &str, bodies: &[Body], repeats: usize) -> Option<usize> {
    let mut buffer = [0u8; N];
    Some(match side {
        "crate" => of(bodies, repeats, theirs, |record| record.serialize_into(&mut buffer)),
        "library" => of(bodies, repeats, own, |own| {
            boundary::serialize_into(&own.record, own.tail, &mut buffer)
        }),
        "raw" => of(bodies, repeats, raw, |own| own.record.serialize_into(own.tail, &mut buffer)),
        "safe" => of(bodies, repeats, safe, |record| record.serialize_into(&mut buffer)),
        "empty" => of(bodies, repeats, own, |own| own.tail.len()),
        _ => return None,
    })
}

pub fn length(side: &str, bodies: &[Body], repeats: usize) -> Option<usize> {
    Some(match side {
        "crate" => of(bodies, repeats, theirs, |record| record.serialized_len()),
        "library" => of(bodies, repeats, own, |own| boundary::serialized_len(&own.record, own.tail)),
        "raw" => of(bodies, repeats, raw, |own| own.record.serialized_len(own.tail)),
        "safe" => of(bodies, repeats, safe, |record| record.serialized_len()),
        "empty" => of(bodies, repeats, own, |own| own.tail.len()),
        _ => return None,
    })
}

/// The tail of a body by itself, through the boundary.
pub fn tail(side: &str, bodies: &[Body], repeats: usize) -> Option<usize> {
    let bodies: Vec<&[u8]> = bodies.iter().map(Body::lent).collect();
    Some(match side {
        "library" => drive(&bodies, repeats, boundary::reserved_tail),
        "empty" => drive(&bodies, repeats, |body| body.len()),
        _ => return None,
    })
}

/// That all sides accept the same bodies, measure the same lengths and write the same bytes.
pub fn agree(bodies: &[Body]) -> bool {
    bodies.iter().all(|body| read_alike(body.lent()) && written_alike(&body.bytes))
}

fn read_alike(body: &[u8]) -> bool {
    let (mut lent, mut record) = (zeros(), RawRecord::default());
    let answer = boundary::parse(body, &mut lent);
    let raw = record.parse_into(body);
    let part = boundary::reserved_tail(body);
    let theirs = Record::parse(body);
    let tail = theirs
        .as_ref()
        .map_or(0..0, |record| body.len() - record.reserved_tail.len()..body.len());
    let accepted = [answer.number == 0, raw.is_ok(), Safe::parse(body).is_ok()] == [theirs.is_ok(); 3];
    accepted && (answer.number != 0 || raw == Ok(answer.first.into())) && (part.place..part.place + part.length) == tail
}

fn written_alike(body: &[u8]) -> bool {
    let (record, own, raw, safe) = (theirs(body), own(body), raw(body), safe(body));
    let (mut a, mut b, mut c, mut d) = ([0; LONG], [0; LONG], [0; LONG], [0; LONG]);
    let length = record.serialize_into(&mut a).expect("a record that was read");
    let answers = [
        boundary::serialize_into(&own.record, own.tail, &mut b),
        boundary::serialized_len(&own.record, own.tail),
    ];
    let told = answers.map(|answer| (answer.number, usize::from(answer.first))) == [(0, length); 2];
    let crossed = [
        raw.record.serialize_into(raw.tail, &mut c),
        raw.record.serialized_len(raw.tail),
        safe.serialize_into(&mut d),
        safe.serialized_len(),
    ] == [Ok(length); 4];
    let tails = [own.tail, raw.tail, safe.reserved_tail] == [record.reserved_tail; 3];
    told && crossed && tails && record.serialized_len() == length && [b, c, d] == [a; 3]
}

/// That every mode, flag, bond, selector, number of ids, pair of the superframe's selectors and length of a tail up to 8 comes up, and that
/// the cut bodies, one in eight, are those that are refused.
pub fn covered(bodies: &[Body]) -> bool {
    let mut seen = [0u32; 7];
    for body in bodies {
        let r = theirs(&body.bytes);
        seen[0] |= 1 << r.s2xv2_mode.to_u8();
        seen[1] |= 1 << u32::from(r.multiple_input_stream_flag);
        seen[2] |= 1 << r.channel_bond;
        seen[3] |= 1 << r.scrambling_sequence_selector.map_or(0, |set| 1 + u32::from(set));
        seen[4] |= 1 << r.secondary_delivery_system_ids.len();
        if let Some(s) = &r.superframe {
            seen[5] |= 1 << (2 * u32::from(s.sffi_selector) + u32::from(s.beam_hopping_time_plan_selector));
        }
        seen[6] |= 1 << r.reserved_tail.len();
    }
    seen == [0xFFFF, 3, 15, 7, 7, 15, 0x1FF] && refused(bodies) * 8 == bodies.len()
}

/// How many of the bodies are refused.
pub fn refused(bodies: &[Body]) -> usize {
    bodies.iter().filter(|body| Record::parse(body.lent()).is_err()).count()
}

/// That each body has so many bytes and is accepted.
pub fn of_length(bodies: &[Body], length: usize) -> bool {
    refused(bodies) == 0 && bodies.iter().all(|body| body.lent().len() == length)
}
