//! The crate's own reader, writer and length, with its answers as the numbers of docs/ANSWERS.md.
//!
//! Where the crate has no answer to compare, that of docs/ANSWERS.md is given: a body or an encoding above 4,096 bytes (2), a record that
//! contradicts itself (3), and a polarization above 3, which the crate's type cannot hold (4, place 5). So is the one number that the crate
//! does not tell: the least total of a body that ends inside a part (1).
use crate::answer::{long, Answer};
use crate::least::least_total;
use crate::model::inconsistency;
use crate::numbers::{from_values, to_values};
use crate::types::{Polarization, Record, RollOff, S2Xv2Mode};
use crate::values::*;
use origin::descriptors::extension::{ExtensionBodyDef, Parse, Serialize};
use origin::Error;

pub const LIMIT: usize = 4096;

/// What the crate calls the body, and the extension of the tag under which it finds one.
pub const NAME_AND_TAG: (&str, u8) = (Record::NAME, Record::TAG_EXTENSION);

pub struct Reading<'a> {
    pub answer: Answer,
    pub values: Values,
    pub tail: &'a [u8],
}

/// What a body reads as. A refused body shows the crate's `Default` and no tail.
pub fn read(body: &[u8]) -> Reading<'_> {
    if body.len() > LIMIT {
        return refused(long(body.len()));
    }
    match Record::parse(body) {
        Ok(record) => Reading {
            answer: Answer::Accepted(body.len() - record.reserved_tail.len()),
            values: to_values(&record),
            tail: record.reserved_tail,
        },
        Err(Error::BufferTooShort { need, have, what }) => refused(Answer::Short {
            place: place_of_part(what),
            need,
            have,
            least: least_total(body),
        }),
        Err(other) => panic!("the reader answered {other:?}"),
    }
}

fn refused(answer: Answer) -> Reading<'static> {
    Reading {
        answer,
        values: to_values(&Record::default()),
        tail: &[],
    }
}

fn place_of_part(what: &str) -> u32 {
    match what {
        "S2Xv2 body" => 1,
        "S2Xv2 body (input_stream_identifier)" => 2,
        "S2Xv2 body (scrambling_sequence_index)" => 3,
        "S2Xv2 body (timeslice_number)" => 4,
        "S2Xv2 body (channel_bond header)" => 5,
        "S2Xv2 body (secondary_delivery_system_id)" => 6,
        "S2Xv2 body (superframe)" => 7,
        "S2Xv2 body (beamhopping_time_plan_id)" => 8,
        "S2Xv2 body (superframe final byte)" => 9,
        other => panic!("the reader knows no part {other:?}"),
    }
}

/// The length call: 3, 2, or the length.
pub fn length(v: &Values, tail: &[u8]) -> Answer {
    if let Some(place) = inconsistency(v) {
        return Answer::Inconsistent(place);
    }
    let length = from_values(v, tail).serialized_len();
    if length > LIMIT {
        return long(length);
    }
    Answer::Accepted(length)
}

/// The writer: 3, 2, 5, 4, or the length, with the buffer as it was before unless the record is accepted.
pub fn write(v: &Values, tail: &[u8], buf: &mut [u8]) -> Answer {
    let first = length(v, tail);
    let Answer::Accepted(_) = first else { return first };
    let mut copy = buf.to_vec();
    let answer = judged(v, from_values(v, tail).serialize_into(&mut copy));
    if let Answer::Accepted(_) = answer {
        buf.copy_from_slice(&copy);
    }
    answer
}

fn judged(v: &Values, result: Result<usize, Error>) -> Answer {
    let answer = match result {
        Ok(length) => Answer::Accepted(length),
        Err(Error::OutputBufferTooSmall { need, have }) => Answer::Room { need, have },
        Err(Error::ValueOutOfRange { field, .. }) => Answer::Field(place_of_absence(field)),
        Err(Error::FieldOverflow(overflow)) => Answer::Field(place_of_width(overflow.field, v)),
        Err(other) => panic!("the writer answered {other:?}"),
    };
    match answer {
        Answer::Room { .. } => answer,
        Answer::Field(place) if place < 5 => answer,
        _ if v[POLARIZATION] > 3 => Answer::Field(5),
        _ => answer,
    }
}

fn place_of_absence(field: &str) -> u32 {
    match field {
        "scrambling_sequence_index" => 10,
        "sffi" => 18,
        "beamhopping_time_plan_id" => 20,
        other => panic!("the writer misses no {other:?}"),
    }
}

/// Two fields have one name: the one of the core is judged first.
fn place_of_width(field: &str, v: &Values) -> u32 {
    match field {
        "s2xv2_mode" => 1,
        "roll_off" => 2,
        "reserved_zero_future_use_2" if v[RESERVED_2] > 3 => 3,
        "reserved_zero_future_use_2" => 17,
        "channel_bond" => 4,
        "reserved_zero_future_use_1" => 6,
        "ts_gs_s2x_mode" => 7,
        "receiver_profiles" => 8,
        "satellite_id" => 9,
        "scrambling_sequence_index" => 11,
        "reserved_zero_future_use_6" => 12,
        "num_channel_bonds_minus_one" => 13,
        "reserved_zero_future_use_7" => 14,
        "reference_scrambling_index" => 15,
        "payload_scrambling_index" => 16,
        "sffi" => 19,
        "superframe_pilots_wh_sequence_number" => 21,
        "postamble_pli" => 22,
        other => panic!("the writer has no field {other:?}"),
    }
}

/// What the crate itself answers, where docs/ANSWERS.md has another answer: its length, what its writer says with that room, and the bytes that
/// it leaves in a buffer of `before`.
pub fn unjudged_write(v: &Values, tail: &[u8], before: u8) -> String {
    let record = from_values(v, tail);
    let length = record.serialized_len();
    let mut buf = vec![before; length];
    let answer = record.serialize_into(&mut buf);
    let shown: Vec<String> = buf.iter().take(44).map(|b| format!("{b:02X}")).collect();
    format!("length {length}, {answer:?}, buffer {}", shown.join(" "))
}

pub fn unjudged_read(body: &[u8]) -> String {
    match Record::parse(body) {
        Ok(record) => format!("accepted, tail {}", record.reserved_tail.len()),
        Err(error) => format!("{error:?}"),
    }
}

/// That the crate's types give back every code that they are made from: `RollOff` all of them, `Polarization` its four.
pub fn codes_come_back() -> bool {
    (0..=255).all(|code| RollOff::from_u8(code).to_u8() == code)
        && (0..4).all(|code| Polarization::from_u8(code).to_u8() == code)
        && (0..=255).all(|code| S2Xv2Mode::from_u8(code).to_u8() == code)
}
