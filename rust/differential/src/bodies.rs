//! Bodies are read and written back; records are measured, written into buffers of several sizes, and read back. Each call is made with the
//! typed record, and with the raw one beside it.
use crate::numbers::from_values;
use crate::ours::{length, padded, reading, Reading};
use crate::tally::Tally;
use crate::types::Record;
use oracle::answer::Answer;
use oracle::generator::{self as generator, Body, Written};
use oracle::sets::BEFORE;
use oracle::values::{Values, NAMES, POLARIZATION};
use oracle::{crate_side, named as names};
use s2xv2::RawRecord;
use std::sync::LazyLock;

static TAIL: LazyLock<Vec<u8>> = LazyLock::new(generator::tail);

pub fn named(tally: &mut Tally) -> Result<(), String> {
    for body in names::bodies() {
        compare_body(&body, tally)?;
    }
    for record in names::records() {
        compare_record(&record, tally)?;
    }
    Ok(())
}

/// The five sets in turn, each of the three that have an end in a scattered order; where those are through, bodies and records by draws.
pub fn case(case: u32, tally: &mut Tally) -> Result<(), String> {
    let turn = case / 5;
    let scattered = |size: u32| (u64::from(turn) * 7919 % u64::from(size)) as u32;
    match case % 5 {
        0 if turn < generator::CUTS => compare_body(&generator::cut(scattered(generator::CUTS)), tally),
        1 if turn < generator::BITS => compare_body(&generator::bit(scattered(generator::BITS)), tally),
        2 if turn < generator::WALK => compare_record(&generator::walk(scattered(generator::WALK)), tally),
        0 | 1 | 3 => compare_body(&generator::body(case), tally),
        _ => compare_record(&generator::record(case), tally),
    }
}

fn hex(bytes: &[u8]) -> String {
    bytes.iter().map(|byte| format!("{byte:02X}")).collect()
}

/// A record's numbers by name, those that are not 0.
fn shown(values: &Values, tail: &[u8]) -> String {
    let fields = NAMES.iter().zip(values).filter(|(_, value)| **value != 0);
    let fields: Vec<String> = fields.map(|(name, value)| format!("{name} {value}")).collect();
    format!("record [{}] tail {} bytes {}", fields.join(", "), tail.len(), hex(tail))
}

fn compare_reading<'a>(body: &'a [u8], tally: &mut Tally) -> Result<Option<Record<'a>>, String> {
    let record = Record::parse(body);
    let ours = reading(body, &record);
    let theirs = crate_side::read(body);
    let theirs = Reading {
        told: padded(&theirs.answer.numbers()),
        values: theirs.values,
        tail: theirs.tail,
    };
    tally.count(&ours.told);
    tally.same(&ours, &theirs, || format!("parse of {} bytes {}", body.len(), hex(body)))?;
    let typed = match &record {
        Ok(record) => RawRecord::try_from(record).map(|raw| (raw, record.reserved_tail)),
        Err(refusal) => Err(*refusal),
    };
    tally.beside(&RawRecord::parse(body), &typed, || {
        format!("raw parse of {} bytes {}", body.len(), hex(body))
    })?;
    Ok(record.ok())
}

fn compare_body(body: &Body, tally: &mut Tally) -> Result<(), String> {
    let Some(record) = compare_reading(&body.bytes, tally)? else {
        return Ok(());
    };
    let theirs = crate_side::read(&body.bytes);
    compare_writing(&record, &theirs.values, body.spare, tally)
}

/// The safe crate's polarization has four values, so a record's is taken modulo 4 on both sides.
fn compare_record(case: &Written, tally: &mut Tally) -> Result<(), String> {
    let mut values = case.values;
    values[POLARIZATION] %= 4;
    let record = from_values(&values, &TAIL[..case.tail]);
    compare_writing(&record, &values, case.spare as usize % 16, tally)
}

fn compare_writing(record: &Record<'_>, values: &Values, spare: usize, tally: &mut Tally) -> Result<(), String> {
    let tail = record.reserved_tail;
    let measured = crate_side::length(values, tail);
    let ours = length(record.serialized_len());
    tally.count(&ours);
    tally.same(&ours, &padded(&measured.numbers()), || {
        format!("serialized_len of {}", shown(values, tail))
    })?;
    let raw = RawRecord::try_from(record).and_then(|raw| raw.serialized_len(tail));
    tally.beside(&length(raw), &ours, || format!("raw serialized_len of {}", shown(values, tail)))?;
    let size = if let Answer::Accepted(size) = measured { size } else { 64 };
    for room in [0, size - 1, size, size + 1 + spare] {
        compare_write(record, values, room, tally)?;
    }
    Ok(())
}

fn compare_write(record: &Record<'_>, values: &Values, room: usize, tally: &mut Tally) -> Result<(), String> {
    let tail = record.reserved_tail;
    let (mut ours, mut theirs) = (vec![BEFORE; room], vec![BEFORE; room]);
    let written = record.serialize_into(&mut ours);
    let answer = crate_side::write(values, tail, &mut theirs);
    let told = length(written);
    tally.count(&told);
    tally.same(&(told, &ours), &(padded(&answer.numbers()), &theirs), || {
        format!("serialize_into {room} bytes of {}", shown(values, tail))
    })?;
    let mut buffer = vec![BEFORE; room];
    let raw = RawRecord::try_from(record).and_then(|raw| raw.serialize_into(tail, &mut buffer));
    tally.beside(&(raw, &buffer), &(written, &ours), || {
        format!("raw serialize_into {room} bytes of {}", shown(values, tail))
    })?;
    match written {
        Ok(size) if size == room => compare_reading(&ours, tally).map(|_| ()),
        _ => Ok(()),
    }
}
