//! Slots of all sizes and forms, and jobs stepped, cut and begun again on them, beside the oracle's plain model.
use crate::numbers::{from_values, to_values};
use crate::ours::{padded, step, told, Reading};
use crate::tally::Tally;
use oracle::form::{form, Form};
use oracle::generator::{self, next, seed};
use oracle::sets::BEFORE;
use oracle::values::{Values, COUNT, POLARIZATION};
use oracle::{crate_side, drawn, jobs};
use s2xv2::{read_slot, Job, RawRecord, Slot};

/// Numbers by draws.
struct Draws(u32);

impl Draws {
    fn below(&mut self, limit: usize) -> usize {
        self.0 = next(self.0);
        (self.0 / 65_536) as usize % limit
    }

    fn bytes(&mut self, count: usize) -> Vec<u8> {
        (0..count).map(|_| self.below(256) as u8).collect()
    }
}

/// A size that a slot may have, but for one case in 32.
fn size(d: &mut Draws) -> usize {
    match d.below(32) {
        0 => d.below(21),
        1 => 257 + d.below(10),
        2..=9 => 21 + d.below(24),
        _ => 21 + d.below(237),
    }
}

/// Empty, holding a record, covered by drawn descriptors and then damaged in every second case, or stuffing with other first bytes, most of
/// them in no good form.
fn start(d: &mut Draws, n: usize) -> Vec<u8> {
    if !(21..=257).contains(&n) {
        return d.bytes(n);
    }
    let mut slot = jobs::stuffing(n);
    match d.below(6) {
        0 => {}
        1 => drop(jobs::step(&mut jobs::begin(&slot, &[0; COUNT], &[]).1, &mut slot, 1000)),
        2..=4 => cover(d, &mut slot),
        _ => forge(d, &mut slot),
    }
    slot
}

/// Descriptors of every arrangement, and another byte at one place or at none.
fn cover(d: &mut Draws, slot: &mut Vec<u8>) {
    let (many, damaged) = (d.below(16) == 0, d.below(2) == 0);
    *slot = drawn::covered(slot.len(), many, d.0);
    if damaged {
        drawn::damage(slot, next(d.0));
    }
}

/// A first descriptor of any tag and length, with stuffing behind it where that has room.
fn forge(d: &mut Draws, slot: &mut [u8]) {
    let n = slot.len();
    let first = 2 + d.below(n);
    slot[0] = [0x7F, 0x7F, 0x7F, 0x42, 0x43][d.below(5)];
    slot[1] = (first - 2) as u8;
    slot[2] = [0x24, 0x24, 0x24, 0x25][d.below(4)];
    for byte in slot.iter_mut().skip(3) {
        *byte = d.below(256) as u8;
    }
    if first + 2 <= n {
        slot[first] = 0x42;
        slot[first + 1] = (n - first - 2 + d.below(8) / 7) as u8;
    }
}

/// A record by draws, and a tail that may fill the slot.
fn record(case: u32, d: &mut Draws, n: usize) -> (Values, Vec<u8>) {
    let mut values = generator::record(case).values;
    values[POLARIZATION] %= 4;
    let room = n.saturating_sub(21);
    let count = match d.below(4) {
        0 => 0,
        1 => room.saturating_sub(d.below(26)),
        _ => d.below(room + 3),
    };
    (values, d.bytes(count))
}

/// What a slot reads as, by the model and the crate's reader.
fn model_reading(slot: &[u8]) -> Reading<'_> {
    let shown = jobs::reading(slot);
    let empty = Reading {
        told: if shown[0] == 9 { [0; 5] } else { padded(&shown) },
        values: [0; COUNT],
        tail: &[],
    };
    let Form::Ours(ours) = form(slot) else { return empty };
    let body = crate_side::read(&slot[ours.start + 3..ours.end]);
    Reading {
        told: empty.told,
        values: body.values,
        tail: body.tail,
    }
}

/// The same by the library. The tail's place is where it stands in the slot.
fn our_reading(slot: &[u8]) -> Reading<'_> {
    let result = read_slot(slot);
    let place = |tail: &[u8]| tail.as_ptr() as usize - slot.as_ptr() as usize;
    let told = told(&result, |held| match held {
        Some(record) => [place(record.reserved_tail), record.reserved_tail.len()],
        None => [0, 0],
    });
    let held = result.ok().flatten();
    Reading {
        told,
        values: held.as_ref().map_or([0; COUNT], to_values),
        tail: held.map_or(&[], |record| record.reserved_tail),
    }
}

fn compare_slot(slot: &[u8], theirs: &[u8], tally: &mut Tally) -> Result<(), String> {
    tally.same(&slot, &theirs, || "bytes of a slot".to_string())?;
    let ours = our_reading(slot);
    tally.count(&ours.told);
    tally.count_form(&form(slot));
    tally.same(&ours, &model_reading(slot), || format!("reading of the slot {slot:?}"))?;
    let mut raw = RawRecord::default();
    let tail = raw.read_slot(slot);
    let held = read_slot(slot);
    let typed = held.as_ref().map_or(None, Option::as_ref).map(RawRecord::try_from);
    tally.beside(&Ok(raw), &typed.unwrap_or(Ok(RawRecord::default())), || {
        format!("raw reading of the slot {slot:?}")
    })?;
    let typed = held.map(|held| held.map(|record| record.reserved_tail));
    tally.beside(&tail, &typed, || format!("raw tail of the slot {slot:?}"))
}

fn allowance(d: &mut Draws) -> usize {
    match d.below(8) {
        0 => 0,
        1 => 1,
        2 => usize::MAX,
        _ => d.below(90),
    }
}

/// A step on a slot of another size is refused with 8, stores nothing and leaves the job as it was.
fn compare_other_size(d: &mut Draws, job: &mut Job, tally: &mut Tally) -> Result<(), String> {
    let n = d.below(300);
    if n == job.slot_size() {
        return Ok(());
    }
    let (before, mut slot) = (job.clone(), vec![BEFORE; n]);
    let told = step(job.advance(&mut Slot::new(&mut slot), allowance(d)));
    let (same, told_by_value) = job.clone().step(&mut Slot::new(&mut slot), allowance(d));
    let ours = (told, step(told_by_value), &*job, same, slot);
    let refused = ([0, 0, 8], [0, 0, 8], &before, before.clone(), vec![BEFORE; n]);
    tally.same(&ours, &refused, || format!("steps on a slot of {n} bytes"))
}

/// A job on the slot, given up at a place by draws.
fn compare_job(case: u32, d: &mut Draws, slot: &mut [u8], tally: &mut Tally) -> Result<(), String> {
    let mut theirs = slot.to_vec();
    let (values, tail) = record(case, d, slot.len());
    let record = from_values(&values, &tail);
    let begun = Job::begin(&Slot::new(slot), &record);
    let raw = RawRecord::try_from(&record).and_then(|raw| raw.begin(&Slot::new(slot), &tail));
    tally.beside(&raw, &begun, || format!("raw begin of case {case} on the slot {slot:?}"))?;
    let (answer, mut model) = jobs::begin(&theirs, &values, &tail);
    let ours = told(&begun, |job| [job.stores_left(), 0]);
    tally.count(&ours);
    tally.same(&ours, &padded(&answer), || format!("begin of case {case} on the slot {theirs:?}"))?;
    compare_slot(slot, &theirs, tally)?;
    let Ok(mut job) = begun else { return Ok(()) };
    for _ in 0..d.below(12) {
        compare_other_size(d, &mut job, tally)?;
        let allowance = allowance(d);
        let made = if d.below(2) == 0 {
            job.advance(&mut Slot::new(slot), allowance)
        } else {
            let (stepped, made) = job.step(&mut Slot::new(slot), allowance);
            job = stepped;
            made
        };
        let model_made = jobs::step(&mut model, &mut theirs, allowance);
        tally.same(&step(made), &model_made, || format!("step of case {case} by {allowance}"))?;
        tally.same(&job.stores_made(), &model.made, || format!("stores of case {case}"))?;
        compare_slot(slot, &theirs, tally)?;
    }
    Ok(())
}

/// A slot that breaks the form is made empty.
fn compare_emptied(slot: &mut [u8], tally: &mut Tally) -> Result<(), String> {
    let Form::Broken(..) = form(slot) else { return Ok(()) };
    let emptied = Slot::new(slot).make_empty();
    tally.same(&emptied, &Ok(()), || format!("emptying of {} bytes", slot.len()))?;
    compare_slot(slot, &jobs::stuffing(slot.len()), tally)
}

/// Three jobs, one after the other, on one slot, which is made empty in between where it breaks the form.
pub fn case(case: u32, tally: &mut Tally) -> Result<(), String> {
    let mut d = Draws(seed(case));
    let n = size(&mut d);
    let mut slot = start(&mut d, n);
    for k in 0..3 {
        compare_job(case.wrapping_mul(3).wrapping_add(k), &mut d, &mut slot, tally)?;
        compare_emptied(&mut slot, tally)?;
    }
    Ok(())
}
