//! Reading and emptying slots, beginning a job and making all of its stores. The slots of jobs are empty at first and are used again as the
//! job before left them.
use crate::boundary::{self, Job, Stepped};
use crate::inputs::{self, Set};
use crate::rows::{drive, own, raw, safe, zeros, Own};
use core::hint::black_box;
use s2xv2::{read_slot, RawRecord, Refusal, S2Xv2SatelliteDeliverySystem as Safe, Slot};

/// Whole jobs are long: so many of the records have one.
const JOBS: usize = 100;
/// The size of the slots that are read.
const READ: usize = 64;
/// The size of those in which descriptors are counted, and what stands in them, with the number of descriptors.
const COUNTED: usize = 257;
const ARRANGEMENTS: [(&str, usize); 6] = [
    ("stuffing", 1),
    ("ours", 1),
    ("ours-stuffing", 2),
    ("stuffing-ours", 2),
    ("pieces", 128),
    ("pieces-ours", 119),
];
/// Those that break the form by a foreign tag, and its offset.
const BROKEN: [(&str, usize); 4] = [
    ("broken", 0),
    ("broken-pieces", 0),
    ("stuffing-broken", 236),
    ("pieces-broken", 254),
];

fn empty_slot(size: usize) -> Vec<u8> {
    let mut slot = vec![0xFF; size];
    slot[0] = 0x42;
    slot[1] = (size - 2) as u8;
    slot
}

/// A slot of a size, and whether every descriptor that is stored there fills it.
#[derive(Clone, Copy)]
pub struct Kind {
    pub size: usize,
    pub filled: bool,
}

/// The bodies of a slot: the smallest holds no more than the core. Three bytes stand before a body, and a longer tail fills the slot.
fn bodies(kind: Kind) -> Vec<Vec<u8>> {
    let set = if kind.size == 21 { Set::Core } else { Set::Mixed };
    let mut bodies: Vec<Vec<u8>> = inputs::bodies(set).into_iter().map(|body| body.bytes).collect();
    if kind.filled {
        bodies.iter_mut().for_each(|body| body.resize(kind.size - 3, 0xA5));
    }
    bodies
}

/// Slots that hold the mixed bodies uncut, or empty ones.
fn slots(held: bool) -> Vec<Vec<u8>> {
    let kind = Kind { size: READ, filled: false };
    let body_of = |body: Vec<u8>| {
        let mut slot = empty_slot(READ);
        if held {
            let end = body.len() + 3;
            slot[..3].copy_from_slice(&[0x7F, (end - 2) as u8, 0x24]);
            slot[3..end].copy_from_slice(&body);
            slot[end..end + 2].copy_from_slice(&[0x42, (READ - end - 2) as u8]);
        }
        slot
    };
    bodies(kind).into_iter().map(body_of).collect()
}

/// Of the slots in which descriptors are counted: their bodies are the core alone.
pub const CORE: Kind = Kind { size: 21, filled: false };

/// One of ours of a size, filled up by a tail.
fn ours(body: &[u8], size: usize) -> Vec<u8> {
    let mut descriptor = vec![0x7F, (size - 2) as u8, 0x24];
    descriptor.extend(body);
    descriptor.resize(size, 0xA5);
    descriptor
}

/// A descriptor of a size with a foreign tag.
fn foreign(size: usize) -> Vec<u8> {
    let mut descriptor = empty_slot(size);
    descriptor[0] = 0x48;
    descriptor
}

/// A slot with a body in an arrangement: pieces of stuffing have 2 bytes, and the last of 128 has 3.
fn arranged(what: &str, body: &[u8]) -> Option<Vec<u8>> {
    let (least, rest) = (body.len() + 3, COUNTED - body.len() - 3);
    Some(match what {
        "stuffing" => empty_slot(COUNTED),
        "ours" => ours(body, COUNTED),
        "ours-stuffing" => [ours(body, least), empty_slot(rest)].concat(),
        "stuffing-ours" => [empty_slot(rest), ours(body, least)].concat(),
        "pieces" => [[0x42, 0].repeat(127), empty_slot(3)].concat(),
        "pieces-ours" => [[0x42, 0].repeat(rest / 2), ours(body, least)].concat(),
        "broken" => foreign(COUNTED),
        "broken-pieces" => [foreign(3), [0x42, 0].repeat(127)].concat(),
        "stuffing-broken" => [empty_slot(rest), foreign(least)].concat(),
        "pieces-broken" => [[0x42, 0].repeat(127), foreign(3)].concat(),
        _ => return None,
    })
}

/// The slots that are read: `held` or `empty`, or those of an arrangement.
fn named(what: &str) -> Option<Vec<Vec<u8>>> {
    match held(what) {
        Some(held) => Some(slots(held)),
        None => bodies(CORE).iter().map(|body| arranged(what, body)).collect(),
    }
}

/// Reading slots: `held` or `empty`, or those of an arrangement.
pub fn read(side: &str, what: &str, repeats: usize) -> Option<usize> {
    let slots = named(what)?;
    let slots: Vec<&[u8]> = slots.iter().map(Vec::as_slice).collect();
    let (mut lent, mut record) = (zeros(), RawRecord::default());
    Some(match side {
        "library" => drive(&slots, repeats, |slot| boundary::slot_read(slot, black_box(&mut lent))),
        "raw" => drive(&slots, repeats, |slot| black_box(&mut record).read_slot(slot)),
        "safe" => drive(&slots, repeats, |slot| read_slot(slot)),
        "empty" => drive(&slots, repeats, |slot| slot.len()),
        _ => return None,
    })
}

fn held(what: &str) -> Option<bool> {
    ["empty", "held"].contains(&what).then_some(what == "held")
}

/// The tail of a slot by itself, through the boundary.
pub fn tail(side: &str, what: &str, repeats: usize) -> Option<usize> {
    let slots = slots(held(what)?);
    let slots: Vec<&[u8]> = slots.iter().map(Vec::as_slice).collect();
    Some(match side {
        "library" => drive(&slots, repeats, boundary::slot_reserved_tail),
        "empty" => drive(&slots, repeats, |slot| slot.len()),
        _ => return None,
    })
}

/// Making a slot of a size empty, again and again.
pub fn make_empty(side: &str, size: usize, repeats: usize) -> Option<usize> {
    let mut slot = vec![7; size];
    let inputs = [(); inputs::COUNT];
    Some(match side {
        "library" => drive(&inputs, repeats, |()| boundary::make_empty(black_box(&mut slot))),
        "safe" => drive(&inputs, repeats, |()| Slot::new(black_box(&mut slot)).make_empty()),
        "empty" => drive(&inputs, repeats, |()| black_box(&mut slot).len()),
        _ => return None,
    })
}

/// A job of zeros, to be lent.
fn no_job() -> Job {
    Job {
        staged: [0; 257],
        sizes: [0; 3],
    }
}

/// The library begins in one job, which is lent to every call; the raw record and the typed one give back a job. The slot is empty, or of an
/// arrangement.
pub fn begin(side: &str, kind: Kind, arrangement: Option<&str>, repeats: usize) -> Option<usize> {
    let (bodies, mut bytes) = (bodies(kind), empty_slot(kind.size));
    if let Some(what) = arrangement {
        bytes = arranged(what, &bodies[0])?;
    }
    let records: Vec<Own> = bodies.iter().map(|body| own(body)).collect();
    let records: Vec<&Own> = records.iter().collect();
    let mut job = no_job();
    Some(match side {
        "library" => drive(&records, repeats, |own| {
            boundary::begin(&bytes, &own.record, own.tail, black_box(&mut job))
        }),
        "raw" => {
            let records: Vec<Own<RawRecord>> = bodies.iter().map(|body| raw(body)).collect();
            let slot = Slot::new(&mut bytes);
            drive(&records.iter().collect::<Vec<_>>(), repeats, |own| {
                own.record.begin(&slot, own.tail)
            })
        }
        "safe" => {
            let records: Vec<Safe> = bodies.iter().map(|body| safe(body)).collect();
            let slot = Slot::new(&mut bytes);
            drive(&records.iter().collect::<Vec<_>>(), repeats, |record| {
                s2xv2::Job::begin(&slot, record)
            })
        }
        "empty" => drive(&records, repeats, |own| own.tail.len()),
        _ => return None,
    })
}

fn jobs(kind: Kind) -> Vec<Job> {
    let (bodies, slot) = (bodies(kind), empty_slot(kind.size));
    let begun = |body: &Vec<u8>| {
        let (own, mut job) = (own(body), no_job());
        let answer = boundary::begin(&slot, &own.record, own.tail, &mut job);
        assert_eq!((answer.number, usize::from(answer.first)), (0, kind.size + 2));
        assert!(!kind.filled || job.sizes[1] == kind.size);
        job
    };
    bodies.iter().take(JOBS).map(begun).collect()
}

/// Steps until the job is done, by value: the job goes to the call and comes back from it.
#[inline(always)]
fn by_value(job: &Job, slot: &mut [u8], allowance: usize) -> Stepped {
    let mut stepped = boundary::step(*job, slot, black_box(allowance));
    while stepped.told.done == 0 && stepped.told.number == 0 {
        stepped = boundary::step(stepped.job, slot, black_box(allowance));
    }
    stepped
}

/// The same where the job stands, which is at its start again afterwards.
#[inline(always)]
fn in_place(job: &mut Job, slot: &mut [u8], allowance: usize) {
    loop {
        let told = boundary::step_in_place(job, slot, black_box(allowance));
        if told.done != 0 || told.number != 0 {
            job.sizes[2] = 0;
            return;
        }
    }
}

/// The loop of steps with no call in it: as many turns as the job has steps.
#[inline(always)]
fn turns(size: usize, allowance: usize) -> usize {
    let mut left = size + 2;
    loop {
        let made = black_box(allowance).min(left);
        left -= made;
        if left == 0 {
            return left;
        }
    }
}

/// Whole jobs, from the first store to the last.
pub fn job(side: &str, kind: Kind, allowance: usize, repeats: usize) -> Option<usize> {
    let (mut jobs, mut slot) = (jobs(kind), empty_slot(kind.size));
    let jobs: Vec<*mut Job> = jobs.iter_mut().map(core::ptr::from_mut).collect();
    Some(match side {
        "value" => drive(&jobs, repeats, |job| by_value(unsafe { &*job }, &mut slot, allowance)),
        "place" => drive(&jobs, repeats, |job| in_place(unsafe { &mut *job }, &mut slot, allowance)),
        "empty" => drive(&jobs, repeats, |_| turns(kind.size, allowance)),
        _ => return None,
    })
}

/// That both ways to step leave the same slot, which holds the descriptor; that all sides read the same of a slot, and begin the same job.
pub fn agree() -> bool {
    let kinds = [(21, false), (64, false), (64, true), (257, false), (257, true)];
    let stepped = kinds.into_iter().all(|(size, filled)| {
        jobs(Kind { size, filled }).iter_mut().all(|job| {
            let (mut a, mut b) = (empty_slot(size), empty_slot(size));
            by_value(job, &mut a, 8);
            in_place(job, &mut b, 1);
            a == b && a[0] == 0x7F && a[2..job.sizes[1]] == job.staged[2..job.sizes[1]]
        })
    });
    stepped
        && [false, true]
            .into_iter()
            .all(|held| slots(held).iter().all(|slot| read_alike(slot, held)))
        && begun_alike()
        && ARRANGEMENTS.into_iter().all(|(what, count)| arranged_alike(what, count))
        && BROKEN.into_iter().all(|(what, offset)| refused_alike(what, offset))
}

/// That all sides refuse the slots of an arrangement for their form, with this offset, in reading and in begin.
fn refused_alike(what: &str, offset: usize) -> bool {
    bodies(CORE).iter().all(|body| {
        let mut slot = arranged(what, body).expect("an arrangement");
        let (own, mut lent, mut job) = (own(body), zeros(), no_job());
        let told = |answer: boundary::Answer| (answer.number, usize::from(answer.first)) == (12, offset);
        let refusal = Some(Refusal::SlotForm { offset });
        told(boundary::slot_read(&slot, &mut lent))
            && told(boundary::begin(&slot, &own.record, own.tail, &mut job))
            && slot.len() == COUNTED
            && RawRecord::default().read_slot(&slot).err() == refusal
            && read_slot(&slot).err() == refusal
            && raw(body).record.begin(&Slot::new(&mut slot), own.tail).err() == refusal
            && s2xv2::Job::begin(&Slot::new(&mut slot), &safe(body)).err() == refusal
    })
}

/// That the slots of an arrangement have so many descriptors and read as they should, and that a job begins there.
fn arranged_alike(what: &str, count: usize) -> bool {
    bodies(CORE).iter().all(|body| {
        let slot = arranged(what, body).expect("an arrangement");
        let (mut at, mut descriptors) = (0, 0);
        while at < slot.len() {
            at += usize::from(slot[at + 1]) + 2;
            descriptors += 1;
        }
        let (own, mut job) = (own(body), no_job());
        let begun = boundary::begin(&slot, &own.record, own.tail, &mut job);
        (at, descriptors) == (COUNTED, count)
            && read_alike(&slot, what.contains("ours"))
            && (begun.number, usize::from(begun.first)) == (0, COUNTED + 2)
    })
}

fn read_alike(slot: &[u8], held: bool) -> bool {
    let (mut lent, mut record) = (zeros(), RawRecord::default());
    let answer = boundary::slot_read(slot, &mut lent);
    let part = boundary::slot_reserved_tail(slot);
    let safe = read_slot(slot).expect("a slot in good form");
    let tail = record.read_slot(slot).expect("a slot in good form");
    let (place, length) = (usize::from(answer.first), usize::from(answer.second));
    answer.number == 0
        && (part.place, part.length) == (place, length)
        && [tail.is_some(), safe.is_some(), place != 0] == [held; 3]
        && tail.unwrap_or(&[]) == &slot[place..place + length]
        && safe.map_or(RawRecord::default(), |safe| RawRecord::try_from(&safe).expect("two ids")) == record
        && (held || lent == zeros())
}

fn begun_alike() -> bool {
    let kind = Kind { size: 64, filled: false };
    bodies(kind).iter().zip(jobs(kind)).all(|(body, job)| {
        let mut bytes = empty_slot(kind.size);
        let mut slot = Slot::new(&mut bytes);
        let (raw, safe) = (raw(body), safe(body));
        let mut begun = s2xv2::Job::begin(&slot, &safe).expect("room");
        let alike = raw.record.begin(&slot, raw.tail).as_ref() == Ok(&begun) && begun.descriptor_size() == job.sizes[1];
        let done = begun.advance(&mut slot, usize::MAX).is_ok_and(|told| told.done);
        alike && done && bytes[2..job.sizes[1]] == job.staged[2..job.sizes[1]]
    })
}
