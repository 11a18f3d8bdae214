//! An inserter: tasks write descriptors to the slots of one live loop, a few stores at a time, and are cancelled anywhere; a sender copies
//! the loop whenever its timer fires. Every copy is walked as a loop of descriptors, and each slot in it is read.
//!
//!     cargo run --example inserter [SEED] [TURNS]
//!
//! A slot reads as before while its job has made no store, as the new record after the last store, and as empty in between. One of the slots
//! starts with stuffing in front of its descriptor, as a multiplexer may leave it: its first byte is 0x42 already, so that the first store of a
//! job changes nothing there, and it still reads as before. Anything else ends the program with a panic.
use s2xv2::{read_slot, Job, Polarization, Refusal, RollOff, S2Xv2Mode, S2Xv2SatelliteDeliverySystem as Record, S2Xv2Superframe, Slot};
use std::ops::Range;

const SIZES: [usize; 6] = [21, 23, 44, 21, 130, 257];
/// The slot that starts with stuffing in front.
const BEHIND_STUFFING: usize = 4;

/// Numbers by draws: an xorshift.
struct Draws(u64);

impl Draws {
    fn below(&mut self, limit: u32) -> u32 {
        self.0 ^= self.0 << 13;
        self.0 ^= self.0 >> 7;
        self.0 ^= self.0 << 17;
        ((self.0 >> 32) % u64::from(limit)) as u32
    }

    fn byte(&mut self, limit: u32) -> u8 {
        self.below(limit) as u8
    }

    fn flag(&mut self) -> bool {
        self.below(2) == 1
    }
}

fn superframe(d: &mut Draws) -> S2Xv2Superframe {
    let mut s = S2Xv2Superframe::default();
    s.sosf_wh_sequence_number = d.byte(256);
    s.sffi_selector = d.flag();
    s.beam_hopping_time_plan_selector = d.flag();
    s.reference_scrambling_index = d.below(1 << 20);
    s.sffi = s.sffi_selector.then(|| d.byte(16));
    s.payload_scrambling_index = d.below(1 << 20);
    s.beamhopping_time_plan_id = s.beam_hopping_time_plan_selector.then(|| d.below(u32::MAX));
    s.superframe_pilots_wh_sequence_number = d.byte(32);
    s.postamble_pli = d.byte(8);
    s
}

fn record(d: &mut Draws) -> Record<'static> {
    let mut r = Record::default();
    r.delivery_system_id = d.below(u32::MAX);
    r.s2xv2_mode = S2Xv2Mode::from_u8(d.byte(8));
    r.multiple_input_stream_flag = d.flag();
    r.roll_off = RollOff::from_u8(d.byte(8));
    r.channel_bond = d.byte(4);
    r.polarization = Polarization::from_u8(d.byte(4));
    r.scrambling_sequence_selector = r.s2xv2_mode.has_scrambling_selector().then(|| d.flag());
    r.receiver_profiles = d.byte(32);
    r.satellite_id = d.below(1 << 24);
    r.frequency = d.below(u32::MAX);
    r.symbol_rate = d.below(u32::MAX);
    r.input_stream_identifier = r.multiple_input_stream_flag.then(|| d.byte(256));
    r.scrambling_sequence_index = (r.scrambling_sequence_selector == Some(true)).then(|| d.below(1 << 18));
    r.timeslice_number = r.s2xv2_mode.has_timeslice().then(|| d.byte(256));
    let ids = if r.channel_bond == 1 { 1 + d.below(2) } else { 0 };
    r.secondary_delivery_system_ids = (0..ids).map(|_| d.below(u32::MAX)).collect();
    r.superframe = r.s2xv2_mode.has_superframe().then(|| superframe(d));
    r
}

/// The body of a record with a tail, most often one that fits a slot of n bytes.
fn body(d: &mut Draws, n: usize) -> Vec<u8> {
    let record = record(d);
    let mut body = vec![0; 64];
    let size = record.serialize_into(&mut body).expect("the record is consistent");
    body.truncate(size);
    let room = n.saturating_sub(size + 3) as u32;
    let tail = d.below(room + 1);
    body.extend((0..tail).map(|_| d.byte(256)));
    body
}

/// What was seen.
#[derive(Debug, Default, Clone, Copy, PartialEq, Eq)]
pub struct Seen {
    pub copies: u64,
    pub slots_as_before: u64,
    pub slots_empty: u64,
    pub slots_as_written: u64,
    pub stores: u64,
    pub jobs_begun: u64,
    pub jobs_refused: u64,
    pub jobs_done: u64,
    pub cancelled_before_the_first_store: u64,
    pub cancelled_between_stores: u64,
    pub ended_after_the_last_store: u64,
}

/// A task: its slot's place in the loop, the body that the slot held when the job began (none if it was empty), how many stores leave it so, and
/// the job with the body that it writes.
struct Task {
    place: Range<usize>,
    before: Option<Vec<u8>>,
    idle_stores: usize,
    job: Option<(Job, Vec<u8>)>,
}

impl Task {
    /// The body that the slot has to read as now.
    fn now(&self) -> Option<&[u8]> {
        match &self.job {
            None => self.before.as_deref(),
            Some((job, _)) if job.stores_made() <= self.idle_stores => self.before.as_deref(),
            Some((job, body)) if job.stores_left() == 0 => Some(body),
            Some(_) => None,
        }
    }

    /// A few stores of the job, or a new job.
    fn poll(&mut self, d: &mut Draws, live: &mut [u8], seen: &mut Seen) {
        let mut slot = Slot::new(&mut live[self.place.clone()]);
        let Some((job, _)) = &mut self.job else {
            return self.begin(d, &slot, seen);
        };
        let allowance = d.below(5) as usize;
        let told = job.advance(&mut slot, allowance).expect("the slot has its size");
        seen.stores += told.stores as u64;
        if told.done && told.stores > 0 {
            seen.jobs_done += 1;
        }
    }

    fn begin(&mut self, d: &mut Draws, slot: &Slot<'_>, seen: &mut Seen) {
        let body = body(d, self.place.len());
        let record = Record::parse(&body).expect("the body was written");
        self.idle_stores = usize::from(slot.bytes()[0] == Slot::STUFFING_TAG);
        match Job::begin(slot, &record) {
            Ok(job) => {
                seen.jobs_begun += 1;
                self.job = Some((job, body));
            }
            Err(Refusal::NoFit { .. }) => seen.jobs_refused += 1,
            Err(other) => panic!("begin on a slot in good form: {other}"),
        }
    }

    /// Gives up the job wherever it is.
    fn cancel(&mut self, seen: &mut Seen) {
        let Some((job, _)) = &self.job else { return };
        match (job.stores_made(), job.stores_left()) {
            (0, _) => seen.cancelled_before_the_first_store += 1,
            (_, 0) => seen.ended_after_the_last_store += 1,
            _ => seen.cancelled_between_stores += 1,
        }
        self.before = self.now().map(<[u8]>::to_vec);
        self.job = None;
    }

    /// A copy of the slot reads as it has to.
    fn check(&self, copy: &[u8], seen: &mut Seen) {
        let read = read_slot(copy).unwrap_or_else(|refusal| panic!("{refusal}: {copy:02X?}"));
        let expected = self.now().map(|body| Record::parse(body).expect("the body was written"));
        assert_eq!(read, expected, "a slot reads as something else: {copy:02X?}");
        match &self.job {
            _ if read.is_none() => seen.slots_empty += 1,
            Some((job, _)) if job.stores_left() == 0 => seen.slots_as_written += 1,
            _ => seen.slots_as_before += 1,
        }
    }
}

/// Where descriptors start, as a receiver finds them: tag, length, contents, and the next one.
fn walk(copy: &[u8]) -> Vec<usize> {
    let mut starts = vec![];
    let mut at = 0;
    while at < copy.len() {
        assert!(copy[at] == 0x7F || copy[at] == 0x42, "no tag at {at}: {copy:02X?}");
        starts.push(at);
        at += 2 + usize::from(*copy.get(at + 1).expect("a length"));
    }
    assert_eq!(at, copy.len(), "the last descriptor runs past the end");
    starts
}

fn send(live: &[u8], tasks: &[Task], seen: &mut Seen) {
    let copy = live.to_vec();
    let starts = walk(&copy);
    for task in tasks {
        assert!(starts.contains(&task.place.start), "no descriptor starts at {}", task.place.start);
        task.check(&copy[task.place.clone()], seen);
    }
    seen.copies += 1;
}

/// Lays stuffing of 10 bytes in front of a descriptor that ends where the slot ends, and gives its body.
fn lay_behind_stuffing(slot: &mut [u8]) -> Vec<u8> {
    slot.fill(0xFF);
    slot[..2].copy_from_slice(&[Slot::STUFFING_TAG, 8]);
    let length = slot.len() - 12;
    let ours = &mut slot[10..];
    ours[..3].copy_from_slice(&[Record::TAG, length as u8, Record::TAG_EXTENSION]);
    Record::default()
        .serialize_into(&mut ours[3..])
        .expect("room for a body of 18 bytes");
    ours[3..].to_vec()
}

/// So many turns, each of one task or of the sender.
pub fn run(seed: u64, turns: u32) -> Seen {
    let mut d = Draws(seed.wrapping_mul(2).wrapping_add(1));
    let mut live = vec![0; SIZES.iter().sum()];
    let mut tasks = vec![];
    let mut start = 0;
    for (k, size) in SIZES.into_iter().enumerate() {
        let place = start..start + size;
        start = place.end;
        Slot::new(&mut live[place.clone()]).make_empty().expect("a size from 21 to 257");
        tasks.push(Task {
            before: (k == BEHIND_STUFFING).then(|| lay_behind_stuffing(&mut live[place.clone()])),
            place,
            idle_stores: 0,
            job: None,
        });
    }
    let mut seen = Seen::default();
    for _ in 0..turns {
        let task = d.below(SIZES.len() as u32) as usize;
        match d.below(64) {
            0 => tasks[task].cancel(&mut seen),
            1..=16 => send(&live, &tasks, &mut seen),
            _ => tasks[task].poll(&mut d, &mut live, &mut seen),
        }
        if tasks[task].job.as_ref().is_some_and(|(job, _)| job.stores_left() == 0) && d.below(8) == 0 {
            tasks[task].cancel(&mut seen);
        }
    }
    seen
}

#[allow(dead_code)]
fn main() {
    let mut words = std::env::args().skip(1).map(|word| word.parse::<u32>().expect("a number"));
    let (seed, turns) = (words.next().unwrap_or(1), words.next().unwrap_or(200_000));
    let seen = run(seed.into(), turns);
    println!("seed {seed}: {} tasks and a sender, {turns} turns", SIZES.len());
    println!(
        "{} jobs begun, {} refused because the record does not fit",
        seen.jobs_begun, seen.jobs_refused
    );
    println!("{} stores made, {} jobs done", seen.stores, seen.jobs_done);
    println!(
        "jobs given up: {} before the first store, {} between two stores, {} after the last",
        seen.cancelled_before_the_first_store, seen.cancelled_between_stores, seen.ended_after_the_last_store
    );
    println!("{} copies of the loop, each walked to its end", seen.copies);
    println!(
        "slots in the copies: {} as before, {} empty, {} as written, and no other",
        seen.slots_as_before, seen.slots_empty, seen.slots_as_written
    );
}
