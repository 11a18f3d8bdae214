//! An inserter of futures: tasks write descriptors to the slots of one live loop, a few stores a poll, and are dropped at any poll; a sender
//! copies the loop at every poll and reads each slot in its copy.
//!
//!     cargo run --example async_inserter [SEED] [TURNS]
//!
//! A slot has to read as before, then as empty, then as the record, and never as anything else. Where a task was dropped, the next task of
//! its slot begins anew with the same record. The program fails if anything else was read.
use s2xv2::{read_slot, Job, Progress, Refusal, S2Xv2SatelliteDeliverySystem as Record, Slot};
use std::future::Future;
use std::ops::Range;
use std::pin::Pin;
use std::process::ExitCode;
use std::sync::atomic::{AtomicBool, Ordering};
use std::sync::{Arc, Mutex};
use std::task::{Context, Poll, Wake, Waker};

const SIZES: [usize; 5] = [Slot::MIN_SIZE, 23, 44, 130, Slot::MAX_SIZE];

/// The live loop. A task locks it inside a poll, and the sender while it copies: nobody keeps the lock over a place to stop.
type Live = Arc<Mutex<Vec<u8>>>;

/// Writes a job to its slot, a few stores at each poll. It may be dropped at any poll: there is nothing to clean up.
struct Insert {
    live: Live,
    place: Range<usize>,
    job: Job,
    stores: usize,
}

impl Future for Insert {
    type Output = Result<(), Refusal>;

    fn poll(mut self: Pin<&mut Self>, context: &mut Context<'_>) -> Poll<Self::Output> {
        let Self { live, place, job, stores } = &mut *self;
        let mut live = live.lock().expect("no task panics");
        match job.advance(&mut Slot::new(&mut live[place.clone()]), *stores) {
            Ok(Progress { done: true, .. }) => Poll::Ready(Ok(())),
            Ok(_) => {
                context.waker().wake_by_ref();
                Poll::Pending
            }
            Err(refusal) => Poll::Ready(Err(refusal)),
        }
    }
}

/// What a task does: it begins a job on its slot as it finds it, and writes that to its end.
async fn replace(live: Live, place: Range<usize>, body: Vec<u8>, stores: usize) -> Result<(), Refusal> {
    let job = {
        let mut live = live.lock().expect("no task panics");
        Job::begin(&Slot::new(&mut live[place.clone()]), &Record::parse(&body)?)?
    };
    let insert = Insert { live, place, job, stores };
    insert.await
}

/// Whether a task asked to be polled again.
struct Woken(AtomicBool);

impl Wake for Woken {
    fn wake(self: Arc<Self>) {
        self.0.store(true, Ordering::Relaxed);
    }
}

/// A task of the executor.
struct Task {
    future: Pin<Box<dyn Future<Output = Result<(), Refusal>> + Send>>,
    woken: Arc<Woken>,
    polls: u64,
}

impl Task {
    fn new(future: impl Future<Output = Result<(), Refusal>> + Send + 'static) -> Self {
        Self {
            future: Box::pin(future),
            woken: Arc::new(Woken(AtomicBool::new(true))),
            polls: 0,
        }
    }

    /// Polls the task if it asked for it.
    fn poll(&mut self) -> Poll<Result<(), Refusal>> {
        if !self.woken.0.swap(false, Ordering::Relaxed) {
            return Poll::Pending;
        }
        self.polls += 1;
        let waker = Waker::from(self.woken.clone());
        self.future.as_mut().poll(&mut Context::from_waker(&waker))
    }
}

/// What a slot reads as, in the order in which that may change.
#[derive(Debug, Clone, Copy, PartialEq, Eq, PartialOrd, Ord)]
pub enum Reads {
    Before,
    Empty,
    Written,
    Other,
}

/// A slot as the sender knows it: its place in the loop, the body that it held before its task (none if it was empty), the body that the
/// task writes, and the last that it read as.
pub struct Watched {
    pub place: Range<usize>,
    pub before: Option<Vec<u8>>,
    pub body: Vec<u8>,
    pub last: Reads,
}

impl Watched {
    /// What the slot reads as in a copy of the loop. To go back in the order is to read as something else.
    pub fn read(&mut self, copy: &[u8]) -> Reads {
        let read = read_slot(&copy[self.place.clone()]);
        let before = self.before.as_deref().map(Record::parse).transpose();
        self.last = if self.last == Reads::Before && read == before {
            Reads::Before
        } else if self.last <= Reads::Empty && read == Ok(None) {
            Reads::Empty
        } else if read == Record::parse(&self.body).map(Some) {
            Reads::Written
        } else {
            Reads::Other
        };
        self.last
    }

    /// The body that the slot holds now, before a task that is to write another, or the same once more.
    fn settle(&mut self) {
        match self.last {
            Reads::Before => {}
            Reads::Written => self.before = Some(self.body.clone()),
            Reads::Empty | Reads::Other => self.before = None,
        }
        self.last = Reads::Before;
    }
}

/// What was seen.
#[derive(Debug, Default, Clone, Copy, PartialEq, Eq)]
pub struct Seen {
    pub copies: u64,
    pub slots_as_before: u64,
    pub slots_empty: u64,
    pub slots_as_written: u64,
    pub slots_as_something_else: u64,
    pub tasks: u64,
    pub polls: u64,
    pub dropped_before_the_first_poll: u64,
    pub dropped_between_two_polls: u64,
    pub begun_where_one_was_dropped: u64,
    pub finished: u64,
}

/// The executor, the sender and the slots of their loop, each with its task and whether the one before that was dropped.
struct Inserter {
    live: Live,
    slots: Vec<(Watched, Option<Task>, bool)>,
    draws: u64,
    seen: Seen,
}

impl Inserter {
    fn new(seed: u64) -> Self {
        let mut live = vec![0; SIZES.iter().sum()];
        let mut slots = vec![];
        let mut start = 0;
        for size in SIZES {
            let place = start..start + size;
            start = place.end;
            Slot::new(&mut live[place.clone()]).make_empty().expect("a size from 21 to 257");
            let slot = Watched {
                place,
                before: None,
                body: vec![],
                last: Reads::Before,
            };
            slots.push((slot, None, false));
        }
        Self {
            live: Arc::new(Mutex::new(live)),
            slots,
            draws: seed.wrapping_mul(2).wrapping_add(1),
            seen: Seen::default(),
        }
    }

    /// A number by draws: an xorshift.
    fn below(&mut self, limit: usize) -> usize {
        self.draws ^= self.draws << 13;
        self.draws ^= self.draws >> 7;
        self.draws ^= self.draws << 17;
        (self.draws >> 32) as usize % limit
    }

    /// A body that fits a slot of n bytes, and that no task wrote before.
    fn body(&mut self, n: usize) -> Vec<u8> {
        let room = n - Slot::MIN_SIZE;
        let count = self.below(room + 1);
        let count = if count + 1 == room { room } else { count };
        let tail: Vec<u8> = (0..count).map(|_| self.below(256) as u8).collect();
        let mut record = Record::default();
        record.delivery_system_id = self.seen.tasks as u32;
        record.frequency = self.below(1 << 30) as u32;
        record.reserved_tail = &tail;
        let mut body = vec![0; record.serialized_len().expect("the record is consistent")];
        record.serialize_into(&mut body).expect("the record is consistent");
        body
    }

    /// A new task on a slot that has none: with a new record, or with the same where a task was dropped.
    fn spawn(&mut self, at: usize) {
        self.seen.tasks += 1;
        let n = self.slots[at].0.place.len();
        let (body, stores) = (self.body(n), 1 + self.below(8));
        let (slot, task, dropped) = &mut self.slots[at];
        slot.settle();
        if *dropped {
            self.seen.begun_where_one_was_dropped += 1;
        } else {
            slot.body = body;
        }
        *dropped = false;
        *task = Some(Task::new(replace(self.live.clone(), slot.place.clone(), slot.body.clone(), stores)));
    }

    /// Drops the task wherever it is.
    fn cancel(&mut self, at: usize) {
        let (_, task, dropped) = &mut self.slots[at];
        let Some(task) = task.take() else { return };
        *dropped = true;
        match task.polls {
            0 => self.seen.dropped_before_the_first_poll += 1,
            _ => self.seen.dropped_between_two_polls += 1,
        }
    }

    /// Polls the task, and has the sender copy the loop. A task that is done leaves its record.
    fn poll(&mut self, at: usize) {
        let Some(task) = &mut self.slots[at].1 else { return };
        let polled = task.poll();
        self.seen.polls += 1;
        self.send();
        if let Poll::Ready(outcome) = polled {
            outcome.expect("the slot is in good form, and the record fits");
            let (slot, task, _) = &mut self.slots[at];
            *task = None;
            self.seen.finished += 1;
            if slot.last != Reads::Written {
                self.seen.slots_as_something_else += 1;
            }
        }
    }

    /// Copies the loop and reads each slot in the copy.
    fn send(&mut self) {
        let copy = self.live.lock().expect("no task panics").clone();
        self.seen.copies += 1;
        for (slot, _, _) in &mut self.slots {
            match slot.read(&copy) {
                Reads::Before => self.seen.slots_as_before += 1,
                Reads::Empty => self.seen.slots_empty += 1,
                Reads::Written => self.seen.slots_as_written += 1,
                Reads::Other => self.seen.slots_as_something_else += 1,
            }
        }
    }

    /// One turn of a slot by draws: a new task, a poll, or now and then the end of its task.
    fn turn(&mut self) {
        let at = self.below(SIZES.len());
        match (self.below(16), &self.slots[at].1) {
            (_, None) => self.spawn(at),
            (0, Some(_)) => self.cancel(at),
            _ => self.poll(at),
        }
    }
}

/// So many turns; then every slot is left with its record. A task makes a store a poll at least, so that it is done in as many polls as its
/// job has stores.
pub fn run(seed: u64, turns: u32) -> Seen {
    let mut inserter = Inserter::new(seed);
    for _ in 0..turns {
        inserter.turn();
    }
    for (at, size) in SIZES.into_iter().enumerate() {
        if inserter.slots[at].2 {
            inserter.spawn(at);
        }
        for _ in 0..size + 2 {
            inserter.poll(at);
        }
        assert!(inserter.slots[at].1.is_none(), "a task was not done in time");
    }
    inserter.seen
}

#[allow(dead_code)]
fn main() -> ExitCode {
    let mut words = std::env::args().skip(1).map(|word| word.parse::<u32>().expect("a number"));
    let (seed, turns) = (words.next().unwrap_or(1), words.next().unwrap_or(100_000));
    let seen = run(seed.into(), turns);
    println!("seed {seed}: {} slots and a sender, {turns} turns", SIZES.len());
    println!("{} tasks in {} polls, {} finished", seen.tasks, seen.polls, seen.finished);
    println!(
        "tasks dropped: {} before the first poll, {} between two polls; {} begun where one was dropped",
        seen.dropped_before_the_first_poll, seen.dropped_between_two_polls, seen.begun_where_one_was_dropped
    );
    println!(
        "slots in {} copies of the loop: {} as before, {} empty, {} as written, {} as something else",
        seen.copies, seen.slots_as_before, seen.slots_empty, seen.slots_as_written, seen.slots_as_something_else
    );
    if seen.slots_as_something_else == 0 {
        ExitCode::SUCCESS
    } else {
        ExitCode::FAILURE
    }
}
