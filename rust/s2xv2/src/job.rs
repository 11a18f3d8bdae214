//! The job that replaces the descriptor in a slot.
use crate::crossing::{accepted_on, flag, record_in, BEGIN};
use crate::{ffi, Refusal, S2Xv2SatelliteDeliverySystem, Slot};
use core::fmt;
use core::mem::MaybeUninit;

/// A write of a record to a slot, a few stores at a time.
///
/// On a slot of n bytes it makes n + 2 stores of one byte. Between any two of them it may be stopped, for a while or for good: the slot
/// then reads as before if no store was made, as the record if all were, and else as empty, and a new job may begin there. A slot that
/// starts with stuffing has not changed after the first store alone, and still reads as before then. A job is a value; drop it to give
/// it up. Two jobs at work on one slot at a time, or an older copy of a job stepped again, are not provided for: each step still stores
/// only bytes of its own job.
///
/// ```
/// use s2xv2::{Job, Refusal, S2Xv2SatelliteDeliverySystem, Slot};
///
/// let mut bytes = [0; 21];
/// let mut slot = Slot::new(&mut bytes);
/// slot.make_empty()?;
/// let mut record = S2Xv2SatelliteDeliverySystem::default();
/// record.symbol_rate = 7;
///
/// let mut job = Job::begin(&slot, &record)?;
/// while !job.advance(&mut slot, 4)?.done {
///     assert_eq!(slot.read(), Ok(None)); // a place to stop
/// }
/// assert_eq!(slot.read(), Ok(Some(record)));
///
/// let mut other = [0; 22];
/// assert_eq!(job.advance(&mut Slot::new(&mut other), 4), Err(Refusal::OtherSize));
/// # Ok::<(), Refusal>(())
/// ```
#[derive(Clone, PartialEq, Eq)]
pub struct Job {
    inner: ffi::Job,
}

/// What a step did.
#[derive(Debug, Clone, Copy, PartialEq, Eq)]
pub struct Progress {
    /// How many stores it made: the smaller of the allowance and the stores that were left.
    pub stores: usize,
    /// Whether no store is left.
    pub done: bool,
}

impl Job {
    /// The bytes that a job takes where it is kept: 288 on a machine with pointers of 64 bits, as the archive is for.
    pub const SIZE: usize = core::mem::size_of::<Self>();

    /// A job that stores a record and its tail in a slot. Begin itself stores nothing, and keeps neither the slot nor the record.
    ///
    /// ```
    /// use s2xv2::{Job, Refusal, S2Xv2SatelliteDeliverySystem, Slot};
    ///
    /// let record = S2Xv2SatelliteDeliverySystem::default();
    /// let mut bytes = [0; 23];
    /// let mut slot = Slot::new(&mut bytes);
    /// slot.make_empty()?;
    /// assert_eq!(Job::begin(&slot, &record)?.stores_left(), 25);
    ///
    /// // A descriptor of 21 bytes leaves one byte of 22, too few for stuffing.
    /// let mut bytes = [0; 22];
    /// let mut slot = Slot::new(&mut bytes);
    /// slot.make_empty()?;
    /// assert_eq!(Job::begin(&slot, &record), Err(Refusal::NoFit { size: 21 }));
    ///
    /// // Damage: stuffing of 4 bytes, then zeros. No job begins there until the slot is made empty.
    /// let mut bytes = [0; 23];
    /// bytes[..2].copy_from_slice(&[0x42, 2]);
    /// let mut slot = Slot::new(&mut bytes);
    /// assert_eq!(Job::begin(&slot, &record), Err(Refusal::SlotForm { offset: 4 }));
    /// slot.make_empty()?;
    /// assert!(Job::begin(&slot, &record).is_ok());
    ///
    /// // A wrong size.
    /// assert_eq!(Job::begin(&Slot::new(&mut bytes[..20]), &record), Err(Refusal::Slot));
    /// # Ok::<(), Refusal>(())
    /// ```
    ///
    /// # Errors
    /// [`Refusal::TooManyIds`], then [`Refusal::Slot`], [`Refusal::SlotForm`], [`Refusal::Inconsistent`], [`Refusal::Long`],
    /// [`Refusal::NoFit`], [`Refusal::Field`].
    pub fn begin(slot: &Slot<'_>, record: &S2Xv2SatelliteDeliverySystem<'_>) -> Result<Self, Refusal> {
        let mut crossing = ffi::Record::default();
        record_in(record, &mut crossing)?;
        Self::begin_raw(slot, &crossing, record.reserved_tail)
    }

    /// The same of a record as it crosses.
    #[inline]
    pub(crate) fn begin_raw(slot: &Slot<'_>, record: &ffi::Record, tail: &[u8]) -> Result<Self, Refusal> {
        let mut place = MaybeUninit::uninit();
        let (answer, job) = ffi::begin(slot.bytes(), record, tail, &mut place);
        accepted_on::<BEGIN>(slot.bytes().len(), answer)?;
        Ok(Self { inner: job.clone() })
    }

    /// Makes the smaller of the allowance and the stores left, and gives back the job. A refused step stores nothing, and gives the job
    /// back as it came.
    ///
    /// ```
    /// use s2xv2::{Job, Progress, Refusal, S2Xv2SatelliteDeliverySystem, Slot};
    ///
    /// let mut bytes = [0; 21];
    /// let mut slot = Slot::new(&mut bytes);
    /// slot.make_empty()?;
    /// let job = Job::begin(&slot, &S2Xv2SatelliteDeliverySystem::default())?;
    ///
    /// let (job, told) = job.step(&mut slot, 20);
    /// assert_eq!(told, Ok(Progress { stores: 20, done: false }));
    /// let (job, told) = job.step(&mut slot, 20);
    /// assert_eq!(told, Ok(Progress { stores: 3, done: true }));
    ///
    /// let mut other = [7; 22];
    /// let (same, told) = job.clone().step(&mut Slot::new(&mut other), 20);
    /// assert_eq!(told, Err(Refusal::OtherSize));
    /// assert_eq!((same, other), (job, [7; 22]));
    /// # Ok::<(), Refusal>(())
    /// ```
    #[must_use = "the job goes on from what is given back"]
    pub fn step(self, slot: &mut Slot<'_>, allowance: usize) -> (Self, Result<Progress, Refusal>) {
        let stepped = ffi::step(self.inner, slot.bytes_mut(), allowance);
        (Self { inner: stepped.job }, progress(stepped.told))
    }

    /// [`step`](Self::step) for a job that stays where it is.
    ///
    /// ```
    /// use s2xv2::{Job, Progress, Refusal, S2Xv2SatelliteDeliverySystem, Slot};
    ///
    /// let mut bytes = [0; 21];
    /// let mut slot = Slot::new(&mut bytes);
    /// slot.make_empty()?;
    /// let mut job = Job::begin(&slot, &S2Xv2SatelliteDeliverySystem::default())?;
    ///
    /// assert_eq!(job.advance(&mut slot, 20)?, Progress { stores: 20, done: false });
    /// let mut other = [7; 22];
    /// assert_eq!(job.advance(&mut Slot::new(&mut other), 20), Err(Refusal::OtherSize));
    /// assert_eq!((job.stores_made(), other), (20, [7; 22]));
    /// # Ok::<(), Refusal>(())
    /// ```
    ///
    /// # Errors
    /// [`Refusal::OtherSize`] on a slot of another size than at begin; then nothing is stored, and the job is as it was.
    pub fn advance(&mut self, slot: &mut Slot<'_>, allowance: usize) -> Result<Progress, Refusal> {
        progress(ffi::step_in_place(&mut self.inner, slot.bytes_mut(), allowance))
    }

    /// The size of the slot at begin.
    #[must_use]
    pub fn slot_size(&self) -> usize {
        self.inner.slot_size
    }

    /// The size of the descriptor that is stored: 3 bytes more than the record takes with its tail.
    #[must_use]
    pub fn descriptor_size(&self) -> usize {
        self.inner.descriptor_size
    }

    /// How many stores are made.
    #[must_use]
    pub fn stores_made(&self) -> usize {
        self.inner.stores_made
    }

    /// How many stores are left.
    #[must_use]
    pub fn stores_left(&self) -> usize {
        self.inner.slot_size.saturating_add(2).saturating_sub(self.inner.stores_made)
    }
}

impl fmt::Debug for Job {
    fn fmt(&self, f: &mut fmt::Formatter<'_>) -> fmt::Result {
        f.debug_struct("Job")
            .field("slot_size", &self.slot_size())
            .field("descriptor_size", &self.descriptor_size())
            .field("stores_made", &self.stores_made())
            .finish_non_exhaustive()
    }
}

fn progress(told: ffi::Advanced) -> Result<Progress, Refusal> {
    match told.number {
        0 => Ok(Progress {
            stores: told.stores,
            done: flag(told.done),
        }),
        8 => Err(Refusal::OtherSize),
        _ => Err(Refusal::BadArchive),
    }
}

#[cfg(test)]
mod tests {
    use super::*;

    fn forged(slot_size: usize, descriptor_size: usize, stores_made: usize) -> Job {
        Job {
            inner: ffi::Job {
                staged: [0x11; 257],
                slot_size,
                descriptor_size,
                stores_made,
            },
        }
    }

    #[test]
    fn jobs_that_no_begin_and_steps_could_give() {
        let max = usize::MAX;
        for (slot_size, descriptor_size, stores_made) in [
            (0, 0, 0),
            (64, 0, 0),
            (64, 20, 0),
            (64, 63, 0),
            (64, 65, 0),
            (64, max, 0),
            (64, 64, 67),
            (64, 64, max),
            (max, 64, 0),
            (20, 20, 0),
            (258, 64, 0),
        ] {
            let mut job = forged(slot_size, descriptor_size, stores_made);
            let before = job.clone();
            for n in [0, 20, 64, 258, slot_size.min(300)] {
                let mut bytes = [7; 300];
                let mut slot = Slot::new(&mut bytes[..n]);
                for allowance in [0, 1, max] {
                    assert_eq!(job.advance(&mut slot, allowance), Err(Refusal::OtherSize));
                    assert_eq!(job.clone().step(&mut slot, allowance), (before.clone(), Err(Refusal::OtherSize)));
                }
                assert_eq!((&job, bytes), (&before, [7; 300]));
            }
            let _ = (job.stores_left(), job.stores_made());
        }
    }

    #[test]
    fn the_last_two_stores_come_from_the_sizes() {
        let mut bytes = [7; 64];
        let told = forged(64, 30, 0).advance(&mut Slot::new(&mut bytes), usize::MAX);
        assert_eq!(told, Ok(Progress { stores: 66, done: true }));
        assert_eq!(bytes[..3], [0x7F, 28, 0x11]);
        assert_eq!(bytes[29..33], [0x11, 0x42, 32, 0xFF]);
    }

    #[test]
    fn tellings_that_no_contract_allows() {
        for (number, done) in [(1, 0), (6, 0), (12, 0), (100, 0), (255, 1)] {
            let told = ffi::Advanced { stores: 1, number, done };
            assert_eq!(progress(told), Err(Refusal::BadArchive));
        }
        let told = ffi::Advanced {
            stores: 1,
            number: 0,
            done: 2,
        };
        assert_eq!(progress(told), Ok(Progress { stores: 1, done: true }));
    }
}
