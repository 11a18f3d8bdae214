//! A slot of a loop.
use crate::crossing::{accepted_on, record_out, EMPTY, READ};
use crate::{ffi, Refusal, S2Xv2SatelliteDeliverySystem};
use core::mem::MaybeUninit;

/// The record that the bytes of a slot hold, or `None` of an empty slot. For a copy of a slot, as a sender has it; [`Slot::read`] is the
/// same for a slot itself.
///
/// ```
/// use s2xv2::{read_slot, Refusal};
///
/// let mut copy = [0xFF; 21];
/// copy[..2].copy_from_slice(&[0x42, 19]); // stuffing to the end
/// assert_eq!(read_slot(&copy), Ok(None));
///
/// copy[1] = 18; // stuffing that ends one byte too early
/// assert_eq!(read_slot(&copy), Err(Refusal::SlotForm { offset: 20 }));
/// assert_eq!(read_slot(&copy[..20]), Err(Refusal::Slot));
/// ```
///
/// Stuffing may stand on either side of the descriptor, and the tail ends where the descriptor ends:
///
/// ```
/// use s2xv2::{read_slot, Refusal};
///
/// let mut copy = [0; 30];
/// copy[..4].copy_from_slice(&[0x42, 2, 0xFF, 0xFF]); // stuffing in front
/// copy[4..7].copy_from_slice(&[0x7F, 21, 0x24]); // the descriptor, with a body of 20 bytes
/// copy[25..].copy_from_slice(&[1, 2, 0x42, 1, 0xFF]); // the tail, and stuffing behind
/// assert_eq!(read_slot(&copy)?.unwrap().reserved_tail, [1, 2]);
///
/// copy[27..].copy_from_slice(&[0x7F, 1, 0x24]); // a second one
/// assert_eq!(read_slot(&copy), Err(Refusal::SlotForm { offset: 27 }));
/// # Ok::<(), Refusal>(())
/// ```
///
/// # Errors
/// [`Refusal::Slot`] for a wrong size, then [`Refusal::SlotForm`], then [`Refusal::Short`] for a body that ends inside a part.
pub fn read_slot(bytes: &[u8]) -> Result<Option<S2Xv2SatelliteDeliverySystem<'_>>, Refusal> {
    let mut place = MaybeUninit::uninit();
    let (answer, record) = ffi::slot_read(bytes, &mut place);
    match tail_of(bytes, answer)? {
        Some(tail) => record_out(record, tail).map(Some),
        None => Ok(None),
    }
}

/// The tail that an answer about a slot tells, or `None` of an empty slot.
#[inline]
pub(crate) fn tail_of(bytes: &[u8], answer: ffi::Answer) -> Result<Option<&[u8]>, Refusal> {
    let (start, length) = accepted_on::<READ>(bytes.len(), answer)?;
    if start == 0 {
        return Ok(None);
    }
    let tail = bytes.get(start..).and_then(|rest| rest.get(..length));
    tail.map(Some).ok_or(Refusal::BadArchive)
}

/// The bytes of a loop in which one descriptor is kept: from 21 to 257 of them.
///
/// A slot is in good form when descriptors, one behind the other, cover it exactly, each of them stuffing (0x42, of any length) or ours
/// (0x7F, of a length of at least 1, with 0x24 as its third byte), and at most one of them ours; where it is not, [`Refusal::SlotForm`] tells the
/// first descriptor that breaks the form. It reads as the one of ours, wherever that stands, or as empty; a job stores its descriptor at the
/// slot's start, whatever stood there. A slot may be made from any bytes: each call judges them by itself.
#[derive(Debug)]
pub struct Slot<'a> {
    bytes: &'a mut [u8],
}

impl<'a> Slot<'a> {
    /// The least size of a slot: a descriptor with the smallest body, of 18 bytes.
    pub const MIN_SIZE: usize = 21;
    /// The largest size of a slot: a descriptor whose length is 255.
    pub const MAX_SIZE: usize = 257;
    /// The tag of the stuffing descriptor of EN 300 468: the first byte of an empty slot, and of what fills a slot around its descriptor.
    ///
    /// ```
    /// use s2xv2::{S2Xv2SatelliteDeliverySystem, Slot};
    ///
    /// let mut bytes = [0; Slot::MIN_SIZE];
    /// let mut slot = Slot::new(&mut bytes);
    /// slot.make_empty().unwrap();
    /// assert_eq!(slot.bytes()[0], Slot::STUFFING_TAG);
    ///
    /// let mut bytes = [0; Slot::MIN_SIZE];
    /// bytes[..3].copy_from_slice(&[S2Xv2SatelliteDeliverySystem::TAG, 19, S2Xv2SatelliteDeliverySystem::TAG_EXTENSION]);
    /// assert!(Slot::new(&mut bytes).read().unwrap().is_some());
    /// ```
    pub const STUFFING_TAG: u8 = 0x42;

    /// The slot on these bytes, as they are.
    pub fn new(bytes: &'a mut [u8]) -> Self {
        Self { bytes }
    }

    /// The record that the slot holds, whose tail is a part of the slot; or `None` of an empty slot.
    ///
    /// ```
    /// use s2xv2::{Refusal, Slot};
    ///
    /// let mut bytes = [0; 21];
    /// bytes[..3].copy_from_slice(&[0x7F, 19, 0x24]);
    /// bytes[20] = 7;
    /// let slot = Slot::new(&mut bytes);
    /// assert_eq!(slot.read()?.unwrap().symbol_rate, 7);
    ///
    /// bytes[0] = 0x43; // a foreign tag: damage
    /// assert_eq!(Slot::new(&mut bytes).read(), Err(Refusal::SlotForm { offset: 0 }));
    /// // too few bytes for a slot, whatever they are
    /// assert_eq!(Slot::new(&mut bytes[..20]).read(), Err(Refusal::Slot));
    /// # Ok::<(), Refusal>(())
    /// ```
    ///
    /// # Errors
    /// [`Refusal::Slot`] for a wrong size, then [`Refusal::SlotForm`], then [`Refusal::Short`] for a body that ends inside a part.
    pub fn read(&self) -> Result<Option<S2Xv2SatelliteDeliverySystem<'_>>, Refusal> {
        read_slot(self.bytes)
    }

    /// Makes the slot empty, whatever it holds. For a slot that nobody reads yet: a cut inside this call is not provided for.
    ///
    /// ```
    /// use s2xv2::{Refusal, Slot};
    ///
    /// let mut bytes = [7; 21];
    /// let mut slot = Slot::new(&mut bytes);
    /// slot.make_empty()?;
    /// assert_eq!(slot.read(), Ok(None));
    /// assert_eq!(slot.bytes()[..3], [0x42, 19, 0xFF]);
    ///
    /// let mut bytes = [7; 20];
    /// assert_eq!(Slot::new(&mut bytes).make_empty(), Err(Refusal::Slot));
    /// assert_eq!(bytes, [7; 20]);
    /// # Ok::<(), Refusal>(())
    /// ```
    ///
    /// # Errors
    /// [`Refusal::Slot`] for a size below 21 or above 257; then nothing is stored.
    pub fn make_empty(&mut self) -> Result<(), Refusal> {
        let answer = ffi::slot_make_empty(self.bytes);
        accepted_on::<EMPTY>(self.bytes.len(), answer).map(|_| ())
    }

    /// The slot's bytes.
    #[must_use]
    pub fn bytes(&self) -> &[u8] {
        self.bytes
    }

    /// The slot's bytes, for a step.
    pub(crate) fn bytes_mut(&mut self) -> &mut [u8] {
        self.bytes
    }
}
