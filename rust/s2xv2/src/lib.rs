//! Reads, measures and writes the body of the S2Xv2 satellite delivery system descriptor (ETSI EN 300 468, 6.4.6.5.3), and replaces that
//! descriptor in a slot of a live loop by single-byte stores, with a place to stop between any two.
//!
//! The work is done by a proved library behind a C boundary. This crate gives it the types that a Rust program expects, needs no other
//! crate, and does without `std`. Every call takes any bytes, record, slot or job; a bad one is answered by a [`Refusal`], and a refused
//! call stores nothing in a buffer or a slot that it was lent.
//!
//! ```
//! use s2xv2::{Refusal, S2Xv2SatelliteDeliverySystem};
//!
//! let mut body = [0; 18];
//! body[17] = 7;
//! let record = S2Xv2SatelliteDeliverySystem::parse(&body)?;
//! assert_eq!(record.symbol_rate, 7);
//!
//! let mut written = [0; 18];
//! assert_eq!(record.serialize_into(&mut written)?, 18);
//! assert_eq!(written, body);
//!
//! let short = S2Xv2SatelliteDeliverySystem::parse(&body[..17]);
//! assert_eq!(short, Err(Refusal::Short { place: 1, need: 18, have: 17, least: 18 }));
//! # Ok::<(), Refusal>(())
//! ```
//!
//! [`RawRecord`] is the record as the library has it, for those who count instructions: it is read where it stands, and no number of it is
//! turned into another type until it is asked for.
//!
//! `docs/ANSWERS.md` of the repository has every refusal: its number, what it tells, and when it is given, with the two lists of what is
//! refused of a record (list A: it contradicts itself; list B: a value is too wide for the wire).
#![no_std]
#![deny(unsafe_code)]
#![warn(missing_docs)]

extern crate alloc;

mod carrier;
mod crossing;
#[allow(unsafe_code)]
mod ffi;
mod job;
mod mode;
pub mod places;
mod raw;
mod record;
mod refusal;
mod slot;
mod superframe;

pub use carrier::{Polarization, RollOff};
pub use job::{Job, Progress};
pub use mode::S2Xv2Mode;
pub use raw::RawRecord;
pub use record::S2Xv2SatelliteDeliverySystem;
pub use refusal::Refusal;
pub use slot::{read_slot, Slot};
pub use superframe::S2Xv2Superframe;

/// The version of this crate.
pub const VERSION: &str = env!("CARGO_PKG_VERSION");

/// The same as one number, major * 65536 + minor * 256 + patch, as `S2XV2_VERSION` of `include/s2xv2.h` has it.
pub const VERSION_NUMBER: u32 = ffi::VERSION;

/// The version of the archive that was linked, as such a number. The archive for this crate has [`VERSION_NUMBER`].
///
/// ```
/// assert_eq!(s2xv2::linked_version(), s2xv2::VERSION_NUMBER);
/// ```
#[must_use]
pub fn linked_version() -> u32 {
    ffi::version()
}

/// What every reserved field of a new record holds.
pub const S2XV2_RESERVED_ZERO_FUTURE_USE_DEFAULT: u8 = 0;
