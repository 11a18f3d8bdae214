//! The safe crate's types, by the names that `numbers.rs` calls them.
pub use s2xv2::{Polarization, RollOff, S2Xv2Mode, S2Xv2SatelliteDeliverySystem as Record, S2Xv2Superframe as Superframe};
