//! What codes are called. The file is compiled against the crate's own types here, and against those of `rust/s2xv2` by
//! `rust/differential`: both have the same names.
use crate::types::{Polarization, RollOff, S2Xv2Mode};

/// The names of a code as a mode, as a mode that is `Reserved` whatever its code, as a roll-off and as a polarization.
pub fn names(code: u8) -> [&'static str; 4] {
    [
        S2Xv2Mode::from_u8(code).name(),
        S2Xv2Mode::Reserved(code).name(),
        RollOff::from_u8(code).name(),
        Polarization::from_u8(code).name(),
    ]
}
