//! `S2Xv2_mode`.
use core::fmt;

/// `S2Xv2_mode` (EN 300 468, table 144c). It prints as its name, and [`Reserved`](Self::Reserved) with its code.
///
/// ```
/// use s2xv2::S2Xv2Mode;
///
/// assert_eq!(S2Xv2Mode::S2XTimeSlicing.name(), "S2X + time slicing");
/// assert_eq!(S2Xv2Mode::S2XTimeSlicing.to_string(), "S2X + time slicing");
/// assert_eq!(S2Xv2Mode::Reserved(12).name(), "reserved");
/// assert_eq!(S2Xv2Mode::Reserved(12).to_string(), "reserved(0x0C)");
/// ```
#[derive(Debug, Clone, Copy, PartialEq, Eq)]
#[non_exhaustive]
pub enum S2Xv2Mode {
    /// Code 0, reserved.
    Reserved0,
    /// Code 1: S2X.
    S2X,
    /// Code 2: S2X with time slicing.
    S2XTimeSlicing,
    /// Code 3, reserved.
    Reserved3,
    /// Code 4: S2X superframe (EN 302 307-2, annex E).
    S2XSuperframe,
    /// Code 5: S2X superframe with time slicing.
    S2XSuperframeTimeSlicing,
    /// Any other code. One below 6 in here is refused (list A, place 1), one above 15 too (list B, place 1).
    Reserved(u8),
}

impl S2Xv2Mode {
    /// The mode of a code. Every number has one.
    #[must_use]
    #[inline]
    pub const fn from_u8(v: u8) -> Self {
        match v {
            0 => Self::Reserved0,
            1 => Self::S2X,
            2 => Self::S2XTimeSlicing,
            3 => Self::Reserved3,
            4 => Self::S2XSuperframe,
            5 => Self::S2XSuperframeTimeSlicing,
            other => Self::Reserved(other),
        }
    }

    /// The code.
    #[must_use]
    #[inline]
    pub const fn to_u8(self) -> u8 {
        match self {
            Self::Reserved0 => 0,
            Self::S2X => 1,
            Self::S2XTimeSlicing => 2,
            Self::Reserved3 => 3,
            Self::S2XSuperframe => 4,
            Self::S2XSuperframeTimeSlicing => 5,
            Self::Reserved(v) => v,
        }
    }

    /// The name (EN 300 468, table 144c), the same for all codes in [`Reserved`](Self::Reserved).
    #[must_use]
    pub const fn name(self) -> &'static str {
        match self {
            Self::Reserved0 | Self::Reserved3 => "reserved for future use",
            Self::S2X => "S2X",
            Self::S2XTimeSlicing => "S2X + time slicing",
            Self::S2XSuperframe => "S2X superframe",
            Self::S2XSuperframeTimeSlicing => "S2X superframe + timeslicing",
            Self::Reserved(_) => "reserved",
        }
    }

    /// Modes 1 and 2: a record has `scrambling_sequence_selector`.
    #[must_use]
    pub const fn has_scrambling_selector(self) -> bool {
        matches!(self, Self::S2X | Self::S2XTimeSlicing)
    }

    /// Modes 2 and 5: a record has `timeslice_number`.
    #[must_use]
    pub const fn has_timeslice(self) -> bool {
        matches!(self, Self::S2XTimeSlicing | Self::S2XSuperframeTimeSlicing)
    }

    /// Modes 4 and 5: a record has `superframe`.
    #[must_use]
    pub const fn has_superframe(self) -> bool {
        matches!(self, Self::S2XSuperframe | Self::S2XSuperframeTimeSlicing)
    }
}

impl fmt::Display for S2Xv2Mode {
    fn fmt(&self, f: &mut fmt::Formatter<'_>) -> fmt::Result {
        match self {
            Self::Reserved(code) => write!(f, "{}(0x{code:02X})", self.name()),
            _ => f.write_str(self.name()),
        }
    }
}

#[cfg(test)]
mod tests {
    use super::*;
    use alloc::string::ToString;

    #[test]
    fn codes_come_back() {
        assert!((0..=255).all(|code| S2Xv2Mode::from_u8(code).to_u8() == code));
    }

    #[test]
    fn names() {
        let names = [
            "reserved for future use",
            "S2X",
            "S2X + time slicing",
            "reserved for future use",
            "S2X superframe",
            "S2X superframe + timeslicing",
        ];
        for (code, name) in (0..).zip(names) {
            let mode = S2Xv2Mode::from_u8(code);
            assert_eq!((mode.name(), mode.to_string().as_str()), (name, name));
        }
        for (code, text) in [(0, "reserved(0x00)"), (6, "reserved(0x06)"), (255, "reserved(0xFF)")] {
            let mode = S2Xv2Mode::Reserved(code);
            assert_eq!((mode.name(), mode.to_string().as_str()), ("reserved", text));
        }
    }
}
