//! Roll-off and polarization, by their codes.
use core::fmt;

/// The roll-off factor. It prints as its name, and as `reserved` with the code where it has none.
///
/// ```
/// use s2xv2::RollOff;
///
/// assert_eq!(RollOff::Alpha020.name(), "α=0.20");
/// assert_eq!(RollOff::Alpha020.to_string(), "α=0.20");
/// assert_eq!(RollOff::Reserved(7).name(), "reserved");
/// assert_eq!(RollOff::Reserved(7).to_string(), "reserved(0x07)");
/// ```
#[derive(Debug, Clone, Copy, PartialEq, Eq)]
#[non_exhaustive]
pub enum RollOff {
    /// 0.35, code 0.
    Alpha035,
    /// 0.25, code 1.
    Alpha025,
    /// 0.20, code 2.
    Alpha020,
    /// Any other code. The wire has three bits for it.
    Reserved(u8),
}

impl RollOff {
    /// The roll-off of a code. Every number has one.
    #[must_use]
    #[inline]
    pub const fn from_u8(v: u8) -> Self {
        match v {
            0 => Self::Alpha035,
            1 => Self::Alpha025,
            2 => Self::Alpha020,
            other => Self::Reserved(other),
        }
    }

    /// The code.
    #[must_use]
    #[inline]
    pub const fn to_u8(self) -> u8 {
        match self {
            Self::Alpha035 => 0,
            Self::Alpha025 => 1,
            Self::Alpha020 => 2,
            Self::Reserved(v) => v,
        }
    }

    /// The name (EN 300 468, table 39), the same for all codes that are reserved.
    #[must_use]
    pub const fn name(self) -> &'static str {
        match self {
            Self::Alpha035 => "α=0.35",
            Self::Alpha025 => "α=0.25",
            Self::Alpha020 => "α=0.20",
            Self::Reserved(_) => "reserved",
        }
    }
}

impl fmt::Display for RollOff {
    fn fmt(&self, f: &mut fmt::Formatter<'_>) -> fmt::Result {
        match self {
            Self::Reserved(code) => write!(f, "{}(0x{code:02X})", self.name()),
            _ => f.write_str(self.name()),
        }
    }
}

/// The polarization: exactly the four that two bits can say. It prints as its name.
///
/// ```
/// use s2xv2::Polarization;
///
/// assert_eq!(Polarization::CircularLeft.name(), "circular left");
/// assert_eq!(Polarization::CircularLeft.to_string(), "circular left");
/// ```
#[derive(Debug, Clone, Copy, PartialEq, Eq)]
#[non_exhaustive]
pub enum Polarization {
    /// Linear, horizontal: code 0.
    LinearHorizontal,
    /// Linear, vertical: code 1.
    LinearVertical,
    /// Circular, left: code 2.
    CircularLeft,
    /// Circular, right: code 3.
    CircularRight,
}

impl Polarization {
    /// The polarization of the low two bits.
    #[must_use]
    #[inline]
    pub const fn from_u8(v: u8) -> Self {
        match v & 3 {
            0 => Self::LinearHorizontal,
            1 => Self::LinearVertical,
            2 => Self::CircularLeft,
            _ => Self::CircularRight,
        }
    }

    /// The code.
    #[must_use]
    #[inline]
    pub const fn to_u8(self) -> u8 {
        match self {
            Self::LinearHorizontal => 0,
            Self::LinearVertical => 1,
            Self::CircularLeft => 2,
            Self::CircularRight => 3,
        }
    }

    /// The name (EN 300 468, table 38).
    #[must_use]
    pub const fn name(self) -> &'static str {
        match self {
            Self::LinearHorizontal => "linear horizontal",
            Self::LinearVertical => "linear vertical",
            Self::CircularLeft => "circular left",
            Self::CircularRight => "circular right",
        }
    }
}

impl fmt::Display for Polarization {
    fn fmt(&self, f: &mut fmt::Formatter<'_>) -> fmt::Result {
        f.write_str(self.name())
    }
}

#[cfg(test)]
mod tests {
    use super::*;
    use alloc::string::ToString;

    #[test]
    fn codes_come_back() {
        assert!((0..=255).all(|code| RollOff::from_u8(code).to_u8() == code));
        assert!((0..=255).all(|code| Polarization::from_u8(code).to_u8() == code % 4));
    }

    #[test]
    fn names() {
        let roll_offs = ["α=0.35", "α=0.25", "α=0.20"];
        for (code, name) in (0..).zip(roll_offs) {
            let roll_off = RollOff::from_u8(code);
            assert_eq!((roll_off.name(), roll_off.to_string().as_str()), (name, name));
        }
        for (code, text) in [(0, "reserved(0x00)"), (3, "reserved(0x03)"), (255, "reserved(0xFF)")] {
            let roll_off = RollOff::Reserved(code);
            assert_eq!((roll_off.name(), roll_off.to_string().as_str()), ("reserved", text));
        }
        let polarizations = ["linear horizontal", "linear vertical", "circular left", "circular right"];
        for (code, name) in (0..).zip(polarizations) {
            let polarization = Polarization::from_u8(code);
            assert_eq!((polarization.name(), polarization.to_string().as_str()), (name, name));
        }
    }
}
