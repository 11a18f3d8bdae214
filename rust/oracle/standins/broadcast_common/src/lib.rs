//! Stands in for `broadcast_common`: only what the modules ask of it, inferred from how they use it.

pub trait Parse<'a>: Sized {
    type Error;
    fn parse(bytes: &'a [u8]) -> Result<Self, Self::Error>;
}

pub trait Serialize {
    type Error;
    fn serialized_len(&self) -> usize;
    fn serialize_into(&self, buf: &mut [u8]) -> Result<usize, Self::Error>;
}

/// `Display` is no part of the comparison.
#[macro_export]
macro_rules! impl_spec_display {
    ($name:ident $(, $variant:ident)*) => {};
}

pub mod len {
    /// A value that its field on the wire cannot hold.
    #[derive(Debug, PartialEq, Eq)]
    pub struct FieldOverflow {
        pub field: &'static str,
    }

    /// The value, where it has no bit outside of the mask.
    pub fn fit_mask<T: Copy + Into<u64>>(value: T, mask: T, field: &'static str) -> Result<T, FieldOverflow> {
        if value.into() & !mask.into() == 0 {
            Ok(value)
        } else {
            Err(FieldOverflow { field })
        }
    }

    /// The value, where so many bits hold it.
    pub fn fit_bits(value: u64, bits: u32, field: &'static str) -> Result<u64, FieldOverflow> {
        if value >> bits == 0 {
            Ok(value)
        } else {
            Err(FieldOverflow { field })
        }
    }
}

/// Asked by descriptors that the oracle does not run.
pub mod bcd {
    pub fn bcd_to_decimal(_value: u64, _nibbles: u8) -> Option<u64> {
        unreachable!("the oracle reads no such field")
    }

    pub fn decimal_to_bcd(_value: u64, _nibbles: u8) -> Option<u64> {
        unreachable!("the oracle sets no such field")
    }
}
