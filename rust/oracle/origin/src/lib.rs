//! A shell for the modules of dvb-si that the oracle asks. They are compiled unchanged from where they stand (build.rs); what stands
//! here takes the place of the crate's `lib.rs`, `descriptors/mod.rs` and `descriptors/extension/mod.rs`, and is inferred from use.
#![allow(dead_code)]
extern crate alloc;

include!(concat!(env!("OUT_DIR"), "/root.rs"));

pub use error::{Error, Result};

pub mod descriptors {
    include!(concat!(env!("OUT_DIR"), "/descriptors.rs"));

    // What the two delivery system descriptors call and no answer of the oracle reaches.
    pub(crate) fn descriptor_body<'a>(_bytes: &'a [u8], _tag: u8, _what: &'static str, _reason: &'static str) -> crate::Result<&'a [u8]> {
        unreachable!("the oracle reads no such descriptor")
    }

    pub(crate) fn encode_bcd_field(_value: u64, _nibbles: u8, _field: &'static str) -> crate::Result<u64> {
        unreachable!("the oracle sets no such field")
    }

    pub mod extension {
        pub use crate::error::{Error, Result};
        pub use broadcast_common::{Parse, Serialize};

        pub trait ExtensionBodyDef<'a>: Parse<'a, Error = Error> {
            const TAG_EXTENSION: u8;
            const NAME: &'static str;
        }

        include!(concat!(env!("OUT_DIR"), "/extension.rs"));
    }
}
