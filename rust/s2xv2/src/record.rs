//! The record of a body.
use crate::crossing::{accepted, record_in, record_out, MEASURE, PARSE, WRITE};
use crate::{ffi, Polarization, Refusal, RollOff, S2Xv2Mode, S2Xv2Superframe};
use alloc::vec::Vec;
use core::mem::MaybeUninit;

/// The record of a body (EN 300 468, tables 144a and 144b): its fields in wire order, and its tail.
///
/// A field that is on the wire under a condition only is an `Option`, or reads as 0. The writer does not look at reserved fields that are
/// not on the wire.
#[derive(Debug, Clone, PartialEq, Eq)]
#[non_exhaustive]
pub struct S2Xv2SatelliteDeliverySystem<'a> {
    /// `delivery_system_id`, 32 bits.
    pub delivery_system_id: u32,
    /// `S2Xv2_mode`, 4 bits.
    pub s2xv2_mode: S2Xv2Mode,
    /// `multiple_input_stream_flag`: whether `input_stream_identifier` is there.
    pub multiple_input_stream_flag: bool,
    /// `roll_off`, 3 bits.
    pub roll_off: RollOff,
    /// The 2 reserved bits at the top of byte 5.
    pub reserved_zero_future_use_2: u8,
    /// `NCR_reference`.
    pub ncr_reference: bool,
    /// `NCR_version`.
    pub ncr_version: bool,
    /// `channel_bond`, 2 bits. Only 1 stands for a list of ids.
    pub channel_bond: u8,
    /// `polarization`, 2 bits.
    pub polarization: Polarization,
    /// `scrambling_sequence_selector`, in modes 1 and 2 alone.
    pub scrambling_sequence_selector: Option<bool>,
    /// The reserved bit in the place of `scrambling_sequence_selector`, in the other modes.
    pub reserved_zero_future_use_1: u8,
    /// `TS_GS_S2X_mode`, 2 bits.
    pub ts_gs_s2x_mode: u8,
    /// `receiver_profiles`, 5 bits.
    pub receiver_profiles: u8,
    /// `satellite_id`, 24 bits.
    pub satellite_id: u32,
    /// `frequency`, 32 bits.
    pub frequency: u32,
    /// `symbol_rate`, 32 bits.
    pub symbol_rate: u32,
    /// `input_stream_identifier`, 8 bits, with `multiple_input_stream_flag` alone.
    pub input_stream_identifier: Option<u8>,
    /// The 6 reserved bits before `scrambling_sequence_index`, on the wire with it alone.
    pub reserved_zero_future_use_6: u8,
    /// `scrambling_sequence_index`, 18 bits, with `scrambling_sequence_selector` set alone.
    pub scrambling_sequence_index: Option<u32>,
    /// `timeslice_number`, 8 bits, in modes 2 and 5 alone.
    pub timeslice_number: Option<u8>,
    /// The 7 reserved bits before the count of ids, on the wire with `channel_bond` 1 alone.
    pub reserved_zero_future_use_7: u8,
    /// The ids, one or two of 32 bits with `channel_bond` 1, else none.
    pub secondary_delivery_system_ids: Vec<u32>,
    /// The superframe block, in modes 4 and 5 alone.
    pub superframe: Option<S2Xv2Superframe>,
    /// All bytes that follow: reserved ones, kept as they came.
    pub reserved_tail: &'a [u8],
}

impl Default for S2Xv2SatelliteDeliverySystem<'_> {
    /// Every number and code at 0, every flag clear, and nothing that may be absent.
    fn default() -> Self {
        Self {
            delivery_system_id: 0,
            s2xv2_mode: S2Xv2Mode::Reserved0,
            multiple_input_stream_flag: false,
            roll_off: RollOff::Alpha035,
            reserved_zero_future_use_2: 0,
            ncr_reference: false,
            ncr_version: false,
            channel_bond: 0,
            polarization: Polarization::LinearHorizontal,
            scrambling_sequence_selector: None,
            reserved_zero_future_use_1: 0,
            ts_gs_s2x_mode: 0,
            receiver_profiles: 0,
            satellite_id: 0,
            frequency: 0,
            symbol_rate: 0,
            input_stream_identifier: None,
            reserved_zero_future_use_6: 0,
            scrambling_sequence_index: None,
            timeslice_number: None,
            reserved_zero_future_use_7: 0,
            secondary_delivery_system_ids: Vec::new(),
            superframe: None,
            reserved_tail: &[],
        }
    }
}

impl<'a> S2Xv2SatelliteDeliverySystem<'a> {
    /// The tag of the extension descriptor of EN 300 468: the first byte of a descriptor that holds the body.
    pub const TAG: u8 = 0x7F;
    /// `descriptor_tag_extension` of this body: the third byte of that descriptor, behind its length.
    pub const TAG_EXTENSION: u8 = 0x24;
    /// The descriptor's name in capitals, as the crate dvb-si has it.
    pub const NAME: &'static str = "S2XV2_SATELLITE_DELIVERY_SYSTEM";
    /// The most bytes that a body may have, to be read or as it is written, with its tail. A larger one is refused as [`Refusal::Long`].
    /// What one descriptor can carry is less: 254 bytes.
    ///
    /// ```
    /// use s2xv2::{Refusal, S2Xv2SatelliteDeliverySystem};
    ///
    /// let mut buffer = [0; S2Xv2SatelliteDeliverySystem::MAX_LEN]; // room for any record
    /// assert_eq!(S2Xv2SatelliteDeliverySystem::default().serialize_into(&mut buffer), Ok(18));
    /// assert_eq!(buffer.len(), 4096);
    /// ```
    pub const MAX_LEN: usize = 4096;

    /// The record of a body, whose tail is a part of that body.
    ///
    /// ```
    /// use s2xv2::{Refusal, S2Xv2Mode, S2Xv2SatelliteDeliverySystem};
    ///
    /// let mut body = [0; 21];
    /// body[4] = 0x20; // mode 2
    /// body[18] = 9; // its timeslice number; then a tail of two bytes
    /// let record = S2Xv2SatelliteDeliverySystem::parse(&body)?;
    /// assert_eq!(record.s2xv2_mode, S2Xv2Mode::S2XTimeSlicing);
    /// assert_eq!(record.timeslice_number, Some(9));
    /// assert_eq!(record.reserved_tail, [0, 0]);
    ///
    /// let cut = S2Xv2SatelliteDeliverySystem::parse(&body[..18]);
    /// assert_eq!(cut, Err(Refusal::Short { place: 4, need: 19, have: 18, least: 19 }));
    /// # Ok::<(), Refusal>(())
    /// ```
    ///
    /// # Errors
    /// [`Refusal::Long`] above 4,096 bytes, and [`Refusal::Short`] for a body that ends inside a part.
    pub fn parse(body: &'a [u8]) -> Result<Self, Refusal> {
        let mut place = MaybeUninit::uninit();
        let (answer, record) = ffi::parse(body, &mut place);
        let (start, _) = accepted::<PARSE>(answer)?;
        let tail = body.get(start..).ok_or(Refusal::BadArchive)?;
        record_out(record, tail)
    }

    /// How many bytes the record takes with its tail. The values of its fields are not judged here.
    ///
    /// ```
    /// use s2xv2::{Refusal, S2Xv2SatelliteDeliverySystem};
    ///
    /// let mut record = S2Xv2SatelliteDeliverySystem::default();
    /// record.reserved_tail = &[1, 2];
    /// assert_eq!(record.serialized_len(), Ok(20));
    ///
    /// record.timeslice_number = Some(9); // not in mode 0
    /// assert_eq!(record.serialized_len(), Err(Refusal::Inconsistent { place: 5 }));
    /// ```
    ///
    /// # Errors
    /// [`Refusal::TooManyIds`], then [`Refusal::Inconsistent`], then [`Refusal::Long`] above 4,096 bytes.
    pub fn serialized_len(&self) -> Result<usize, Refusal> {
        let mut record = ffi::Record::default();
        record_in(self, &mut record)?;
        let (length, _) = accepted::<MEASURE>(ffi::serialized_len(&record, self.reserved_tail))?;
        Ok(length)
    }

    /// Writes the record and its tail to the start of a buffer, keeps the bytes behind them, and tells how many bytes were written. A
    /// refused call leaves the whole buffer as it was.
    ///
    /// ```
    /// use s2xv2::{Refusal, S2Xv2SatelliteDeliverySystem};
    ///
    /// let mut record = S2Xv2SatelliteDeliverySystem::default();
    /// record.satellite_id = 0xFF_FFFF;
    /// let mut buffer = [0xAA; 19];
    /// assert_eq!(record.serialize_into(&mut buffer), Ok(18));
    /// assert_eq!(buffer[7..10], [0xFF; 3]);
    /// assert_eq!(buffer[18], 0xAA);
    ///
    /// record.satellite_id += 1;
    /// let mut buffer = [0xAA; 19];
    /// assert_eq!(record.serialize_into(&mut buffer), Err(Refusal::Field { place: 9 }));
    /// assert_eq!(buffer, [0xAA; 19]);
    /// ```
    ///
    /// # Errors
    /// Those of [`serialized_len`](Self::serialized_len), then [`Refusal::Room`], then [`Refusal::Field`].
    pub fn serialize_into(&self, buffer: &mut [u8]) -> Result<usize, Refusal> {
        let mut record = ffi::Record::default();
        record_in(self, &mut record)?;
        let (length, _) = accepted::<WRITE>(ffi::serialize_into(&record, self.reserved_tail, buffer))?;
        Ok(length)
    }
}
