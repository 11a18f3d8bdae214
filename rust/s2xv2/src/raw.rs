//! The record as the library has it.
use crate::crossing::{accepted, flag, id_count, record_in, superframe_out, there, MEASURE, PARSE, WRITE};
use crate::slot::tail_of;
use crate::{ffi, Job, Polarization, Refusal, RollOff, S2Xv2Mode, S2Xv2SatelliteDeliverySystem, S2Xv2Superframe, Slot};

/// The record as the library has it: the C struct of 76 bytes, without a tail and without an allocation.
///
/// It is read where it stands, and written from there. What stands in it is asked for by the names of the fields of
/// [`S2Xv2SatelliteDeliverySystem`], and has their types; each has a `set_` beside it. [`Default`] has every number at 0, every flag clear
/// and nothing that may be absent. Two are equal if all of their numbers are, those of what is absent too.
///
/// ```
/// use s2xv2::{RawRecord, Refusal, S2Xv2Mode};
///
/// let mut record = RawRecord::default();
/// let mut body = [0; 21];
/// body[4] = 0x20; // mode 2
/// body[18] = 9; // its timeslice number; then a tail of two bytes
/// let tail = record.parse_into(&body)?;
/// assert_eq!(tail, 19);
/// assert_eq!(record.s2xv2_mode(), S2Xv2Mode::S2XTimeSlicing);
/// assert_eq!(record.timeslice_number(), Some(9));
///
/// record.set_symbol_rate(7);
/// let mut written = [0; 21];
/// assert_eq!(record.serialize_into(&body[tail..], &mut written)?, 21);
/// assert_eq!(written[17], 7);
/// # Ok::<(), Refusal>(())
/// ```
#[derive(Debug, Clone, Copy, Default, PartialEq, Eq)]
#[repr(transparent)]
pub struct RawRecord {
    c: ffi::Record,
}

impl RawRecord {
    /// The record of a body, and its tail, which is a part of that body.
    ///
    /// # Errors
    /// [`Refusal::Long`] above 4,096 bytes, and [`Refusal::Short`] for a body that ends inside a part.
    #[inline]
    pub fn parse(body: &[u8]) -> Result<(Self, &[u8]), Refusal> {
        let mut record = Self::default();
        let start = record.parse_into(body)?;
        let tail = body.get(start..).ok_or(Refusal::BadArchive)?;
        Ok((record, tail))
    }

    /// Reads a body into this record, and tells where its tail starts, which goes to the body's end. Where it is refused, the record is the
    /// default one afterwards.
    ///
    /// # Errors
    /// [`Refusal::Long`] above 4,096 bytes, and [`Refusal::Short`] for a body that ends inside a part.
    #[inline]
    pub fn parse_into(&mut self, body: &[u8]) -> Result<usize, Refusal> {
        let (start, _) = accepted::<PARSE>(ffi::parse_again(body, &mut self.c))?;
        if start > body.len() {
            return Err(Refusal::BadArchive);
        }
        Ok(start)
    }

    /// Reads the bytes of a slot into this record, and gives its tail, which is a part of the slot; or `None` of an empty slot. Where the slot
    /// is empty or refused, the record is the default one afterwards.
    ///
    /// ```
    /// use s2xv2::{RawRecord, Refusal};
    ///
    /// let mut record = RawRecord::default();
    /// let mut slot = [0; 23];
    /// slot[..3].copy_from_slice(&[0x7F, 21, 0x24]);
    /// slot[20..].copy_from_slice(&[7, 1, 2]);
    /// assert_eq!(record.read_slot(&slot)?, Some(&[1, 2][..]));
    /// assert_eq!(record.symbol_rate(), 7);
    ///
    /// slot[0] = 0x42;
    /// assert_eq!(record.read_slot(&slot)?, None);
    /// assert_eq!(record, RawRecord::default());
    /// # Ok::<(), Refusal>(())
    /// ```
    ///
    /// # Errors
    /// [`Refusal::Slot`] for a wrong size, then [`Refusal::SlotForm`], then [`Refusal::Short`] for a body that ends inside a part.
    #[inline]
    pub fn read_slot<'a>(&mut self, slot: &'a [u8]) -> Result<Option<&'a [u8]>, Refusal> {
        tail_of(slot, ffi::slot_read_again(slot, &mut self.c))
    }

    /// How many bytes the record takes with a tail. The values of its fields are not judged here.
    ///
    /// # Errors
    /// [`Refusal::Inconsistent`], then [`Refusal::Long`] above 4,096 bytes.
    #[inline]
    pub fn serialized_len(&self, tail: &[u8]) -> Result<usize, Refusal> {
        let (length, _) = accepted::<MEASURE>(ffi::serialized_len(&self.c, tail))?;
        Ok(length)
    }

    /// Writes the record and a tail to the start of a buffer, keeps the bytes behind them, and tells how many bytes were written. A refused
    /// call leaves the whole buffer as it was.
    ///
    /// # Errors
    /// Those of [`serialized_len`](Self::serialized_len), then [`Refusal::Room`], then [`Refusal::Field`].
    #[inline]
    pub fn serialize_into(&self, tail: &[u8], buffer: &mut [u8]) -> Result<usize, Refusal> {
        let (length, _) = accepted::<WRITE>(ffi::serialize_into(&self.c, tail, buffer))?;
        Ok(length)
    }

    /// A job that stores the record and a tail in a slot, as [`Job::begin`] does.
    ///
    /// ```
    /// use s2xv2::{Job, RawRecord, Refusal, Slot};
    ///
    /// let mut bytes = [0; 23];
    /// let mut slot = Slot::new(&mut bytes);
    /// slot.make_empty()?;
    /// let mut job = RawRecord::default().begin(&slot, &[1, 2])?;
    /// assert!(job.advance(&mut slot, 25)?.done);
    /// assert_eq!(slot.bytes()[21..], [1, 2]);
    /// # Ok::<(), Refusal>(())
    /// ```
    ///
    /// # Errors
    /// [`Refusal::Slot`], [`Refusal::SlotForm`], [`Refusal::Inconsistent`], [`Refusal::Long`], [`Refusal::NoFit`], [`Refusal::Field`], in this
    /// order.
    #[inline]
    pub fn begin(&self, slot: &Slot<'_>, tail: &[u8]) -> Result<Job, Refusal> {
        Job::begin_raw(slot, &self.c, tail)
    }
}

impl TryFrom<&S2Xv2SatelliteDeliverySystem<'_>> for RawRecord {
    type Error = Refusal;

    /// The record without its tail. Refused with [`Refusal::TooManyIds`] alone; of more than two ids the first two are kept, and the count.
    #[inline]
    fn try_from(record: &S2Xv2SatelliteDeliverySystem<'_>) -> Result<Self, Refusal> {
        let mut raw = Self::default();
        record_in(record, &mut raw.c)?;
        Ok(raw)
    }
}

/// Numbers as they are.
macro_rules! numbers {
    ($($type:ty: $name:ident $set:ident $said:literal;)*) => {
        impl RawRecord {
            $(
                #[doc = $said]
                #[must_use]
                #[inline]
                pub fn $name(&self) -> $type {
                    self.c.$name
                }

                #[doc = concat!("Sets [`", stringify!($name), "`](Self::", stringify!($name), ").")]
                #[inline]
                pub fn $set(&mut self, value: $type) {
                    self.c.$name = value;
                }
            )*
        }
    };
}

numbers! {
    u32: delivery_system_id set_delivery_system_id "`delivery_system_id`, 32 bits.";
    u32: satellite_id set_satellite_id "`satellite_id`, 24 bits.";
    u32: frequency set_frequency "`frequency`, 32 bits.";
    u32: symbol_rate set_symbol_rate "`symbol_rate`, 32 bits.";
    u8: reserved_zero_future_use_2 set_reserved_zero_future_use_2 "The 2 reserved bits at the top of byte 5.";
    u8: channel_bond set_channel_bond "`channel_bond`, 2 bits. Only 1 stands for a list of ids.";
    u8: reserved_zero_future_use_1 set_reserved_zero_future_use_1 "The reserved bit in the place of `scrambling_sequence_selector`.";
    u8: ts_gs_s2x_mode set_ts_gs_s2x_mode "`TS_GS_S2X_mode`, 2 bits.";
    u8: receiver_profiles set_receiver_profiles "`receiver_profiles`, 5 bits.";
    u8: reserved_zero_future_use_6 set_reserved_zero_future_use_6 "The 6 reserved bits before `scrambling_sequence_index`.";
    u8: reserved_zero_future_use_7 set_reserved_zero_future_use_7 "The 7 reserved bits before the count of ids.";
}

/// Flags, clear at 0 and else set.
macro_rules! flags {
    ($($name:ident $set:ident $said:literal;)*) => {
        impl RawRecord {
            $(
                #[doc = $said]
                #[must_use]
                #[inline]
                pub fn $name(&self) -> bool {
                    flag(self.c.$name)
                }

                #[doc = concat!("Sets [`", stringify!($name), "`](Self::", stringify!($name), ").")]
                #[inline]
                pub fn $set(&mut self, value: bool) {
                    self.c.$name = value.into();
                }
            )*
        }
    };
}

flags! {
    multiple_input_stream_flag set_multiple_input_stream_flag "`multiple_input_stream_flag`: whether `input_stream_identifier` is there.";
    ncr_reference set_ncr_reference "`NCR_reference`.";
    ncr_version set_ncr_version "`NCR_version`.";
}

/// Numbers that may be absent, each with the flag that says so.
macro_rules! optional {
    ($($type:ty: $name:ident $set:ident $has:ident $said:literal;)*) => {
        impl RawRecord {
            $(
                #[doc = $said]
                #[must_use]
                #[inline]
                pub fn $name(&self) -> Option<$type> {
                    there(self.c.$has, self.c.$name)
                }

                #[doc = concat!("Sets [`", stringify!($name), "`](Self::", stringify!($name), "), or makes it absent.")]
                #[inline]
                pub fn $set(&mut self, value: Option<$type>) {
                    self.c.$has = value.is_some().into();
                    self.c.$name = value.unwrap_or(0);
                }
            )*
        }
    };
}

optional! {
    u8: input_stream_identifier set_input_stream_identifier has_input_stream_identifier "`input_stream_identifier`, 8 bits.";
    u32: scrambling_sequence_index set_scrambling_sequence_index has_scrambling_sequence_index "`scrambling_sequence_index`, 18 bits.";
    u8: timeslice_number set_timeslice_number has_timeslice_number "`timeslice_number`, 8 bits, in modes 2 and 5 alone.";
}

/// What has a type of its own.
impl RawRecord {
    /// `S2Xv2_mode`, 4 bits.
    #[must_use]
    #[inline]
    pub fn s2xv2_mode(&self) -> S2Xv2Mode {
        if flag(self.c.mode_is_reserved) {
            S2Xv2Mode::Reserved(self.c.s2xv2_mode)
        } else {
            S2Xv2Mode::from_u8(self.c.s2xv2_mode)
        }
    }

    /// Sets [`s2xv2_mode`](Self::s2xv2_mode).
    #[inline]
    pub fn set_s2xv2_mode(&mut self, mode: S2Xv2Mode) {
        self.c.set_mode(mode);
    }

    /// `roll_off`, 3 bits.
    #[must_use]
    #[inline]
    pub fn roll_off(&self) -> RollOff {
        RollOff::from_u8(self.c.roll_off)
    }

    /// Sets [`roll_off`](Self::roll_off).
    #[inline]
    pub fn set_roll_off(&mut self, roll_off: RollOff) {
        self.c.roll_off = roll_off.to_u8();
    }

    /// `polarization`, 2 bits.
    #[must_use]
    #[inline]
    pub fn polarization(&self) -> Polarization {
        Polarization::from_u8(self.c.polarization)
    }

    /// Sets [`polarization`](Self::polarization).
    #[inline]
    pub fn set_polarization(&mut self, polarization: Polarization) {
        self.c.polarization = polarization.to_u8();
    }

    /// `scrambling_sequence_selector`, in modes 1 and 2 alone.
    #[must_use]
    #[inline]
    pub fn scrambling_sequence_selector(&self) -> Option<bool> {
        there(self.c.has_scrambling_sequence_selector, flag(self.c.scrambling_sequence_selector))
    }

    /// Sets [`scrambling_sequence_selector`](Self::scrambling_sequence_selector), or makes it absent.
    #[inline]
    pub fn set_scrambling_sequence_selector(&mut self, selector: Option<bool>) {
        self.c.has_scrambling_sequence_selector = selector.is_some().into();
        self.c.scrambling_sequence_selector = selector.unwrap_or(false).into();
    }

    /// The ids, one or two of 32 bits with `channel_bond` 1, else none. Of more than two the first two are kept.
    #[must_use]
    #[inline]
    pub fn secondary_delivery_system_ids(&self) -> &[u32] {
        let ids = &self.c.secondary_delivery_system_ids;
        match self.c.num_channel_bonds {
            0 => &[],
            1 => &ids[..1],
            _ => ids,
        }
    }

    /// How many ids the record has.
    #[must_use]
    #[inline]
    pub fn num_channel_bonds(&self) -> u8 {
        self.c.num_channel_bonds
    }

    /// Sets [`secondary_delivery_system_ids`](Self::secondary_delivery_system_ids) and their number. More than two are refused when the record
    /// is written.
    ///
    /// # Errors
    /// [`Refusal::TooManyIds`] for more than 255; then the record is as it was.
    #[inline]
    pub fn set_secondary_delivery_system_ids(&mut self, ids: &[u32]) -> Result<(), Refusal> {
        self.c.num_channel_bonds = id_count(ids)?;
        let id = |at: usize| ids.get(at).copied().unwrap_or(0);
        self.c.secondary_delivery_system_ids = [id(0), id(1)];
        Ok(())
    }

    /// The superframe block, in modes 4 and 5 alone.
    #[must_use]
    #[inline]
    pub fn superframe(&self) -> Option<S2Xv2Superframe> {
        flag(self.c.has_superframe).then(|| superframe_out(&self.c))
    }

    /// Sets [`superframe`](Self::superframe), or makes it absent.
    #[inline]
    pub fn set_superframe(&mut self, superframe: Option<&S2Xv2Superframe>) {
        match superframe {
            Some(superframe) => self.c.set_superframe(superframe),
            None => self.c.has_superframe = 0,
        }
    }
}
