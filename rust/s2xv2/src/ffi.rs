//! The boundary: the structs and functions of `include/s2xv2.h`, and for each function a safe one. Nothing else in this crate is unsafe.
//!
//! Every field of every struct that crosses is a plain number, for which any bits are a value. What the numbers mean is judged in
//! `crossing.rs`. A record and a job are lent by pointer, and are stored where they stand.
use core::mem::MaybeUninit;

#[repr(C)]
#[derive(Clone, Copy)]
pub(crate) struct Answer {
    pub number: u16,
    pub first: u16,
    pub second: u16,
    pub third: u16,
    pub fourth: u16,
}

/// Ten numbers of 32 bits, and 36 bytes behind them.
#[repr(C)]
#[derive(Debug, Clone, Copy, Default, PartialEq, Eq)]
pub(crate) struct Record {
    pub delivery_system_id: u32,
    pub satellite_id: u32,
    pub symbol_rate: u32,
    pub frequency: u32,
    pub scrambling_sequence_index: u32,
    pub secondary_delivery_system_ids: [u32; 2],
    pub reference_scrambling_index: u32,
    pub payload_scrambling_index: u32,
    pub beamhopping_time_plan_id: u32,

    pub multiple_input_stream_flag: u8,
    pub scrambling_sequence_selector: u8,
    pub sffi_selector: u8,
    pub beam_hopping_time_plan_selector: u8,
    pub has_input_stream_identifier: u8,
    pub has_scrambling_sequence_index: u8,
    pub has_sffi: u8,
    pub has_beamhopping_time_plan_id: u8,
    pub mode_is_reserved: u8,
    pub has_scrambling_sequence_selector: u8,
    pub has_timeslice_number: u8,
    pub has_superframe: u8,
    pub reserved_zero_future_use_2: u8,
    pub ncr_reference: u8,
    pub ncr_version: u8,
    pub channel_bond: u8,
    pub ts_gs_s2x_mode: u8,
    pub receiver_profiles: u8,
    pub reserved_zero_future_use_1: u8,
    pub polarization: u8,
    pub s2xv2_mode: u8,
    pub roll_off: u8,
    pub num_channel_bonds: u8,
    pub reserved_zero_future_use_7: u8,
    pub input_stream_identifier: u8,
    pub timeslice_number: u8,
    pub reserved_zero_future_use_6: u8,
    pub sosf_wh_sequence_number: u8,
    pub superframe_reserved_zero_future_use_2: u8,
    pub sffi: u8,
    pub reserved_zero_future_use_4: u8,
    pub superframe_pilots_wh_sequence_number: u8,
    pub postamble_pli: u8,
    pub filler: [u8; 3],
}

#[repr(C)]
#[derive(Clone, PartialEq, Eq)]
pub(crate) struct Job {
    pub staged: [u8; 257],
    pub slot_size: usize,
    pub descriptor_size: usize,
    pub stores_made: usize,
}

#[repr(C)]
#[derive(Clone, Copy)]
pub(crate) struct Advanced {
    pub stores: usize,
    pub number: u8,
    pub done: u8,
}

#[repr(C)]
pub(crate) struct Stepped {
    pub job: Job,
    pub told: Advanced,
}

/// The version that the structs and calls below are of: major * 65536 + minor * 256 + patch.
pub(crate) const VERSION: u32 = 5 * 256;
/// Where the bytes of a record start.
const BYTES: usize = 40;
/// Where the three sizes of a job start.
const SIZES: usize = 264;

mod archive {
    use super::*;

    extern "C" {
        pub fn s2xv2_version() -> u32;
        pub fn s2xv2_raw_parse(body: *const u8, length: usize, numbers: *mut u32, bytes: *mut u8) -> Answer;
        pub fn s2xv2_raw_serialized_len(numbers: *const u32, bytes: *const u8, tail: *const u8, tail_length: usize) -> Answer;
        pub fn s2xv2_raw_serialize_into(
            numbers: *const u32,
            bytes: *const u8,
            tail: *const u8,
            tail_length: usize,
            buffer: *mut u8,
            buffer_length: usize,
        ) -> Answer;
        pub fn s2xv2_raw_slot_read(slot: *const u8, size: usize, numbers: *mut u32, bytes: *mut u8) -> Answer;
        pub fn s2xv2_slot_make_empty(slot: *mut u8, size: usize) -> Answer;
        pub fn s2xv2_raw_begin(
            slot: *const u8,
            size: usize,
            numbers: *const u32,
            bytes: *const u8,
            tail: *const u8,
            tail_length: usize,
            staged: *mut u8,
            sizes: *mut usize,
        ) -> Answer;
        pub fn s2xv2_step(job: Job, slot: *mut u8, size: usize, allowance: usize) -> Stepped;
        pub fn s2xv2_step_in_place(job: *mut Job, slot: *mut u8, size: usize, allowance: usize) -> Advanced;
    }
}

pub(crate) fn version() -> u32 {
    // SAFETY: nothing is passed, and a number comes back.
    unsafe { archive::s2xv2_version() }
}

/// Reads a body into a record, every byte of which is stored.
#[inline]
pub(crate) fn parse<'r>(body: &[u8], place: &'r mut MaybeUninit<Record>) -> (Answer, &'r Record) {
    let record = place.as_mut_ptr();
    // SAFETY: the body's pointer and length are those of one slice, which is only read; the record's two parts are the 40 bytes at its start
    // and the 36 behind them, of one place that is lent for this call alone; none is kept. Every byte of the record is stored, so that it
    // may be read afterwards.
    unsafe {
        let answer = archive::s2xv2_raw_parse(body.as_ptr(), body.len(), record.cast(), record.cast::<u8>().add(BYTES));
        (answer, place.assume_init_ref())
    }
}

/// The same into a record that stands.
#[inline]
pub(crate) fn parse_again(body: &[u8], record: &mut Record) -> Answer {
    let record: *mut Record = record;
    // SAFETY: as in `parse`; any bits are a record.
    unsafe { archive::s2xv2_raw_parse(body.as_ptr(), body.len(), record.cast(), record.cast::<u8>().add(BYTES)) }
}

#[inline]
pub(crate) fn serialized_len(record: &Record, tail: &[u8]) -> Answer {
    let record: *const Record = record;
    // SAFETY: the tail's pointer and length are those of one slice, the record's two parts those of one record; all are only read, and none
    // is kept.
    unsafe { archive::s2xv2_raw_serialized_len(record.cast(), record.cast::<u8>().add(BYTES), tail.as_ptr(), tail.len()) }
}

#[inline]
pub(crate) fn serialize_into(record: &Record, tail: &[u8], buffer: &mut [u8]) -> Answer {
    let record: *const Record = record;
    // SAFETY: as in `serialized_len`; the buffer is lent for this call alone, so that it does not overlap the others, is written within its
    // length, and is not kept.
    unsafe {
        archive::s2xv2_raw_serialize_into(
            record.cast(),
            record.cast::<u8>().add(BYTES),
            tail.as_ptr(),
            tail.len(),
            buffer.as_mut_ptr(),
            buffer.len(),
        )
    }
}

/// Reads a slot into a record, every byte of which is stored.
#[inline]
pub(crate) fn slot_read<'r>(slot: &[u8], place: &'r mut MaybeUninit<Record>) -> (Answer, &'r Record) {
    let record = place.as_mut_ptr();
    // SAFETY: as in `parse`, for a slot.
    unsafe {
        let answer = archive::s2xv2_raw_slot_read(slot.as_ptr(), slot.len(), record.cast(), record.cast::<u8>().add(BYTES));
        (answer, place.assume_init_ref())
    }
}

/// The same into a record that stands.
#[inline]
pub(crate) fn slot_read_again(slot: &[u8], record: &mut Record) -> Answer {
    let record: *mut Record = record;
    // SAFETY: as in `slot_read`; any bits are a record.
    unsafe { archive::s2xv2_raw_slot_read(slot.as_ptr(), slot.len(), record.cast(), record.cast::<u8>().add(BYTES)) }
}

#[inline]
pub(crate) fn slot_make_empty(slot: &mut [u8]) -> Answer {
    // SAFETY: the pointer and the length are those of one slice, lent for this call alone, written within its length, and not kept.
    unsafe { archive::s2xv2_slot_make_empty(slot.as_mut_ptr(), slot.len()) }
}

/// Begins a job, every byte and number of which is stored.
#[inline]
pub(crate) fn begin<'j>(slot: &[u8], record: &Record, tail: &[u8], place: &'j mut MaybeUninit<Job>) -> (Answer, &'j Job) {
    let record: *const Record = record;
    let job = place.as_mut_ptr();
    // SAFETY: as in `serialized_len`, and so for the slot; the job's two parts are the 257 bytes at its start and the 24 that follow its
    // padding, of one place that is lent for this call alone; none is kept. All of both parts is stored, so that the job may be read
    // afterwards.
    unsafe {
        let answer = archive::s2xv2_raw_begin(
            slot.as_ptr(),
            slot.len(),
            record.cast(),
            record.cast::<u8>().add(BYTES),
            tail.as_ptr(),
            tail.len(),
            job.cast(),
            job.cast::<u8>().add(SIZES).cast(),
        );
        (answer, place.assume_init_ref())
    }
}

#[inline]
pub(crate) fn step(job: Job, slot: &mut [u8], allowance: usize) -> Stepped {
    // SAFETY: the pointer and the length are those of one slice, lent for this call alone, written within its length, and not kept.
    unsafe { archive::s2xv2_step(job, slot.as_mut_ptr(), slot.len(), allowance) }
}

#[inline]
pub(crate) fn step_in_place(job: &mut Job, slot: &mut [u8], allowance: usize) -> Advanced {
    // SAFETY: the job's pointer is a live `&mut`; the slot's pointer and length are those of one slice; both are lent for this call alone,
    // so that they do not overlap, are written within their sizes, and are not kept.
    unsafe { archive::s2xv2_step_in_place(job, slot.as_mut_ptr(), slot.len(), allowance) }
}

/// The layout that the archive, for x86-64, has: the size of each struct, and the place of each field.
#[cfg(target_pointer_width = "64")]
const _: () = {
    use core::mem::{offset_of, size_of};
    assert!(size_of::<Answer>() == 10);
    assert!(offset_of!(Answer, number) == 0);
    assert!(offset_of!(Answer, first) == 2);
    assert!(offset_of!(Answer, second) == 4);
    assert!(offset_of!(Answer, third) == 6);
    assert!(offset_of!(Answer, fourth) == 8);
    assert!(size_of::<Record>() == 76);
    assert!(offset_of!(Record, delivery_system_id) == 0);
    assert!(offset_of!(Record, satellite_id) == 4);
    assert!(offset_of!(Record, symbol_rate) == 8);
    assert!(offset_of!(Record, frequency) == 12);
    assert!(offset_of!(Record, scrambling_sequence_index) == 16);
    assert!(offset_of!(Record, secondary_delivery_system_ids) == 20);
    assert!(offset_of!(Record, reference_scrambling_index) == 28);
    assert!(offset_of!(Record, payload_scrambling_index) == 32);
    assert!(offset_of!(Record, beamhopping_time_plan_id) == 36);
    assert!(offset_of!(Record, multiple_input_stream_flag) == 40);
    assert!(offset_of!(Record, scrambling_sequence_selector) == 41);
    assert!(offset_of!(Record, sffi_selector) == 42);
    assert!(offset_of!(Record, beam_hopping_time_plan_selector) == 43);
    assert!(offset_of!(Record, has_input_stream_identifier) == 44);
    assert!(offset_of!(Record, has_scrambling_sequence_index) == 45);
    assert!(offset_of!(Record, has_sffi) == 46);
    assert!(offset_of!(Record, has_beamhopping_time_plan_id) == 47);
    assert!(offset_of!(Record, mode_is_reserved) == 48);
    assert!(offset_of!(Record, has_scrambling_sequence_selector) == 49);
    assert!(offset_of!(Record, has_timeslice_number) == 50);
    assert!(offset_of!(Record, has_superframe) == 51);
    assert!(offset_of!(Record, reserved_zero_future_use_2) == 52);
    assert!(offset_of!(Record, ncr_reference) == 53);
    assert!(offset_of!(Record, ncr_version) == 54);
    assert!(offset_of!(Record, channel_bond) == 55);
    assert!(offset_of!(Record, ts_gs_s2x_mode) == 56);
    assert!(offset_of!(Record, receiver_profiles) == 57);
    assert!(offset_of!(Record, reserved_zero_future_use_1) == 58);
    assert!(offset_of!(Record, polarization) == 59);
    assert!(offset_of!(Record, s2xv2_mode) == 60);
    assert!(offset_of!(Record, roll_off) == 61);
    assert!(offset_of!(Record, num_channel_bonds) == 62);
    assert!(offset_of!(Record, reserved_zero_future_use_7) == 63);
    assert!(offset_of!(Record, input_stream_identifier) == 64);
    assert!(offset_of!(Record, timeslice_number) == 65);
    assert!(offset_of!(Record, reserved_zero_future_use_6) == 66);
    assert!(offset_of!(Record, sosf_wh_sequence_number) == 67);
    assert!(offset_of!(Record, superframe_reserved_zero_future_use_2) == 68);
    assert!(offset_of!(Record, sffi) == 69);
    assert!(offset_of!(Record, reserved_zero_future_use_4) == 70);
    assert!(offset_of!(Record, superframe_pilots_wh_sequence_number) == 71);
    assert!(offset_of!(Record, postamble_pli) == 72);
    assert!(offset_of!(Record, filler) == 73);
    assert!(size_of::<Job>() == 288);
    assert!(offset_of!(Job, staged) == 0);
    assert!(offset_of!(Job, slot_size) == 264);
    assert!(offset_of!(Job, descriptor_size) == 272);
    assert!(offset_of!(Job, stores_made) == 280);
    assert!(size_of::<Advanced>() == 16);
    assert!(offset_of!(Advanced, stores) == 0);
    assert!(offset_of!(Advanced, number) == 8);
    assert!(offset_of!(Advanced, done) == 9);
    assert!(size_of::<Stepped>() == 304);
    assert!(offset_of!(Stepped, job) == 0);
    assert!(offset_of!(Stepped, told) == 288);
};
