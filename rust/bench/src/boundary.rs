//! The structs and calls of include/s2xv2.h. A record is the two parts that are lent, behind each other.

#[repr(C)]
#[derive(Clone, Copy, Debug, PartialEq)]
pub struct Answer {
    pub number: u16,
    pub first: u16,
    pub second: u16,
    pub third: u16,
    pub fourth: u16,
}

#[repr(C)]
#[derive(Clone, Copy, PartialEq)]
pub struct Record {
    pub numbers: [u32; 10],
    pub bytes: [u8; 36],
}

#[repr(C)]
#[derive(Clone, Copy)]
pub struct Part {
    pub place: usize,
    pub length: usize,
}

#[repr(C)]
#[derive(Clone, Copy)]
pub struct Job {
    pub staged: [u8; 257],
    pub sizes: [usize; 3],
}

#[repr(C)]
#[derive(Clone, Copy)]
pub struct Advanced {
    pub stores: usize,
    pub number: u8,
    pub done: u8,
}

#[repr(C)]
#[derive(Clone, Copy)]
pub struct Stepped {
    pub job: Job,
    pub told: Advanced,
}

extern "C" {
    fn s2xv2_raw_parse(body: *const u8, length: usize, numbers: *mut u32, bytes: *mut u8) -> Answer;
    fn s2xv2_raw_serialized_len(numbers: *const u32, bytes: *const u8, tail: *const u8, tail_length: usize) -> Answer;
    fn s2xv2_raw_serialize_into(
        numbers: *const u32,
        bytes: *const u8,
        tail: *const u8,
        tail_length: usize,
        buffer: *mut u8,
        buffer_length: usize,
    ) -> Answer;
    fn s2xv2_raw_slot_read(slot: *const u8, size: usize, numbers: *mut u32, bytes: *mut u8) -> Answer;
    fn s2xv2_raw_begin(
        slot: *const u8,
        size: usize,
        numbers: *const u32,
        bytes: *const u8,
        tail: *const u8,
        tail_length: usize,
        staged: *mut u8,
        sizes: *mut usize,
    ) -> Answer;
    fn s2xv2_reserved_tail(body: *const u8, length: usize) -> Part;
    fn s2xv2_slot_reserved_tail(slot: *const u8, size: usize) -> Part;
    fn s2xv2_slot_make_empty(slot: *mut u8, size: usize) -> Answer;
    fn s2xv2_step(job: Job, slot: *mut u8, size: usize, allowance: usize) -> Stepped;
    fn s2xv2_step_in_place(job: *mut Job, slot: *mut u8, size: usize, allowance: usize) -> Advanced;
}

impl Record {
    fn parts(&self) -> (*const u32, *const u8) {
        (self.numbers.as_ptr(), self.bytes.as_ptr())
    }

    fn parts_mut(&mut self) -> (*mut u32, *mut u8) {
        (self.numbers.as_mut_ptr(), self.bytes.as_mut_ptr())
    }
}

// Each is the header's function of that name, with slices in the place of pointers and lengths.

#[inline(always)]
pub fn parse(body: &[u8], record: &mut Record) -> Answer {
    let (numbers, bytes) = record.parts_mut();
    unsafe { s2xv2_raw_parse(body.as_ptr(), body.len(), numbers, bytes) }
}

#[inline(always)]
pub fn serialized_len(record: &Record, tail: &[u8]) -> Answer {
    let (numbers, bytes) = record.parts();
    unsafe { s2xv2_raw_serialized_len(numbers, bytes, tail.as_ptr(), tail.len()) }
}

#[inline(always)]
pub fn serialize_into(record: &Record, tail: &[u8], buffer: &mut [u8]) -> Answer {
    let (numbers, bytes) = record.parts();
    unsafe { s2xv2_raw_serialize_into(numbers, bytes, tail.as_ptr(), tail.len(), buffer.as_mut_ptr(), buffer.len()) }
}

#[inline(always)]
pub fn slot_read(slot: &[u8], record: &mut Record) -> Answer {
    let (numbers, bytes) = record.parts_mut();
    unsafe { s2xv2_raw_slot_read(slot.as_ptr(), slot.len(), numbers, bytes) }
}

#[inline(always)]
pub fn begin(slot: &[u8], record: &Record, tail: &[u8], job: &mut Job) -> Answer {
    let (numbers, bytes) = record.parts();
    let (staged, sizes) = (job.staged.as_mut_ptr(), job.sizes.as_mut_ptr());
    unsafe { s2xv2_raw_begin(slot.as_ptr(), slot.len(), numbers, bytes, tail.as_ptr(), tail.len(), staged, sizes) }
}

#[inline(always)]
pub fn reserved_tail(body: &[u8]) -> Part {
    unsafe { s2xv2_reserved_tail(body.as_ptr(), body.len()) }
}

#[inline(always)]
pub fn slot_reserved_tail(slot: &[u8]) -> Part {
    unsafe { s2xv2_slot_reserved_tail(slot.as_ptr(), slot.len()) }
}

#[inline(always)]
pub fn make_empty(slot: &mut [u8]) -> Answer {
    unsafe { s2xv2_slot_make_empty(slot.as_mut_ptr(), slot.len()) }
}

#[inline(always)]
pub fn step(job: Job, slot: &mut [u8], allowance: usize) -> Stepped {
    unsafe { s2xv2_step(job, slot.as_mut_ptr(), slot.len(), allowance) }
}

#[inline(always)]
pub fn step_in_place(job: &mut Job, slot: &mut [u8], allowance: usize) -> Advanced {
    unsafe { s2xv2_step_in_place(job, slot.as_mut_ptr(), slot.len(), allowance) }
}
