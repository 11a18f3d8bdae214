//! What each mode has: the three questions beside what the library measures, writes, reads and refuses.
use s2xv2::places::{field, inconsistent, short};
use s2xv2::{Refusal, S2Xv2Mode, S2Xv2SatelliteDeliverySystem as Record, S2Xv2Superframe};

/// A record that has these parts, whatever its mode asks for.
fn record(mode: S2Xv2Mode, selector: bool, timeslice: bool, superframe: bool) -> Record<'static> {
    let mut r = Record::default();
    r.s2xv2_mode = mode;
    r.scrambling_sequence_selector = selector.then_some(false);
    r.timeslice_number = timeslice.then_some(7);
    r.superframe = superframe.then(S2Xv2Superframe::default);
    r
}

/// What the three questions say that the library measures: the first part that differs is told, in wire order.
fn measured(mode: S2Xv2Mode, selector: bool, timeslice: bool, superframe: bool) -> Result<usize, Refusal> {
    let place = if matches!(mode, S2Xv2Mode::Reserved(0..=5)) {
        inconsistent::S2XV2_MODE
    } else if selector != mode.has_scrambling_selector() {
        inconsistent::SCRAMBLING_SEQUENCE_SELECTOR
    } else if timeslice != mode.has_timeslice() {
        inconsistent::TIMESLICE_NUMBER
    } else if superframe != mode.has_superframe() {
        inconsistent::SUPERFRAME
    } else {
        return Ok(18 + usize::from(timeslice) + 8 * usize::from(superframe));
    };
    Err(Refusal::Inconsistent { place })
}

#[test]
fn the_three_questions_are_the_librarys() {
    for code in 0..=255 {
        for mode in [S2Xv2Mode::from_u8(code), S2Xv2Mode::Reserved(code)] {
            for parts in 0..8 {
                let (selector, timeslice, superframe) = (parts & 1 != 0, parts & 2 != 0, parts & 4 != 0);
                let record = record(mode, selector, timeslice, superframe);
                let length = measured(mode, selector, timeslice, superframe);
                assert_eq!(record.serialized_len(), length, "{mode:?}, parts {parts}");
                let too_wide = Refusal::Field { place: field::S2XV2_MODE };
                let written = length.and_then(|n| if code < 16 { Ok(n) } else { Err(too_wide) });
                assert_eq!(record.serialize_into(&mut [0; 64]), written, "{mode:?}, parts {parts}");
            }
        }
    }
}

/// The size of a body in the mode of each code with the top bit of byte 6 set, and the place that is told of it one byte short.
const SIZES: [(usize, u8); 16] = [
    (18, short::CORE),
    (21, short::SCRAMBLING),
    (22, short::TIMESLICE_NUMBER),
    (18, short::CORE),
    (26, short::SUPERFRAME),
    (27, short::SUPERFRAME),
    (18, short::CORE),
    (18, short::CORE),
    (18, short::CORE),
    (18, short::CORE),
    (18, short::CORE),
    (18, short::CORE),
    (18, short::CORE),
    (18, short::CORE),
    (18, short::CORE),
    (18, short::CORE),
];

#[test]
fn every_code_at_its_size_and_one_byte_short() {
    for (code, (size, place)) in (0..).zip(SIZES) {
        let mut body = [0; 27];
        body[4] = code << 4;
        body[6] = 0x80;
        let read = Record::parse(&body[..size]).unwrap();
        let mode = S2Xv2Mode::from_u8(code);
        assert_eq!(read.s2xv2_mode, mode);
        assert_eq!(read.scrambling_sequence_selector.is_some(), mode.has_scrambling_selector());
        assert_eq!(read.timeslice_number.is_some(), mode.has_timeslice());
        assert_eq!(read.superframe.is_some(), mode.has_superframe());
        assert!(read.reserved_tail.is_empty());
        let refused = Refusal::Short {
            place,
            need: size,
            have: size - 1,
            least: size,
        };
        assert_eq!(Record::parse(&body[..size - 1]), Err(refused), "mode {code}");
    }
}
