//! Records and answers across the boundary. Whatever numbers come back, they have a meaning or are refused, and nothing here can panic. A
//! flag is clear at 0 and else set, and a code is taken as its type takes any number, as the library takes what crosses to it. Refused as
//! [`Refusal::BadArchive`], and never taken for another, is a number that the library's contracts do not allow where it would be a place or
//! a count: the number of an answer, what a refusal tells, more ids than there is room for, a tail beyond the bytes that were lent. A record
//! that the caller made is refused here for one thing alone, as [`Refusal::TooManyIds`].
use crate::{ffi, Polarization, Refusal, RollOff, S2Xv2Mode, S2Xv2SatelliteDeliverySystem, S2Xv2Superframe, Slot};
use alloc::{vec, vec::Vec};

/// How many ids there are. Refuses more than the count, which is one byte, can say.
#[inline]
pub(crate) fn id_count(ids: &[u32]) -> Result<u8, Refusal> {
    let count = ids.len();
    u8::try_from(count).map_err(|_| Refusal::TooManyIds { count })
}

/// A record on its way in, to the place of zeros from which it crosses. What is absent stays 0. It is stored there field by field: a record
/// that is given back would be taken apart by the compiler, and moved twice.
#[inline(always)]
pub(crate) fn record_in(r: &S2Xv2SatelliteDeliverySystem<'_>, c: &mut ffi::Record) -> Result<(), Refusal> {
    let ids = r.secondary_delivery_system_ids.as_slice();
    c.num_channel_bonds = id_count(ids)?;
    if let [first, rest @ ..] = ids {
        c.secondary_delivery_system_ids[0] = *first;
        if let [second, ..] = rest {
            c.secondary_delivery_system_ids[1] = *second;
        }
    }
    c.delivery_system_id = r.delivery_system_id;
    c.satellite_id = r.satellite_id;
    c.symbol_rate = r.symbol_rate;
    c.frequency = r.frequency;
    c.multiple_input_stream_flag = r.multiple_input_stream_flag.into();
    c.reserved_zero_future_use_2 = r.reserved_zero_future_use_2;
    c.ncr_reference = r.ncr_reference.into();
    c.ncr_version = r.ncr_version.into();
    c.channel_bond = r.channel_bond;
    c.ts_gs_s2x_mode = r.ts_gs_s2x_mode;
    c.receiver_profiles = r.receiver_profiles;
    c.reserved_zero_future_use_1 = r.reserved_zero_future_use_1;
    c.polarization = r.polarization.to_u8();
    c.roll_off = r.roll_off.to_u8();
    c.reserved_zero_future_use_7 = r.reserved_zero_future_use_7;
    c.reserved_zero_future_use_6 = r.reserved_zero_future_use_6;
    c.set_mode(r.s2xv2_mode);
    if let Some(selector) = r.scrambling_sequence_selector {
        c.has_scrambling_sequence_selector = 1;
        c.scrambling_sequence_selector = selector.into();
    }
    if let Some(identifier) = r.input_stream_identifier {
        c.has_input_stream_identifier = 1;
        c.input_stream_identifier = identifier;
    }
    if let Some(index) = r.scrambling_sequence_index {
        c.has_scrambling_sequence_index = 1;
        c.scrambling_sequence_index = index;
    }
    if let Some(number) = r.timeslice_number {
        c.has_timeslice_number = 1;
        c.timeslice_number = number;
    }
    if let Some(superframe) = &r.superframe {
        c.set_superframe(superframe);
    }
    Ok(())
}

impl ffi::Record {
    /// The mode: its code, and whether it is `Reserved`.
    #[inline]
    pub(crate) fn set_mode(&mut self, mode: S2Xv2Mode) {
        self.mode_is_reserved = matches!(mode, S2Xv2Mode::Reserved(_)).into();
        self.s2xv2_mode = mode.to_u8();
    }

    /// The superframe block, which is there.
    #[inline]
    pub(crate) fn set_superframe(&mut self, s: &S2Xv2Superframe) {
        self.has_superframe = 1;
        self.reference_scrambling_index = s.reference_scrambling_index;
        self.payload_scrambling_index = s.payload_scrambling_index;
        self.beamhopping_time_plan_id = s.beamhopping_time_plan_id.unwrap_or(0);
        self.sffi_selector = s.sffi_selector.into();
        self.beam_hopping_time_plan_selector = s.beam_hopping_time_plan_selector.into();
        self.has_sffi = s.sffi.is_some().into();
        self.has_beamhopping_time_plan_id = s.beamhopping_time_plan_id.is_some().into();
        self.sosf_wh_sequence_number = s.sosf_wh_sequence_number;
        self.superframe_reserved_zero_future_use_2 = s.reserved_zero_future_use_2;
        self.sffi = s.sffi.unwrap_or(0);
        self.reserved_zero_future_use_4 = s.reserved_zero_future_use_4;
        self.superframe_pilots_wh_sequence_number = s.superframe_pilots_wh_sequence_number;
        self.postamble_pli = s.postamble_pli;
    }
}

/// A record on its way out, with its tail. Refuses more ids than a record has room for. Its mode is that of its code, as of every record that
/// was read. The two parts that few records have come first, so that all else is moved once, from where it came to where it stays.
#[inline(always)]
pub(crate) fn record_out<'a>(c: &ffi::Record, reserved_tail: &'a [u8]) -> Result<S2Xv2SatelliteDeliverySystem<'a>, Refusal> {
    let superframe = if flag(c.has_superframe) { Some(superframe_out(c)) } else { None };
    let secondary_delivery_system_ids = ids_out(c)?;
    Ok(S2Xv2SatelliteDeliverySystem {
        delivery_system_id: c.delivery_system_id,
        s2xv2_mode: S2Xv2Mode::from_u8(c.s2xv2_mode),
        multiple_input_stream_flag: flag(c.multiple_input_stream_flag),
        roll_off: RollOff::from_u8(c.roll_off),
        reserved_zero_future_use_2: c.reserved_zero_future_use_2,
        ncr_reference: flag(c.ncr_reference),
        ncr_version: flag(c.ncr_version),
        channel_bond: c.channel_bond,
        polarization: Polarization::from_u8(c.polarization),
        scrambling_sequence_selector: there(c.has_scrambling_sequence_selector, flag(c.scrambling_sequence_selector)),
        reserved_zero_future_use_1: c.reserved_zero_future_use_1,
        ts_gs_s2x_mode: c.ts_gs_s2x_mode,
        receiver_profiles: c.receiver_profiles,
        satellite_id: c.satellite_id,
        frequency: c.frequency,
        symbol_rate: c.symbol_rate,
        input_stream_identifier: there(c.has_input_stream_identifier, c.input_stream_identifier),
        reserved_zero_future_use_6: c.reserved_zero_future_use_6,
        scrambling_sequence_index: there(c.has_scrambling_sequence_index, c.scrambling_sequence_index),
        timeslice_number: there(c.has_timeslice_number, c.timeslice_number),
        reserved_zero_future_use_7: c.reserved_zero_future_use_7,
        secondary_delivery_system_ids,
        superframe,
        reserved_tail,
    })
}

/// Apart, as most records have none.
#[inline(never)]
pub(crate) fn superframe_out(c: &ffi::Record) -> S2Xv2Superframe {
    S2Xv2Superframe {
        sosf_wh_sequence_number: c.sosf_wh_sequence_number,
        sffi_selector: flag(c.sffi_selector),
        beam_hopping_time_plan_selector: flag(c.beam_hopping_time_plan_selector),
        reserved_zero_future_use_2: c.superframe_reserved_zero_future_use_2,
        reference_scrambling_index: c.reference_scrambling_index,
        sffi: there(c.has_sffi, c.sffi),
        reserved_zero_future_use_4: c.reserved_zero_future_use_4,
        payload_scrambling_index: c.payload_scrambling_index,
        beamhopping_time_plan_id: there(c.has_beamhopping_time_plan_id, c.beamhopping_time_plan_id),
        superframe_pilots_wh_sequence_number: c.superframe_pilots_wh_sequence_number,
        postamble_pli: c.postamble_pli,
    }
}

#[inline]
fn ids_out(c: &ffi::Record) -> Result<Vec<u32>, Refusal> {
    let [first, second] = c.secondary_delivery_system_ids;
    match c.num_channel_bonds {
        0 => Ok(Vec::new()),
        1 => Ok(vec![first]),
        2 => Ok(vec![first, second]),
        _ => Err(Refusal::BadArchive),
    }
}

/// A flag, as a byte.
#[inline]
pub(crate) fn flag(byte: u8) -> bool {
    byte != 0
}

/// A value, if its flag says that it is there.
#[inline]
pub(crate) fn there<T>(has: u8, value: T) -> Option<T> {
    flag(has).then_some(value)
}

/// What each call refuses with, in the order of docs/ANSWERS.md: the numbers, a bit for each. As a constant parameter it leaves nothing to be
/// judged but what the call gives.
pub(crate) const PARSE: u16 = bits(&[2, 1]);
pub(crate) const MEASURE: u16 = bits(&[3, 2]);
pub(crate) const WRITE: u16 = bits(&[3, 2, 5, 4]);
pub(crate) const READ: u16 = bits(&[6, 12, 1]);
pub(crate) const EMPTY: u16 = bits(&[6]);
pub(crate) const BEGIN: u16 = bits(&[6, 12, 3, 2, 7, 4]);

const fn bits(numbers: &[u16]) -> u16 {
    match numbers {
        [] => 0,
        [number, rest @ ..] => 1 << *number | bits(rest),
    }
}

/// What the answer of a call on a body or a record tells, where it accepts.
#[inline]
pub(crate) fn accepted<const CALL: u16>(answer: ffi::Answer) -> Result<(usize, usize), Refusal> {
    accepted_on::<CALL>(0, answer)
}

/// The same of a call on a slot of a size.
#[inline]
pub(crate) fn accepted_on<const CALL: u16>(size: usize, answer: ffi::Answer) -> Result<(usize, usize), Refusal> {
    match answer.number {
        0 => Ok((answer.first.into(), answer.second.into())),
        _ => Err(refusal::<CALL>(size, answer)),
    }
}

/// Why a call was refused. What the contracts do not allow is [`Refusal::BadArchive`], and never taken for another: a number that the call does
/// not give, a place that no list has, a least total below the end of a part, an offset outside the slot, anything but 0 behind what is told.
/// So an archive of an older version is found out where it tells 0 for a least total, or 6 for a slot's form.
#[cold]
fn refusal<const CALL: u16>(size: usize, answer: ffi::Answer) -> Refusal {
    let ffi::Answer {
        number,
        first,
        second,
        third,
        fourth,
    } = answer;
    let gives = |number: u16| CALL >> number & 1 == 1;
    let is_size = (Slot::MIN_SIZE..=Slot::MAX_SIZE).contains(&size);
    let listed = |last: u16| (1..=last).contains(&first);
    let tells_two = third | fourth == 0;
    let tells_one = second == 0 && tells_two;
    match number {
        // A slot of a wrong size is refused with 6, and no other slot is.
        6 if gives(6) && !is_size && first == 0 && tells_one => Refusal::Slot,
        _ if gives(6) && !is_size => Refusal::BadArchive,
        1 if gives(1) && listed(9) && second <= fourth => Refusal::Short {
            place: first as u8,
            need: second.into(),
            have: third.into(),
            least: fourth.into(),
        },
        2 if gives(2) && tells_one => Refusal::Long { length: first },
        3 if gives(3) && listed(9) && tells_one => Refusal::Inconsistent { place: first as u8 },
        4 if gives(4) && listed(22) && tells_one => Refusal::Field { place: first as u8 },
        5 if gives(5) && tells_two => Refusal::Room {
            need: first.into(),
            have: second.into(),
        },
        7 if gives(7) && tells_one => Refusal::NoFit { size: first.into() },
        12 if gives(12) && usize::from(first) < size && tells_one => Refusal::SlotForm { offset: first.into() },
        _ => Refusal::BadArchive,
    }
}

#[cfg(test)]
mod tests {
    use super::*;

    /// How an answer of a call is judged, with the size of the slot that is lent to it.
    type Judge = fn(usize, ffi::Answer) -> Result<(usize, usize), Refusal>;

    /// The calls, and the numbers that they refuse with; those on slots come last.
    const CALLS: [(Judge, &[u16]); 6] = [
        (accepted_on::<PARSE>, &[2, 1]),
        (accepted_on::<MEASURE>, &[3, 2]),
        (accepted_on::<WRITE>, &[3, 2, 5, 4]),
        (accepted_on::<EMPTY>, &[6]),
        (accepted_on::<READ>, &[6, 12, 1]),
        (accepted_on::<BEGIN>, &[6, 12, 3, 2, 7, 4]),
    ];

    /// What an answer of each number may tell, of a slot of 20 bytes if it is 6, and else of 44.
    const REFUSALS: [(u16, [u16; 4], Refusal); 8] = [
        (
            1,
            [4, 19, 18, 27],
            Refusal::Short {
                place: 4,
                need: 19,
                have: 18,
                least: 27,
            },
        ),
        (2, [4097, 0, 0, 0], Refusal::Long { length: 4097 }),
        (3, [9, 0, 0, 0], Refusal::Inconsistent { place: 9 }),
        (4, [22, 0, 0, 0], Refusal::Field { place: 22 }),
        (5, [18, 17, 0, 0], Refusal::Room { need: 18, have: 17 }),
        (6, [0; 4], Refusal::Slot),
        (7, [45, 0, 0, 0], Refusal::NoFit { size: 45 }),
        (12, [43, 0, 0, 0], Refusal::SlotForm { offset: 43 }),
    ];

    fn size_for(number: u16) -> usize {
        if number == 6 {
            20
        } else {
            44
        }
    }

    fn answer(number: u16, [first, second, third, fourth]: [u16; 4]) -> ffi::Answer {
        ffi::Answer {
            number,
            first,
            second,
            third,
            fourth,
        }
    }

    /// Why a call on a slot of a size was refused, by an answer with these numbers.
    fn told(judge: Judge, size: usize, number: u16, numbers: [u16; 4]) -> Refusal {
        judge(size, answer(number, numbers)).unwrap_err()
    }

    #[test]
    fn each_number_has_its_refusal() {
        for (judge, given) in CALLS {
            assert_eq!(judge(44, answer(0, [4, 5, 6, 7])), Ok((4, 5)));
            for (number, numbers, refusal) in REFUSALS {
                let expected = if given.contains(&number) { refusal } else { Refusal::BadArchive };
                assert_eq!(told(judge, size_for(number), number, numbers), expected);
                assert_eq!(u16::from(refusal.number()), number);
            }
        }
    }

    #[test]
    fn numbers_that_no_contract_allows() {
        for (judge, _) in CALLS {
            for number in [8, 9, 10, 11, 13, 15, 16, 99, 100, 101, 256 + 1, 256 + 12, u16::MAX] {
                for size in [20, 44] {
                    assert_eq!(told(judge, size, number, [0; 4]), Refusal::BadArchive);
                }
            }
        }
    }

    #[test]
    fn places_that_no_list_has() {
        for (judge, _) in CALLS {
            for (number, places) in [(3, [0, 10, 256 + 1]), (4, [0, 23, 256 + 4])] {
                for place in places {
                    assert_eq!(told(judge, 44, number, [place, 0, 0, 0]), Refusal::BadArchive);
                }
            }
            for place in [0, 10, 256 + 1] {
                assert_eq!(told(judge, 44, 1, [place, 19, 18, 27]), Refusal::BadArchive);
            }
        }
    }

    #[test]
    fn a_call_that_judges_no_form_tells_none() {
        for (judge, _) in &CALLS[..4] {
            for size in [0, 20, 21, 44, 257] {
                for offset in [0, 1, 20] {
                    assert_eq!(told(*judge, size, 12, [offset, 0, 0, 0]), Refusal::BadArchive);
                }
            }
        }
    }

    #[test]
    fn a_wrong_size_is_told_as_6_and_nothing_else_is() {
        for (judge, _) in &CALLS[3..] {
            for size in Slot::MIN_SIZE..=Slot::MAX_SIZE {
                assert_eq!(told(*judge, size, 6, [0; 4]), Refusal::BadArchive);
            }
            for size in [0, 1, 20, 258, 259, 65_536 + 21, usize::MAX] {
                assert_eq!(told(*judge, size, 6, [0; 4]), Refusal::Slot);
                for (number, numbers, _) in REFUSALS.into_iter().filter(|(number, ..)| *number != 6) {
                    assert_eq!(told(*judge, size, number, numbers), Refusal::BadArchive);
                }
            }
        }
    }

    #[test]
    fn an_offset_is_below_the_slots_size() {
        for (judge, _) in &CALLS[4..] {
            for size in Slot::MIN_SIZE..=Slot::MAX_SIZE {
                for first in (0..300).chain([512, u16::MAX]) {
                    let offset = usize::from(first);
                    let in_slot = (offset < size).then_some(Refusal::SlotForm { offset });
                    let told = told(*judge, size, 12, [first, 0, 0, 0]);
                    assert_eq!(told, in_slot.unwrap_or(Refusal::BadArchive));
                }
            }
        }
    }

    #[test]
    fn behind_what_is_told_stands_0() {
        for (judge, _) in CALLS {
            for (number, numbers, _) in REFUSALS {
                let tells = match number {
                    1 => 4,
                    5 => 2,
                    6 => 0,
                    _ => 1,
                };
                for at in tells..4 {
                    let mut more = numbers;
                    more[at] = 1;
                    assert_eq!(told(judge, size_for(number), number, more), Refusal::BadArchive);
                }
            }
        }
    }

    #[test]
    fn a_least_total_is_not_below_the_end_of_a_part() {
        for judge in [accepted_on::<PARSE>, accepted_on::<READ>] {
            for least in [0, 17, 18] {
                assert_eq!(told(judge, 44, 1, [4, 19, 18, least]), Refusal::BadArchive);
            }
            for least in [19, 20, 27, u16::MAX] {
                let refusal = Refusal::Short {
                    place: 4,
                    need: 19,
                    have: 18,
                    least: least.into(),
                };
                assert_eq!(told(judge, 44, 1, [4, 19, 18, least]), refusal);
            }
        }
    }

    #[test]
    fn a_flag_above_1_is_set() {
        let flags: [fn(&mut ffi::Record) -> &mut u8; 13] = [
            |c| &mut c.multiple_input_stream_flag,
            |c| &mut c.ncr_reference,
            |c| &mut c.ncr_version,
            |c| &mut c.has_scrambling_sequence_selector,
            |c| &mut c.scrambling_sequence_selector,
            |c| &mut c.has_input_stream_identifier,
            |c| &mut c.has_scrambling_sequence_index,
            |c| &mut c.has_timeslice_number,
            |c| &mut c.has_superframe,
            |c| &mut c.sffi_selector,
            |c| &mut c.beam_hopping_time_plan_selector,
            |c| &mut c.has_sffi,
            |c| &mut c.has_beamhopping_time_plan_id,
        ];
        for flag in flags {
            let mut c = ffi::Record {
                has_scrambling_sequence_selector: 1,
                has_superframe: 1,
                ..Default::default()
            };
            let mut with = |byte: u8| {
                *flag(&mut c) = byte;
                record_out(&c, &[])
            };
            assert_ne!(with(0), with(1));
            assert!((2..=255).all(|byte| with(byte) == with(1)));
        }
    }

    #[test]
    fn every_code_has_a_meaning() {
        for code in 0..=255 {
            for mode_is_reserved in [0, 1, 2] {
                let c = ffi::Record {
                    mode_is_reserved,
                    s2xv2_mode: code,
                    roll_off: code,
                    polarization: code,
                    ..Default::default()
                };
                let record = record_out(&c, &[]).unwrap();
                assert_eq!(record.s2xv2_mode, S2Xv2Mode::from_u8(code));
                assert_eq!(record.roll_off, RollOff::from_u8(code));
                assert_eq!(record.polarization, Polarization::from_u8(code));
            }
        }
    }

    #[test]
    fn ids_beyond_their_room_are_refused() {
        let mut c = ffi::Record {
            secondary_delivery_system_ids: [7, 8],
            ..Default::default()
        };
        for num_channel_bonds in 0..=255 {
            c.num_channel_bonds = num_channel_bonds;
            let ids = [7, 8].get(..num_channel_bonds.into());
            let out = record_out(&c, &[]).map(|record| record.secondary_delivery_system_ids);
            assert_eq!(out.as_deref(), ids.ok_or(&Refusal::BadArchive));
        }
    }
}
