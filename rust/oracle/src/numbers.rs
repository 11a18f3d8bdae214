//! A record between plain numbers and its type. The file is compiled against the crate's own types here, and against those of
//! `rust/s2xv2` by `rust/differential`: both have the same names, fields and types.
use crate::types::{Polarization, Record, RollOff, S2Xv2Mode, Superframe};
use crate::values::*;

fn flag(b: bool) -> u32 {
    u32::from(b)
}

/// A record as plain numbers.
pub fn to_values(r: &Record) -> Values {
    let mut v = [0; COUNT];
    v[0] = r.delivery_system_id;
    v[MODE] = r.s2xv2_mode.to_u8().into();
    v[MODE_RESERVED] = flag(matches!(r.s2xv2_mode, S2Xv2Mode::Reserved(_)));
    v[FLAG] = flag(r.multiple_input_stream_flag);
    v[ROLL_OFF] = r.roll_off.to_u8().into();
    v[RESERVED_2] = r.reserved_zero_future_use_2.into();
    v[6] = flag(r.ncr_reference);
    v[7] = flag(r.ncr_version);
    v[BOND] = r.channel_bond.into();
    v[POLARIZATION] = r.polarization.to_u8().into();
    v[SELECTOR] = r.scrambling_sequence_selector.map_or(0, |b| 1 + flag(b));
    v[RESERVED_1] = r.reserved_zero_future_use_1.into();
    v[TS_GS] = r.ts_gs_s2x_mode.into();
    v[PROFILES] = r.receiver_profiles.into();
    v[SATELLITE] = r.satellite_id;
    v[15] = r.frequency;
    v[16] = r.symbol_rate;
    v[STREAM_THERE] = flag(r.input_stream_identifier.is_some());
    v[STREAM] = r.input_stream_identifier.unwrap_or(0).into();
    v[RESERVED_6] = r.reserved_zero_future_use_6.into();
    v[INDEX_THERE] = flag(r.scrambling_sequence_index.is_some());
    v[INDEX] = r.scrambling_sequence_index.unwrap_or(0);
    v[TIMESLICE_THERE] = flag(r.timeslice_number.is_some());
    v[TIMESLICE] = r.timeslice_number.unwrap_or(0).into();
    v[RESERVED_7] = r.reserved_zero_future_use_7.into();
    v[ID_0] = r.secondary_delivery_system_ids.first().copied().unwrap_or(0);
    v[ID_1] = r.secondary_delivery_system_ids.get(1).copied().unwrap_or(0);
    v[BONDS] = r.secondary_delivery_system_ids.len() as u32;
    if let Some(s) = &r.superframe {
        superframe_to_values(s, &mut v);
    }
    v
}

fn superframe_to_values(s: &Superframe, v: &mut Values) {
    v[SUPERFRAME_THERE] = 1;
    v[SOSF] = s.sosf_wh_sequence_number.into();
    v[SFFI_SELECTOR] = flag(s.sffi_selector);
    v[PLAN_SELECTOR] = flag(s.beam_hopping_time_plan_selector);
    v[BLOCK_RESERVED_2] = s.reserved_zero_future_use_2.into();
    v[REFERENCE] = s.reference_scrambling_index;
    v[SFFI_THERE] = flag(s.sffi.is_some());
    v[SFFI] = s.sffi.unwrap_or(0).into();
    v[RESERVED_4] = s.reserved_zero_future_use_4.into();
    v[PAYLOAD] = s.payload_scrambling_index;
    v[PLAN_THERE] = flag(s.beamhopping_time_plan_id.is_some());
    v[PLAN] = s.beamhopping_time_plan_id.unwrap_or(0);
    v[PILOTS] = s.superframe_pilots_wh_sequence_number.into();
    v[POSTAMBLE] = s.postamble_pli.into();
}

fn byte(v: u32) -> u8 {
    u8::try_from(v).expect("a byte")
}

/// The record of plain numbers, with its tail.
pub fn from_values<'a>(v: &Values, tail: &'a [u8]) -> Record<'a> {
    let mut r = Record::default();
    r.delivery_system_id = v[0];
    r.s2xv2_mode = if v[MODE_RESERVED] != 0 {
        S2Xv2Mode::Reserved(byte(v[MODE]))
    } else {
        S2Xv2Mode::from_u8(byte(v[MODE]))
    };
    r.multiple_input_stream_flag = v[FLAG] != 0;
    r.roll_off = RollOff::from_u8(byte(v[ROLL_OFF]));
    r.reserved_zero_future_use_2 = byte(v[RESERVED_2]);
    r.ncr_reference = v[6] != 0;
    r.ncr_version = v[7] != 0;
    r.channel_bond = byte(v[BOND]);
    r.polarization = Polarization::from_u8(byte(v[POLARIZATION]));
    r.scrambling_sequence_selector = (v[SELECTOR] != 0).then_some(v[SELECTOR] >= 2);
    r.reserved_zero_future_use_1 = byte(v[RESERVED_1]);
    r.ts_gs_s2x_mode = byte(v[TS_GS]);
    r.receiver_profiles = byte(v[PROFILES]);
    r.satellite_id = v[SATELLITE];
    r.frequency = v[15];
    r.symbol_rate = v[16];
    r.input_stream_identifier = (v[STREAM_THERE] != 0).then_some(byte(v[STREAM]));
    r.reserved_zero_future_use_6 = byte(v[RESERVED_6]);
    r.scrambling_sequence_index = (v[INDEX_THERE] != 0).then_some(v[INDEX]);
    r.timeslice_number = (v[TIMESLICE_THERE] != 0).then_some(byte(v[TIMESLICE]));
    r.reserved_zero_future_use_7 = byte(v[RESERVED_7]);
    r.secondary_delivery_system_ids = [v[ID_0], v[ID_1]]
        .into_iter()
        .chain(core::iter::repeat(0))
        .take(v[BONDS] as usize)
        .collect();
    r.superframe = (v[SUPERFRAME_THERE] != 0).then(|| superframe_from_values(v));
    r.reserved_tail = tail;
    r
}

fn superframe_from_values(v: &Values) -> Superframe {
    let mut s = Superframe::default();
    s.sosf_wh_sequence_number = byte(v[SOSF]);
    s.sffi_selector = v[SFFI_SELECTOR] != 0;
    s.beam_hopping_time_plan_selector = v[PLAN_SELECTOR] != 0;
    s.reserved_zero_future_use_2 = byte(v[BLOCK_RESERVED_2]);
    s.reference_scrambling_index = v[REFERENCE];
    s.sffi = (v[SFFI_THERE] != 0).then_some(byte(v[SFFI]));
    s.reserved_zero_future_use_4 = byte(v[RESERVED_4]);
    s.payload_scrambling_index = v[PAYLOAD];
    s.beamhopping_time_plan_id = (v[PLAN_THERE] != 0).then_some(v[PLAN]);
    s.superframe_pilots_wh_sequence_number = byte(v[PILOTS]);
    s.postamble_pli = byte(v[POSTAMBLE]);
    s
}
