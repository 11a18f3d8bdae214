//! Records for the tests.
use s2xv2::{Polarization, RollOff, S2Xv2Mode, S2Xv2SatelliteDeliverySystem as Record, S2Xv2Superframe};

/// A consistent record in which every field of the mode is there, and no field on the wire is 0.
pub fn full(mode: u8, tail: &[u8]) -> Record<'_> {
    let mode = S2Xv2Mode::from_u8(mode);
    let mut r = Record::default();
    r.delivery_system_id = 0x0102_0304;
    r.s2xv2_mode = mode;
    r.multiple_input_stream_flag = true;
    r.roll_off = RollOff::Reserved(5);
    r.reserved_zero_future_use_2 = 2;
    r.ncr_reference = true;
    r.ncr_version = true;
    r.channel_bond = 1;
    r.polarization = Polarization::CircularLeft;
    r.scrambling_sequence_selector = mode.has_scrambling_selector().then_some(true);
    r.reserved_zero_future_use_1 = u8::from(!mode.has_scrambling_selector());
    r.ts_gs_s2x_mode = 3;
    r.receiver_profiles = 0x15;
    r.satellite_id = 0x05_0607;
    r.frequency = 0x0809_0A0B;
    r.symbol_rate = 0x0C0D_0E0F;
    r.input_stream_identifier = Some(0x10);
    r.reserved_zero_future_use_6 = if mode.has_scrambling_selector() { 0x2A } else { 0 };
    r.scrambling_sequence_index = mode.has_scrambling_selector().then_some(0x2_1122);
    r.timeslice_number = mode.has_timeslice().then_some(0x13);
    r.reserved_zero_future_use_7 = 0x55;
    r.secondary_delivery_system_ids = vec![0x1415_1617, 0x1819_1A1B];
    r.superframe = mode.has_superframe().then(superframe);
    r.reserved_tail = tail;
    r
}

fn superframe() -> S2Xv2Superframe {
    let mut s = S2Xv2Superframe::default();
    s.sosf_wh_sequence_number = 0x1C;
    s.sffi_selector = true;
    s.beam_hopping_time_plan_selector = true;
    s.reserved_zero_future_use_2 = 1;
    s.reference_scrambling_index = 0xD_1E1F;
    s.sffi = Some(9);
    s.payload_scrambling_index = 0x6_2021;
    s.beamhopping_time_plan_id = Some(0x2223_2425);
    s.superframe_pilots_wh_sequence_number = 0x13;
    s.postamble_pli = 5;
    s
}
