//! A record as plain numbers, the form in which both sides show it: a flag is 0 or 1, and what may be absent is a number that says
//! whether it is there, followed by its value, 0 where it is not.

pub const COUNT: usize = 42;
pub type Values = [u32; COUNT];

pub const MODE: usize = 1;
/// 1 where the mode is `Reserved` whatever its code: the variant that may hold a code with a name of its own.
pub const MODE_RESERVED: usize = 2;
pub const FLAG: usize = 3;
pub const ROLL_OFF: usize = 4;
pub const RESERVED_2: usize = 5;
pub const BOND: usize = 8;
pub const POLARIZATION: usize = 9;
/// 0 for none, 1 for `Some(false)`, and `Some(true)` above that.
pub const SELECTOR: usize = 10;
pub const RESERVED_1: usize = 11;
pub const TS_GS: usize = 12;
pub const PROFILES: usize = 13;
pub const SATELLITE: usize = 14;
pub const STREAM_THERE: usize = 17;
pub const STREAM: usize = 18;
pub const RESERVED_6: usize = 19;
pub const INDEX_THERE: usize = 20;
pub const INDEX: usize = 21;
pub const TIMESLICE_THERE: usize = 22;
pub const TIMESLICE: usize = 23;
pub const RESERVED_7: usize = 24;
pub const ID_0: usize = 25;
pub const ID_1: usize = 26;
pub const BONDS: usize = 27;
pub const SUPERFRAME_THERE: usize = 28;
pub const SOSF: usize = 29;
pub const SFFI_SELECTOR: usize = 30;
pub const PLAN_SELECTOR: usize = 31;
pub const BLOCK_RESERVED_2: usize = 32;
pub const REFERENCE: usize = 33;
pub const SFFI_THERE: usize = 34;
pub const SFFI: usize = 35;
pub const RESERVED_4: usize = 36;
pub const PAYLOAD: usize = 37;
pub const PLAN_THERE: usize = 38;
pub const PLAN: usize = 39;
pub const PILOTS: usize = 40;
pub const POSTAMBLE: usize = 41;

pub const NAMES: [&str; COUNT] = [
    "delivery_system_id",
    "s2xv2_mode",
    "s2xv2_mode is Reserved",
    "multiple_input_stream_flag",
    "roll_off",
    "reserved_zero_future_use_2",
    "ncr_reference",
    "ncr_version",
    "channel_bond",
    "polarization",
    "scrambling_sequence_selector",
    "reserved_zero_future_use_1",
    "ts_gs_s2x_mode",
    "receiver_profiles",
    "satellite_id",
    "frequency",
    "symbol_rate",
    "input_stream_identifier there",
    "input_stream_identifier",
    "reserved_zero_future_use_6",
    "scrambling_sequence_index there",
    "scrambling_sequence_index",
    "timeslice_number there",
    "timeslice_number",
    "reserved_zero_future_use_7",
    "secondary_delivery_system_ids[0]",
    "secondary_delivery_system_ids[1]",
    "number of ids",
    "superframe there",
    "sosf_wh_sequence_number",
    "sffi_selector",
    "beam_hopping_time_plan_selector",
    "superframe reserved_zero_future_use_2",
    "reference_scrambling_index",
    "sffi there",
    "sffi",
    "reserved_zero_future_use_4",
    "payload_scrambling_index",
    "beamhopping_time_plan_id there",
    "beamhopping_time_plan_id",
    "superframe_pilots_wh_sequence_number",
    "postamble_pli",
];
