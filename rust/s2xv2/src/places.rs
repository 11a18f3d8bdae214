//! The places that a refusal tells, by name: those of `include/s2xv2.h`, and the numbers of docs/ANSWERS.md.

/// A module with a constant for each place, and the words by which a refusal prints it. Places count from 1.
macro_rules! places {
    ($(#[$about:meta])* $list:ident: $($name:ident = $place:literal $words:literal;)*) => {
        $(#[$about])*
        pub mod $list {
            $(
                #[doc = concat!("Place ", $place, ": ", $words, ".")]
                pub const $name: u8 = $place;
            )*
            pub(crate) const WORDS: &[&str] = &[$($words),*];
            const _: () = {
                let places = [$($name),*];
                let mut at = 0;
                while at < places.len() {
                    assert!(places[at] as usize == at + 1);
                    at += 1;
                }
            };
        }
    };
}

places! {
    /// Places of [`Refusal::Short`](crate::Refusal::Short): the part that is missing.
    short:
    CORE = 1 "the core";
    INPUT_STREAM_IDENTIFIER = 2 "the input stream identifier";
    SCRAMBLING = 3 "the scrambling sequence index";
    TIMESLICE_NUMBER = 4 "the timeslice number";
    BOND_HEADER = 5 "the channel bond header";
    SECONDARY_ID = 6 "a secondary delivery system id";
    SUPERFRAME = 7 "the superframe block";
    BEAMHOPPING_TIME_PLAN_ID = 8 "the beam hopping time plan id";
    LAST_BYTE = 9 "the last byte of the superframe block";
}

places! {
    /// Places of [`Refusal::Inconsistent`](crate::Refusal::Inconsistent), list A: the field that contradicts another.
    inconsistent:
    S2XV2_MODE = 1 "s2xv2_mode is Reserved with a code that has a name of its own";
    INPUT_STREAM_IDENTIFIER = 2 "input_stream_identifier and multiple_input_stream_flag disagree";
    SCRAMBLING_SEQUENCE_SELECTOR = 3 "scrambling_sequence_selector is missing in mode 1 or 2, or present in another";
    SCRAMBLING_SEQUENCE_INDEX = 4 "scrambling_sequence_index is present though scrambling_sequence_selector is not set";
    TIMESLICE_NUMBER = 5 "timeslice_number is missing in mode 2 or 5, or present in another";
    NUM_CHANNEL_BONDS = 6 "secondary_delivery_system_ids are present though channel_bond is not 1";
    SUPERFRAME = 7 "superframe is missing in mode 4 or 5, or present in another";
    SFFI = 8 "sffi is present though sffi_selector is clear";
    BEAMHOPPING_TIME_PLAN_ID = 9 "beamhopping_time_plan_id is present though beam_hopping_time_plan_selector is clear";
}

places! {
    /// Places of [`Refusal::Field`](crate::Refusal::Field), list B: the field that the wire cannot carry.
    field:
    S2XV2_MODE = 1 "s2xv2_mode is above 15";
    ROLL_OFF = 2 "roll_off is above 7";
    RESERVED_ZERO_FUTURE_USE_2 = 3 "reserved_zero_future_use_2 is above 3";
    CHANNEL_BOND = 4 "channel_bond is above 3";
    POLARIZATION = 5 "polarization is above 3";
    RESERVED_ZERO_FUTURE_USE_1 = 6 "reserved_zero_future_use_1 is above 1";
    TS_GS_S2X_MODE = 7 "ts_gs_s2x_mode is above 3";
    RECEIVER_PROFILES = 8 "receiver_profiles is above 31";
    SATELLITE_ID = 9 "satellite_id is above 16777215";
    SCRAMBLING_SEQUENCE_INDEX_MISSING = 10 "scrambling_sequence_index is absent though scrambling_sequence_selector is set";
    SCRAMBLING_SEQUENCE_INDEX = 11 "scrambling_sequence_index is above 262143";
    RESERVED_ZERO_FUTURE_USE_6 = 12 "reserved_zero_future_use_6 is above 63";
    NUM_CHANNEL_BONDS = 13 "secondary_delivery_system_ids are neither one nor two though channel_bond is 1";
    RESERVED_ZERO_FUTURE_USE_7 = 14 "reserved_zero_future_use_7 is above 127";
    REFERENCE_SCRAMBLING_INDEX = 15 "reference_scrambling_index is above 1048575";
    PAYLOAD_SCRAMBLING_INDEX = 16 "payload_scrambling_index is above 1048575";
    SUPERFRAME_RESERVED_ZERO_FUTURE_USE_2 = 17 "reserved_zero_future_use_2 of the superframe is above 3";
    SFFI_MISSING = 18 "sffi is absent though sffi_selector is set";
    SFFI = 19 "sffi, or reserved_zero_future_use_4 in its place, is above 15";
    BEAMHOPPING_TIME_PLAN_ID_MISSING = 20 "beamhopping_time_plan_id is absent though beam_hopping_time_plan_selector is set";
    SUPERFRAME_PILOTS_WH_SEQUENCE_NUMBER = 21 "superframe_pilots_wh_sequence_number is above 31";
    POSTAMBLE_PLI = 22 "postamble_pli is above 7";
}
