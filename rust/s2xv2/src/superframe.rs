//! The superframe block.

/// The block that a record has in modes 4 and 5 (EN 300 468, table 144b). [`Default`] has every number at 0, every flag clear and nothing
/// that may be absent.
#[derive(Debug, Clone, Default, PartialEq, Eq)]
#[non_exhaustive]
pub struct S2Xv2Superframe {
    /// `SOSF_WH_sequence_number`, 8 bits.
    pub sosf_wh_sequence_number: u8,
    /// `SFFI_selector`: whether `sffi` is there.
    pub sffi_selector: bool,
    /// `beam_hopping_time_plan_selector`: whether `beamhopping_time_plan_id` is there.
    pub beam_hopping_time_plan_selector: bool,
    /// The 2 reserved bits behind the selectors.
    pub reserved_zero_future_use_2: u8,
    /// `reference_scrambling_index`, 20 bits.
    pub reference_scrambling_index: u32,
    /// `SFFI`, 4 bits, with `sffi_selector` alone.
    pub sffi: Option<u8>,
    /// The 4 reserved bits in the place of `SFFI`. With `sffi_selector` they are not on the wire, read as 0, and are not looked at.
    pub reserved_zero_future_use_4: u8,
    /// `payload_scrambling_index`, 20 bits.
    pub payload_scrambling_index: u32,
    /// `beamhopping_time_plan_id`, 32 bits, with `beam_hopping_time_plan_selector` alone.
    pub beamhopping_time_plan_id: Option<u32>,
    /// `superframe_pilots_WH_sequence_number`, 5 bits.
    pub superframe_pilots_wh_sequence_number: u8,
    /// `postamble_PLI`, 3 bits.
    pub postamble_pli: u8,
}

impl S2Xv2Superframe {
    /// How many bytes the block takes: 12 with `beam_hopping_time_plan_selector`, else 8.
    #[must_use]
    pub const fn serialized_len(&self) -> usize {
        if self.beam_hopping_time_plan_selector {
            12
        } else {
            8
        }
    }
}
