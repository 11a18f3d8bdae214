//! What the Rust has no answer for, from docs/ANSWERS.md alone: list A. The limit of 4,096 bytes and a polarization above 3 stand where
//! the Rust is asked (crate_side.rs), and the least total in least.rs.
use crate::values::*;

/// Codes of modes, as the record holds them: a mode that is `Reserved` has none of the questions' answers.
fn is(v: &Values, codes: [u32; 2]) -> bool {
    v[MODE_RESERVED] == 0 && codes.contains(&v[MODE])
}

/// The first place of list A at which the record contradicts itself.
pub fn inconsistency(v: &Values) -> Option<u32> {
    let there = |k: usize| v[k] != 0;
    let has_selector = is(v, [1, 2]);
    let selected = v[SELECTOR] >= 2;
    let has_superframe = is(v, [4, 5]);
    let rows = [
        v[MODE_RESERVED] != 0 && v[MODE] < 6,
        there(STREAM_THERE) != there(FLAG),
        there(SELECTOR) != has_selector,
        there(INDEX_THERE) && !selected,
        there(TIMESLICE_THERE) != is(v, [2, 5]),
        v[BONDS] > 0 && v[BOND] != 1,
        there(SUPERFRAME_THERE) != has_superframe,
        there(SUPERFRAME_THERE) && there(SFFI_THERE) && !there(SFFI_SELECTOR),
        there(SUPERFRAME_THERE) && there(PLAN_THERE) && !there(PLAN_SELECTOR),
    ];
    rows.iter().position(|row| *row).map(|k| k as u32 + 1)
}
