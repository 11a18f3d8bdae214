//! The cases of each set, from their numbers alone. The Rattle program `replay` has the same rules; nothing is shared but the rules.
use crate::values::*;

/// One step of the generator: a congruence modulo 2^32, of which only the high bits are used.
pub fn next(x: u32) -> u32 {
    ((u64::from(x) * 1_664_525 + 1_013_904_223) % 4_294_967_296) as u32
}

/// Where the generator starts for a case.
pub fn seed(case: u32) -> u32 {
    next(next(case))
}

/// A body, and how much longer than it the buffer is into which it is written back.
pub struct Body {
    pub bytes: Vec<u8>,
    pub spare: usize,
}

/// A record, its tail's length, and the rule for the buffer's length.
pub struct Written {
    pub values: Values,
    pub tail: usize,
    pub rule: u32,
    pub spare: u32,
}

// ---- bodies by their shape

/// What the core asks for, and the byte that fills all that follows the core.
struct Shape {
    mode: u32,
    flag: u32,
    bond: u32,
    top: u32,
    second: u32,
    hop: u32,
    full: u32,
}

fn shaped(s: &Shape, length: usize) -> Vec<u8> {
    let mut bytes = vec![0; length];
    for (k, b) in bytes.iter_mut().enumerate() {
        *b = match k {
            4 => s.mode * 16 + s.flag * 8 + s.full * 7,
            5 => s.bond * 4 + s.full * 0xF3,
            6 => s.top * 128 + s.full * 0x7F,
            0..=17 => s.full * 255,
            _ => s.second + s.hop * 64 + s.full * 0xBE,
        } as u8;
    }
    bytes
}

/// Every shape cut at every length.
pub const CUTS: u32 = 94_208;
pub fn cut(case: u32) -> Body {
    let s = case / 46;
    let shape = Shape {
        mode: s % 16,
        flag: s / 16 % 2,
        bond: s / 32 % 4,
        top: s / 128 % 2,
        second: s / 256 % 2,
        hop: s / 512 % 2,
        full: s / 1024 % 2,
    };
    Body {
        bytes: shaped(&shape, (case % 46) as usize),
        spare: 1,
    }
}

/// The walk over a body's bits: each one turned over alone, the others clear or set.
pub const BITS: u32 = 92_160;
pub fn bit(case: u32) -> Body {
    let s = case / 360;
    let both = s / 64 % 2;
    let shape = Shape {
        mode: s % 8,
        flag: s / 8 % 2,
        bond: s / 16 % 2,
        top: s / 32 % 2,
        second: both,
        hop: both,
        full: s / 128 % 2,
    };
    let mut bytes = shaped(&shape, 45);
    let at = case % 360;
    bytes[(at / 8) as usize] ^= 1 << (at % 8);
    Body { bytes, spare: 0 }
}

// ---- bodies by draws

fn body_length(case: u32, draw: u32) -> usize {
    let n = if case % 1024 != 1023 {
        draw % 64
    } else if draw % 2 == 0 {
        4090 + draw / 2 % 8
    } else {
        64 + draw / 2 % 4034
    };
    n as usize
}

/// The modes that have a meaning come up more often than the others.
fn mode_of(draw: u32) -> u32 {
    let m = draw % 46;
    if m < 16 {
        m
    } else {
        (m - 16) % 6
    }
}

pub const BODIES: u32 = 1_048_576;
pub fn body(case: u32) -> Body {
    let mut x = next(seed(case));
    let mut bytes = vec![0; body_length(case, x / 65_536)];
    for b in &mut bytes {
        x = next(x);
        *b = (x / 16_777_216) as u8;
    }
    x = next(x);
    if bytes.len() > 5 {
        bytes[4] = (mode_of(x / 65_536) * 16) as u8 + bytes[4] % 16;
        if case % 2 == 0 {
            bytes[5] = bytes[5] / 16 * 16 + 4 + bytes[5] % 4;
        }
    }
    x = next(x);
    Body {
        bytes,
        spare: (x / 65_536 % 3) as usize,
    }
}

// ---- records by their fields

/// Of each field: how many bits its type has, how many the wire has, and its place in list B, 0 where it has none.
const FIELDS: [(u32, u32, u32); COUNT] = [
    (32, 32, 0),
    (8, 4, 1),
    (1, 1, 0),
    (1, 1, 0),
    (8, 3, 2),
    (8, 2, 3),
    (1, 1, 0),
    (1, 1, 0),
    (8, 2, 4),
    (8, 2, 5),
    (2, 2, 0),
    (8, 1, 6),
    (8, 2, 7),
    (8, 5, 8),
    (32, 24, 9),
    (32, 32, 0),
    (32, 32, 0),
    (1, 1, 0),
    (8, 8, 0),
    (8, 6, 12),
    (1, 1, 0),
    (32, 18, 11),
    (1, 1, 0),
    (8, 8, 0),
    (8, 7, 14),
    (32, 32, 0),
    (32, 32, 0),
    (8, 8, 0),
    (1, 1, 0),
    (8, 8, 0),
    (1, 1, 0),
    (1, 1, 0),
    (8, 2, 17),
    (32, 20, 15),
    (1, 1, 0),
    (8, 4, 19),
    (8, 4, 19),
    (32, 20, 16),
    (1, 1, 0),
    (32, 32, 0),
    (8, 5, 21),
    (8, 3, 22),
];

/// 1 in a mode that asks for the part.
fn in_modes(v: &Values, codes: [u32; 2]) -> u32 {
    u32::from(v[MODE_RESERVED] == 0 && codes.contains(&v[MODE]))
}

/// A consistent record with every field at 0, or every field of those that are there at its largest.
pub fn plain(mode: u32, full: u32) -> Values {
    let mut v = [0; COUNT];
    for (k, (_, width, _)) in FIELDS.iter().enumerate() {
        v[k] = full * ((1u64 << width) - 1) as u32;
    }
    v[MODE] = mode;
    v[MODE_RESERVED] = 0;
    v[BOND] = full;
    v[BONDS] = full * 2;
    v[SELECTOR] = in_modes(&v, [1, 2]) * (1 + full);
    v[INDEX_THERE] = in_modes(&v, [1, 2]) * full;
    v[TIMESLICE_THERE] = in_modes(&v, [2, 5]);
    v[SUPERFRAME_THERE] = in_modes(&v, [4, 5]);
    v
}

/// The walk over a record's fields: each bit of each field's type turned over alone, the others at 0 or at their largest.
pub const WALK: u32 = 43_008;
pub fn walk(case: u32) -> Written {
    let field = (case % 42) as usize;
    let bit = case / 42 % 32;
    let full = case / 21_504 % 2;
    let mut values = plain(case / 1344 % 16, full);
    values[field] ^= 1 << (bit % FIELDS[field].0);
    Written {
        values,
        tail: 3 * full as usize,
        rule: 3,
        spare: 0,
    }
}

// ---- records by draws

const DRAWS: usize = 48;

fn draws(case: u32) -> [u32; DRAWS] {
    let mut x = seed(case);
    let mut d = [0; DRAWS];
    for v in &mut d {
        x = next(x);
        *v = x / 65_536 + x % 65_536 * 65_536;
    }
    d
}

/// A value that the wire can carry; or, where the field is at fault, one at the edge of that.
fn value(draw: u32, bits: u32, width: u32, fault: bool) -> u32 {
    let room = 1u64 << width;
    let draw = u64::from(draw);
    let v = match (fault, draw % 4) {
        (false, _) => draw % room,
        (true, 0) => room - 1,
        (true, 1) => room,
        (true, 2) => room + draw / 4 % room,
        (true, _) => (1u64 << bits) - 1,
    };
    v as u32
}

/// Which faults a record has: places of list B by their numbers, and after them those of list A.
struct Faults(u32, u32);

impl Faults {
    fn b(&self, place: u32) -> bool {
        place != 0 && (self.0 == place || self.1 == place)
    }

    fn a(&self, place: u32) -> bool {
        self.b(22 + place)
    }
}

fn toggled(there: u32, fault: bool) -> u32 {
    if fault {
        1 - there
    } else {
        there
    }
}

/// Whether what stands behind a selector is there: as the selector says, but for a fault of either list.
fn behind(set: bool, absent: bool, extra: bool) -> u32 {
    u32::from(if set { !absent } else { extra })
}

fn set_head(v: &mut Values, d: &[u32; DRAWS], f: &Faults) {
    if !f.b(1) {
        v[MODE] = mode_of(d[MODE]);
    }
    v[MODE_RESERVED] = 0;
    if f.a(1) {
        v[MODE_RESERVED] = 1;
        v[MODE] = d[MODE] % 6;
    }
    if !f.b(4) {
        v[BOND] = if d[BOND] / 4 % 2 == 0 { 1 } else { d[BOND] % 4 };
    }
}

fn set_parts(v: &mut Values, d: &[u32; DRAWS], f: &Faults) {
    v[STREAM_THERE] = toggled(v[FLAG], f.a(2));
    let selects = toggled(in_modes(v, [1, 2]), f.a(3));
    v[SELECTOR] = selects * (1 + d[SELECTOR] % 2);
    v[INDEX_THERE] = behind(v[SELECTOR] == 2, f.b(10), f.a(4));
    v[TIMESLICE_THERE] = toggled(in_modes(v, [2, 5]), f.a(5));
    v[BONDS] = bonds(v[BOND] == 1, d[BONDS], f.b(13), f.a(6));
    v[SUPERFRAME_THERE] = toggled(in_modes(v, [4, 5]), f.a(7));
    v[SFFI_THERE] = behind(v[SFFI_SELECTOR] == 1, f.b(18), f.a(8));
    v[PLAN_THERE] = behind(v[PLAN_SELECTOR] == 1, f.b(20), f.a(9));
}

fn bonds(bonded: bool, draw: u32, count: bool, extra: bool) -> u32 {
    if bonded && !count {
        return 1 + draw % 2;
    }
    if !bonded && !extra {
        return 0;
    }
    match draw % 5 {
        0 if bonded => 0,
        0 | 1 => 1,
        2 => 3,
        3 => 255,
        _ => draw / 5 % 256,
    }
}

fn tail_length(case: u32, draw: u32) -> usize {
    let n = if case % 8192 == 8191 {
        65_480 + draw % 80
    } else if case % 256 == 255 {
        4030 + draw % 80
    } else {
        draw % 8
    };
    n as usize
}

pub const RECORDS: u32 = 262_144;
pub fn record(case: u32) -> Written {
    let d = draws(case);
    let faults = Faults(d[44] % 48, d[45] % 96);
    let mut v = [0; COUNT];
    for (k, (bits, width, place)) in FIELDS.iter().enumerate() {
        v[k] = value(d[k], *bits, *width, faults.b(*place));
    }
    set_head(&mut v, &d, &faults);
    set_parts(&mut v, &d, &faults);
    Written {
        values: v,
        tail: tail_length(case, d[42]),
        rule: d[43] % 8,
        spare: d[43] / 8,
    }
}

/// The length of the buffer for a record of a length.
pub fn room(length: usize, rule: u32, spare: u32) -> usize {
    match rule {
        0 => 0,
        1 => length - 1,
        3 => length + 1,
        4 => length + 1 + spare as usize % 16,
        5 => spare as usize % 64,
        _ => length,
    }
}

/// The tail that a record is written with is the start of this.
pub const TAIL: usize = 65_560;
pub fn tail() -> Vec<u8> {
    let mut x = seed(0);
    let mut bytes = vec![0; TAIL];
    for b in &mut bytes {
        x = next(x);
        *b = (x / 16_777_216) as u8;
    }
    bytes
}
