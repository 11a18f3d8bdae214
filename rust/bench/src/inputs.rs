//! The bodies that every row reads and writes, from their numbers alone.

pub const COUNT: usize = 1000;

/// Which bodies: all kinds, those without ids, those without a tail, or all kinds and each cut; of mode 1 without a part behind the core, or of
/// mode 5 with every part, both without a tail; or those that have the core alone, with no tail or with one of so many bytes.
#[derive(Clone, Copy, PartialEq)]
pub enum Set {
    Mixed,
    NoIds,
    NoTail,
    Cut,
    Mode1,
    Mode5,
    Core,
    Tail(usize),
}

impl Set {
    /// Those that have a row.
    pub const ROWS: [(&'static str, Set); 11] = [
        ("mixed", Set::Mixed),
        ("no-ids", Set::NoIds),
        ("no-tail", Set::NoTail),
        ("cut", Set::Cut),
        ("mode-1", Set::Mode1),
        ("mode-5", Set::Mode5),
        ("tail-0", Set::Tail(0)),
        ("tail-31", Set::Tail(31)),
        ("tail-64", Set::Tail(64)),
        ("tail-1024", Set::Tail(1024)),
        ("tail-4078", Set::Tail(4078)),
    ];

    pub fn named(name: &str) -> Option<Set> {
        Set::ROWS.iter().find(|row| row.0 == name).map(|row| row.1)
    }
}

/// A generator of numbers, of which the high bits are used.
struct Draws(u64);

impl Draws {
    fn below(&mut self, bound: u32) -> u32 {
        self.0 = self
            .0
            .wrapping_mul(6_364_136_223_846_793_005)
            .wrapping_add(1_442_695_040_888_963_407);
        ((self.0 >> 33) % u64::from(bound)) as u32
    }

    /// A number of so many bits that is not 0.
    fn some(&mut self, bits: u32) -> u32 {
        1 + self.below(((1u64 << bits) - 1).min(0x7FFF_FFFF) as u32)
    }

    fn bytes(&mut self, count: usize, body: &mut Vec<u8>) {
        body.extend((0..count).map(|_| self.some(8) as u8));
    }
}

/// What a body's first bytes say of the parts behind them.
struct Shape {
    mode: u32,
    stream: u32,
    bond: u32,
    selector: u32,
}

/// Every mode comes up, and the four that ask for more parts in half of the draws besides.
fn mode(d: &mut Draws) -> u32 {
    let m = d.below(32);
    if m < 16 {
        m
    } else {
        [1, 2, 4, 5][m as usize % 4]
    }
}

fn shape(d: &mut Draws, set: Set) -> Shape {
    let drawn = Shape {
        mode: mode(d),
        stream: d.below(2),
        bond: d.below(4),
        selector: d.below(2),
    };
    match set {
        Set::NoIds if drawn.bond == 1 => Shape { bond: 0, ..drawn },
        Set::Mode1 => Shape {
            mode: 1,
            stream: 0,
            bond: drawn.bond & 2,
            selector: 0,
        },
        Set::Mode5 => Shape {
            mode: 5,
            stream: 1,
            bond: 1,
            ..drawn
        },
        Set::Core | Set::Tail(_) => Shape {
            mode: 6 + drawn.mode % 10,
            stream: 0,
            bond: drawn.bond & 2,
            ..drawn
        },
        _ => drawn,
    }
}

fn core(d: &mut Draws, s: &Shape) -> Vec<u8> {
    let mut body = vec![];
    d.bytes(4, &mut body);
    body.push((s.mode * 16 + s.stream * 8 + d.some(3)) as u8);
    body.push((d.some(2) * 64 + d.below(4) * 16 + s.bond * 4 + d.some(2)) as u8);
    body.push((s.selector * 128 + d.some(2) * 32 + d.some(5)) as u8);
    d.bytes(11, &mut body);
    body
}

/// The superframe block, with either selector set or clear, or both set.
fn superframe(d: &mut Draws, set: Set, body: &mut Vec<u8>) {
    let all = u32::from(set == Set::Mode5);
    let plan = d.below(2) | all;
    d.bytes(1, body);
    body.push(((d.below(2) | all) * 128 + plan * 64 + d.some(2) * 16 + d.some(4)) as u8);
    d.bytes(2, body);
    body.push((d.some(4) * 16 + d.some(4)) as u8);
    d.bytes(2 + 4 * plan as usize, body);
    body.push((d.some(5) * 8 + d.some(3)) as u8);
}

/// A body without its tail.
fn parts(d: &mut Draws, set: Set) -> Vec<u8> {
    let s = shape(d, set);
    let mut body = core(d, &s);
    d.bytes(s.stream as usize, &mut body);
    if [1, 2].contains(&s.mode) && s.selector == 1 {
        body.push((d.some(6) * 4 + d.below(4)) as u8);
        d.bytes(2, &mut body);
    }
    d.bytes([2, 5].contains(&s.mode).into(), &mut body);
    if s.bond == 1 {
        let second = d.below(2) | u32::from(set == Set::Mode5);
        body.push((d.some(7) * 2 + second) as u8);
        d.bytes(4 + 4 * second as usize, &mut body);
    }
    if [4, 5].contains(&s.mode) {
        superframe(d, set, &mut body);
    }
    body
}

/// A body, and the place before the end of its parts at which it is cut, if it is one that is.
pub struct Body {
    pub bytes: Vec<u8>,
    cut: Option<usize>,
}

impl Body {
    /// What is lent to a reader.
    pub fn lent(&self) -> &[u8] {
        &self.bytes[..self.cut.unwrap_or(self.bytes.len())]
    }
}

fn body(number: usize, set: Set) -> Body {
    let mut d = Draws(number as u64 + 1);
    for _ in 0..4 {
        d.below(1);
    }
    let mut bytes = parts(&mut d, set);
    let place = d.below(bytes.len() as u32) as usize;
    let tail = match set {
        Set::Mixed | Set::NoIds | Set::Cut => d.below(9) as usize,
        Set::Tail(length) => length,
        _ => 0,
    };
    d.bytes(tail, &mut bytes);
    let cut = match set {
        Set::Mixed | Set::NoIds | Set::NoTail => number % 8 == 7,
        other => other == Set::Cut,
    };
    Body {
        bytes,
        cut: cut.then_some(place),
    }
}

pub fn bodies(set: Set) -> Vec<Body> {
    (0..COUNT).map(|number| body(number, set)).collect()
}
