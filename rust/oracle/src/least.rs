//! The last number of answer 1, from docs/ANSWERS.md alone: the crate has no such number.

/// How long the whole of a body is at the least, by what is there of it: 18 until the core is there, then what it asks for, with one id
/// until the bond header says two, and with 8 bytes of superframe until those are there and say 12.
pub fn least_total(body: &[u8]) -> usize {
    if body.len() < 18 {
        return 18;
    }
    let mode = body[4] >> 4;
    let mut total = 18;
    if body[4] & 0x08 != 0 {
        total += 1;
    }
    if (mode == 1 || mode == 2) && body[6] & 0x80 != 0 {
        total += 3;
    }
    if mode == 2 || mode == 5 {
        total += 1;
    }
    if body[5] & 0x0C == 0x04 {
        let two = body.len() > total && body[total] & 0x01 != 0;
        total += if two { 9 } else { 5 };
    }
    if mode == 4 || mode == 5 {
        let hops = body.len() >= total + 8 && body[total + 1] & 0x40 != 0;
        total += if hops { 12 } else { 8 };
    }
    total
}
