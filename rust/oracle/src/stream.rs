//! What both sides say of a case: a row of numbers, folded into a digest.

/// A prime, so that two values that differ anywhere leave two digests that differ there.
const MODULUS: u64 = 4_294_967_291;

#[derive(Default)]
pub struct Stream {
    pub digest: u32,
    /// The numbers by name, where they are to be shown.
    pub shown: Option<Vec<(String, u32)>>,
}

impl Stream {
    pub fn put(&mut self, name: &str, value: u32) {
        self.digest = ((u64::from(self.digest) * 65_599 + u64::from(value) + 1) % MODULUS) as u32;
        if let Some(rows) = &mut self.shown {
            rows.push((name.to_string(), value));
        }
    }

    pub fn put_all(&mut self, name: &str, values: &[u32]) {
        for value in values {
            self.put(name, *value);
        }
    }

    pub fn put_bytes(&mut self, name: &str, bytes: &[u8]) {
        for byte in bytes {
            self.put(name, (*byte).into());
        }
    }
}
