//! Fields of bits, laid and taken one bit at a time, as plainly as can be.

#[derive(Default)]
pub struct Bits {
    pub bytes: Vec<u8>,
    used: usize,
}

impl Bits {
    pub fn put(&mut self, width: usize, value: usize) {
        for place in (0..width).rev() {
            if self.used.is_multiple_of(8) {
                self.bytes.push(0);
            }
            let bit = (value >> place & 1) as u8;
            self.bytes[self.used / 8] |= bit << (7 - self.used % 8);
            self.used += 1;
        }
    }
}

/// The field of `width` bits from bit `from` on, if the bytes hold it.
pub fn field(bytes: &[u8], from: usize, width: usize) -> Option<usize> {
    (from..from + width).try_fold(0, |value, bit| {
        let byte = bytes.get(bit / 8)?;
        Some(value << 1 | usize::from(byte >> (7 - bit % 8) & 1))
    })
}
