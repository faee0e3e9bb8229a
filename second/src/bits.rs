//! Fields of bits, most significant first.

/// Takes fields from the front of a byte string.
pub struct Reader<'a> {
    bytes: &'a [u8],
    at: usize,
    word: u64,
    held: u32,
}

impl<'a> Reader<'a> {
    pub fn new(bytes: &'a [u8]) -> Self {
        Reader {
            bytes,
            at: 0,
            word: 0,
            held: 0,
        }
    }

    /// The next field of 1 to 32 bits, or nothing if the bits run out.
    #[inline]
    pub fn take(&mut self, width: u32) -> Option<u32> {
        if self.held < width {
            self.refill();
            if self.held < width {
                return None;
            }
        }
        let field = (self.word >> (64 - width)) as u32;
        self.word <<= width;
        self.held -= width;
        Some(field)
    }

    /// A bit, and the 8 bits behind it if it is 1. Nothing if bits run out.
    /// Which of the two comes is hard to foresee, so no branch hangs on it.
    #[inline]
    pub fn take_marked(&mut self) -> Option<Option<u8>> {
        if self.held < 9 {
            self.refill();
        }
        let mark = (self.word >> 63) as u32;
        let width = 1 + 8 * mark;
        if self.held < width {
            return None;
        }
        let number = (self.word >> 55) as u8;
        self.word <<= width;
        self.held -= width;
        Some((mark == 1).then_some(number))
    }

    #[inline]
    fn refill(&mut self) {
        if let Some(chunk) = self.bytes[self.at..].first_chunk::<8>() {
            // Bits of a byte that does not fit whole are laid down too, but
            // not counted: the next refill lays the same bits again.
            self.word |= u64::from_be_bytes(*chunk) >> self.held;
            self.at += (63 - self.held as usize) / 8;
            self.held |= 56;
        } else {
            while self.held <= 56 && self.at < self.bytes.len() {
                self.word |= u64::from(self.bytes[self.at]) << (56 - self.held);
                self.at += 1;
                self.held += 8;
            }
        }
    }

    /// Whether only zero bits, and fewer than eight of them, are left.
    pub fn at_clean_end(&self) -> bool {
        let used = self.at * 8 - self.held as usize;
        let rest = self.bytes.len() * 8 - used;
        rest < 8 && self.bytes.last().map_or(0, |last| last & ((1 << rest) - 1)) == 0
    }
}

/// Puts fields at the front of a byte buffer that is long enough.
pub struct Writer<'a> {
    bytes: &'a mut [u8],
    at: usize,
    word: u64,
    held: u32,
}

impl<'a> Writer<'a> {
    pub fn new(bytes: &'a mut [u8]) -> Self {
        Writer {
            bytes,
            at: 0,
            word: 0,
            held: 0,
        }
    }

    /// Puts a value of 1 to 32 bits.
    #[inline]
    pub fn put(&mut self, width: u32, value: u32) {
        self.word = self.word << width | u64::from(value);
        self.held += width;
        if self.held >= 32 {
            self.held -= 32;
            let whole = (self.word >> self.held) as u32;
            self.bytes[self.at..self.at + 4].copy_from_slice(&whole.to_be_bytes());
            self.at += 4;
        }
    }

    /// Puts what `take_marked` takes.
    #[inline]
    pub fn put_marked(&mut self, number: Option<u8>) {
        let mark = u32::from(number.is_some());
        let value = mark << 8 | u32::from(number.unwrap_or(0));
        self.put(1 + 8 * mark, value);
    }

    /// Fills the last byte with zero bits.
    pub fn finish(self) {
        if self.held > 0 {
            let last = (self.word << (32 - self.held)) as u32;
            let count = self.held.div_ceil(8) as usize;
            self.bytes[self.at..self.at + count].copy_from_slice(&last.to_be_bytes()[..count]);
        }
    }
}

#[cfg(test)]
mod tests {
    use super::*;

    #[test]
    fn fields_come_back() {
        let fields: Vec<(u32, u32)> = (0..400u32)
            .map(|k| {
                let width = k * 7 % 32 + 1;
                let mask = u32::MAX >> (32 - width);
                (width, k.wrapping_mul(0x9E37_79B9) & mask)
            })
            .collect();
        for count in 0..fields.len() {
            let used: u32 = fields[..count].iter().map(|f| f.0).sum();
            let mut bytes = vec![0xFF; used.div_ceil(8) as usize];
            let mut writer = Writer::new(&mut bytes);
            for &(width, value) in &fields[..count] {
                writer.put(width, value);
            }
            writer.finish();
            let mut reader = Reader::new(&bytes);
            for &(width, value) in &fields[..count] {
                assert_eq!(reader.take(width), Some(value));
            }
            assert!(reader.at_clean_end());
            assert_eq!(reader.take(8), None);
        }
    }

    #[test]
    fn marked_numbers_come_back() {
        let numbers = [
            None,
            Some(0),
            Some(255),
            None,
            None,
            Some(129),
            Some(1),
            None,
        ];
        for count in 0..=numbers.len() {
            let width = |n: &Option<u8>| if n.is_some() { 9 } else { 1 };
            let used: usize = numbers[..count].iter().map(width).sum();
            let mut bytes = vec![0xFF; used.div_ceil(8)];
            let mut writer = Writer::new(&mut bytes);
            numbers[..count].iter().for_each(|&n| writer.put_marked(n));
            writer.finish();
            let mut reader = Reader::new(&bytes);
            for &number in &numbers[..count] {
                assert_eq!(reader.take_marked(), Some(number));
            }
            assert!(reader.at_clean_end());
        }
        assert_eq!(Reader::new(&[]).take_marked(), None);
        assert_eq!(Reader::new(&[0x80]).take_marked(), None);
        assert_eq!(Reader::new(&[0x80, 0x80]).take_marked(), Some(Some(1)));
    }

    #[test]
    fn ends_are_seen() {
        for (bytes, width, clean) in [
            (&[0x80][..], 1, true),
            (&[0x81], 1, false),
            (&[0xFF], 8, true),
            (&[0xFF, 0], 8, false),
            (&[0xFF, 0], 9, true),
            (&[0xFF, 1], 15, false),
        ] {
            let mut reader = Reader::new(bytes);
            assert!(reader.take(width).is_some());
            assert_eq!(reader.at_clean_end(), clean);
        }
        assert!(Reader::new(&[]).at_clean_end());
    }
}
