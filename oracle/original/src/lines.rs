//! Lines put into a buffer one behind another, for the baseline of ./bench.

pub struct Lines<'a> {
    bytes: &'a mut [u8],
    place: usize,
}

impl<'a> Lines<'a> {
    pub fn new(bytes: &'a mut [u8]) -> Self {
        Self { bytes, place: 0 }
    }

    /// How many bytes were put.
    pub fn len(&self) -> usize {
        self.place
    }

    pub fn text(&mut self, text: &[u8]) -> &mut Self {
        let end = self.place + text.len();
        self.bytes[self.place..end].copy_from_slice(text);
        self.place = end;
        self
    }

    pub fn decimal(&mut self, number: u32) -> &mut Self {
        let (mut digits, mut first, mut left) = ([0; 10], 10, number);
        loop {
            first -= 1;
            digits[first] = b'0' + (left % 10) as u8;
            left /= 10;
            if left == 0 {
                return self.text(&digits[first..]);
            }
        }
    }

    pub fn hex(&mut self, byte: u8) -> &mut Self {
        const DIGITS: &[u8; 16] = b"0123456789ABCDEF";
        self.text(&[DIGITS[usize::from(byte >> 4)], DIGITS[usize::from(byte & 15)]])
    }
}
