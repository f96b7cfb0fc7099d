//! Lines of text in a lent buffer: a fixed word, whole numbers in decimal, and one line feed.

/// A lent buffer, written from its start up to a place.
pub struct Text<'a> {
    pub out: &'a mut [u8],
    pub at: usize,
}

impl Text<'_> {
    /// Writes a line after what is written already.
    pub fn put_line(&mut self, word: &[u8], numbers: &[i64]) {
        self.put(word);
        for &number in numbers {
            self.put(if number < 0 { b" -" } else { b" " });
            self.put_digits(number.unsigned_abs());
        }
        self.put(b"\n");
    }

    fn put(&mut self, bytes: &[u8]) {
        self.out[self.at..][..bytes.len()].copy_from_slice(bytes);
        self.at += bytes.len();
    }

    /// The digits are made from the last to the first, at the end of an array.
    fn put_digits(&mut self, number: u64) {
        let mut digits = [0; 20];
        let mut start = digits.len();
        let mut left = number;
        loop {
            start -= 1;
            digits[start] = b'0' + (left % 10) as u8;
            left /= 10;
            if left == 0 {
                break;
            }
        }
        self.put(&digits[start..]);
    }
}
