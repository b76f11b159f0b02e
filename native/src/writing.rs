//! Writes an answer to the front of a buffer.

pub struct Writer<'a> {
    buffer: &'a mut [u8],
    at: usize,
}

impl<'a> Writer<'a> {
    pub fn new(buffer: &'a mut [u8]) -> Writer<'a> {
        Writer { buffer, at: 0 }
    }

    /// How many bytes were written.
    pub fn written(&self) -> usize {
        self.at
    }

    pub fn text(&mut self, text: &[u8]) {
        let end = self.at + text.len();
        self.buffer[self.at..end].copy_from_slice(text);
        self.at = end;
    }

    pub fn number(&mut self, mut number: u32) {
        let digits = number.checked_ilog10().unwrap_or(0) as usize + 1;
        let end = self.at + digits;
        for digit in self.buffer[self.at..end].iter_mut().rev() {
            *digit = b'0' + (number % 10) as u8;
            number /= 10;
        }
        self.at = end;
    }

    /// A space, and the number.
    pub fn field(&mut self, number: u32) {
        self.text(b" ");
        self.number(number);
    }
}
