//! Texts of words and numbers, and numbers of texts, without the formatter of the standard library.

/// The numbers 0 to 99, two digits each.
static PAIRS: [[u8; 2]; 100] = {
    let mut pairs = [[0; 2]; 100];
    let mut i = 0;
    while i < 100 {
        pairs[i] = [b'0' + (i / 10) as u8, b'0' + (i % 10) as u8];
        i += 1;
    }
    pairs
};

pub struct Text(Vec<u8>);

impl Text {
    pub fn with_capacity(bytes: usize) -> Text {
        Text(Vec::with_capacity(bytes))
    }

    pub fn word(&mut self, word: &str) {
        self.0.extend_from_slice(word.as_bytes());
    }

    fn byte(&mut self, byte: u8) {
        self.0.push(byte);
    }

    pub fn number(&mut self, number: u64) {
        if number < 10 {
            return self.byte(b'0' + number as u8);
        }
        let mut digits = [0u8; 20];
        let mut at = digits.len();
        let mut rest = number;
        while rest >= 10 {
            at -= 2;
            digits[at..at + 2].copy_from_slice(&PAIRS[(rest % 100) as usize]);
            rest /= 100;
        }
        if rest > 0 {
            at -= 1;
            digits[at] = b'0' + rest as u8;
        }
        self.0.extend_from_slice(&digits[at..]);
    }

    /// A word and a number, with which a line starts.
    pub fn start(&mut self, word: &str, number: u64) {
        self.word(word);
        self.byte(b' ');
        self.number(number);
    }

    /// A line of a word and numbers.
    pub fn line(&mut self, word: &str, numbers: &[u64]) {
        self.word(word);
        for number in numbers {
            self.byte(b' ');
            self.number(*number);
        }
        self.byte(b'\n');
    }

    pub fn into_bytes(self) -> Vec<u8> {
        self.0
    }
}

/// Reads digits up to a line's end; the rest begins after it.
pub fn number_line(bytes: &[u8]) -> Option<(u64, &[u8])> {
    let mut number = 0u64;
    for (i, byte) in bytes.iter().enumerate() {
        match byte {
            b'0'..=b'9' => number = number.checked_mul(10)?.checked_add(u64::from(byte - b'0'))?,
            b'\n' if i > 0 => return Some((number, &bytes[i + 1..])),
            _ => return None,
        }
    }
    None
}
