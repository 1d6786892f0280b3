//! Texts of at most 24 bytes: keys and values.

/// So many bytes, as three words, the lowest byte first. What is behind the end is 0.
#[derive(Clone, Copy, PartialEq, Eq, Debug)]
pub struct Text {
    pub len: u64,
    pub words: [u64; 3],
}

impl Text {
    pub fn of_bytes(bytes: &[u8]) -> Text {
        let mut held = [0u8; 24];
        held[..bytes.len()].copy_from_slice(bytes);
        let word = |at: usize| u64::from_le_bytes(held[8 * at..8 * at + 8].try_into().unwrap());
        Text {
            len: bytes.len() as u64,
            words: [word(0), word(1), word(2)],
        }
    }

    pub fn of_number(number: u64) -> Text {
        let mut digits = [0u8; 20];
        let (mut at, mut left) = (20, number);
        loop {
            at -= 1;
            digits[at] = b'0' + (left % 10) as u8;
            left /= 10;
            if left == 0 {
                return Text::of_bytes(&digits[at..]);
            }
        }
    }

    /// The text of these words, if they are one's.
    #[inline]
    pub fn of_words(len: u64, words: [u64; 3]) -> Option<Text> {
        if len > 24 {
            return None;
        }
        for (at, word) in words.iter().enumerate() {
            let used = len.saturating_sub(8 * at as u64).min(8);
            if used < 8 && word >> (8 * used) != 0 {
                return None;
            }
        }
        Some(Text { len, words })
    }

    #[inline]
    pub fn byte(&self, at: u64) -> u8 {
        (self.words[at as usize / 8] >> (8 * (at % 8))) as u8
    }

    pub fn bytes(&self) -> Vec<u8> {
        (0..self.len).map(|at| self.byte(at)).collect()
    }
}

/// By bytes, as texts are sorted in a report.
impl Ord for Text {
    fn cmp(&self, other: &Text) -> std::cmp::Ordering {
        let swapped = |text: &Text| text.words.map(u64::swap_bytes);
        (swapped(self), self.len).cmp(&(swapped(other), other.len))
    }
}

impl PartialOrd for Text {
    fn partial_cmp(&self, other: &Text) -> Option<std::cmp::Ordering> {
        Some(self.cmp(other))
    }
}
