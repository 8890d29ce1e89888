//! The text of answers, a line each.

use super::run::Answer;
use super::BLOCK_ROWS;

const LONGEST_LINE: usize = b"0 0x0123456789abcdef\n".len();

/// A line whose value has one digit, here the fifth byte, in the first six bytes of a word.
const SHORT_LINE: [u8; 8] = *b"0 0x0\n\0\0";

/// The lines of one block's rows.
pub struct Answers {
    room: [u8; BLOCK_ROWS * LONGEST_LINE + SHORT_LINE.len()],
    length: usize,
}

impl Answers {
    pub fn none() -> Answers {
        Answers {
            room: [0; BLOCK_ROWS * LONGEST_LINE + SHORT_LINE.len()],
            length: 0,
        }
    }

    pub fn text(&self) -> &[u8] {
        &self.room[..self.length]
    }

    pub fn clear(&mut self) {
        self.length = 0;
    }

    /// Most values have one digit. Such a line is put as a word, the end of which the next line
    /// overwrites.
    #[inline(always)]
    pub fn put(&mut self, answer: Answer) {
        if answer.value < 10 {
            let line =
                u64::from_le_bytes(SHORT_LINE) + u64::from(answer.number) + (answer.value << 32);
            self.room[self.length..][..8].copy_from_slice(&line.to_le_bytes());
            self.length += 6;
        } else {
            self.put_long(answer);
        }
    }

    #[inline(never)]
    fn put_long(&mut self, answer: Answer) {
        self.put_bytes(&[b'0' + answer.number, b' ', b'0', b'x']);
        let digits = (u64::BITS - answer.value.leading_zeros()).div_ceil(4);
        for place in (0..digits).rev() {
            self.put_bytes(&[digit(answer.value >> (4 * place))]);
        }
        self.put_bytes(b"\n");
    }

    fn put_bytes(&mut self, bytes: &[u8]) {
        self.room[self.length..][..bytes.len()].copy_from_slice(bytes);
        self.length += bytes.len();
    }
}

/// The hex digit of the low four bits.
fn digit(bits: u64) -> u8 {
    b"0123456789abcdef"[(bits % 16) as usize]
}
