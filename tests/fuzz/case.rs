//! The form of a fuzz input: a byte that chooses the lengths of the slices that are written, the
//! byte that work is filled with (the other slice has its complement), the list's length (u16), the
//! length of the block of thresholds (u8), the job, the list, the block.

use crate::draft::Input;

const HEAD: usize = 5;

pub struct Case {
    pub lengths: u8,
    pub fill: u8,
    pub input: Input,
}

impl Case {
    /// Any bytes are a case: those of the head that are missing are 0, a block has at most the bytes
    /// there are, and a list at most those before it.
    pub fn read(bytes: &[u8]) -> Self {
        let head: [u8; HEAD] = std::array::from_fn(|i| bytes.get(i).copied().unwrap_or(0));
        let rest = bytes.get(HEAD..).unwrap_or(&[]);
        let (rest, thresholds) = cut(rest, head[4].into());
        let (job, list) = cut(rest, u16::from_le_bytes([head[2], head[3]]).into());
        let [job, list, thresholds] = [job, list, thresholds].map(<[u8]>::to_vec);
        let input = Input { job, list, thresholds };
        Self { lengths: head[0], fill: head[1], input }
    }

    pub fn bytes(&self) -> Vec<u8> {
        let Input { job, list, thresholds } = &self.input;
        let [low, high] = (list.len() as u16).to_le_bytes();
        let head = [self.lengths, self.fill, low, high, thresholds.len() as u8];
        [&head[..], job, list, thresholds].concat()
    }
}

/// What comes before the last `count` bytes, as far as there are so many, and those.
fn cut(bytes: &[u8], count: usize) -> (&[u8], &[u8]) {
    bytes.split_at(bytes.len().saturating_sub(count))
}
