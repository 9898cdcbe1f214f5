//! A record of the table.
use std::fmt;

/// A record: 16 words of 32 bits, signed, kept as the 64 little-endian bytes that the library writes, so that the words are
/// right whatever the byte order of the machine. [`Record::placed`] says what they mean.
#[derive(Clone, Copy, PartialEq, Eq, Hash)]
#[repr(transparent)]
pub struct Record([u8; 64]);

impl Record {
    /// The record whose words are all 0: no reading writes it, so it stands for room not yet used.
    pub const EMPTY: Record = Record([0; 64]);

    pub fn from_words(words: [i32; 16]) -> Record {
        let mut bytes = [0; 64];
        for (four, word) in bytes.chunks_exact_mut(4).zip(words) {
            four.copy_from_slice(&word.to_le_bytes());
        }
        Record(bytes)
    }

    pub fn words(&self) -> [i32; 16] {
        let mut words = [0; 16];
        for (word, four) in words.iter_mut().zip(self.0.chunks_exact(4)) {
            *word = i32::from_le_bytes([four[0], four[1], four[2], four[3]]);
        }
        words
    }
}

impl Default for Record {
    fn default() -> Record {
        Record::EMPTY
    }
}

impl fmt::Debug for Record {
    fn fmt(&self, f: &mut fmt::Formatter<'_>) -> fmt::Result {
        f.debug_tuple("Record").field(&self.words()).finish()
    }
}
