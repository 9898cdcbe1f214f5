//! Memory that a caller lends, and the manner by its number.
//!
//! What the calls ask of their caller is what include/lorukinde.h says: no pointer is null, not even one with the length 0; each
//! points to so many bytes or numbers that are initialised; what a call writes to overlaps nothing else that it is given. So each
//! slice that is made here is sound as long as the call lasts, and none is kept. A `Record` is its 64 bytes, and `Words` are their
//! bytes, of any values and at any address.
use lorukinde::{Manner, Record};
use std::{mem, slice};

/// So many 32-bit words, little-endian.
pub type Words<const N: usize> = [[u8; 4]; N];

/// Bytes that are lent to be read, as so many whole values.
pub unsafe fn lent<'a, T>(first: *const u8, bytes: usize) -> &'a [T] {
    slice::from_raw_parts(first.cast(), bytes / mem::size_of::<T>())
}

/// Bytes that are lent to be written, as so many whole values.
pub unsafe fn lent_mut<'a, T>(first: *mut u8, bytes: usize) -> &'a mut [T] {
    slice::from_raw_parts_mut(first.cast(), bytes / mem::size_of::<T>())
}

/// A lent table's whole records.
pub unsafe fn lent_table<'a>(table: *const u8, table_len: usize) -> &'a [Record] {
    lent(table, table_len)
}

/// Numbers as words; one that a word cannot hold is the greatest.
pub fn to_words<const N: usize>(numbers: [usize; N]) -> Words<N> {
    numbers.map(|number| u32::try_from(number).unwrap_or(u32::MAX).to_le_bytes())
}

/// The sentence's length; it is written where it fits.
pub fn hand_over(sentence: &str, out: &mut [u8]) -> usize {
    if let Some(room) = out.get_mut(..sentence.len()) {
        room.copy_from_slice(sentence.as_bytes());
    }
    sentence.len()
}

/// The manner with this number.
pub fn manner(number: u32) -> Option<Manner> {
    match number {
        1 => Some(Manner::Edition1),
        2 => Some(Manner::Edition2),
        3 => Some(Manner::House),
        _ => None,
    }
}
