//! Writing items into a buffer.

use std::ops::Range;

pub struct Writer<'a> {
    bytes: &'a mut [u8],
    pub at: usize,
}

impl<'a> Writer<'a> {
    pub fn new(bytes: &'a mut [u8]) -> Writer<'a> {
        Writer { bytes, at: 0 }
    }

    #[inline]
    pub fn put<const K: usize>(&mut self, item: [u8; K]) {
        self.bytes[self.at..self.at + K].copy_from_slice(&item);
        self.at += K;
    }

    /// An item for each member of a set.
    #[inline]
    pub fn items<const K: usize>(&mut self, mut set: u64, item: impl Fn(u8) -> [u8; K]) {
        while set != 0 {
            self.put(item(set.trailing_zeros() as u8));
            set &= set - 1;
        }
    }

    /// Bytes written before, once more.
    pub fn again(&mut self, range: Range<usize>) {
        let length = range.len();
        self.bytes.copy_within(range, self.at);
        self.at += length;
    }
}
