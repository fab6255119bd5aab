//! What an allocation is given.

use super::Bytes;
use std::borrow::Cow;
use zelamodurk::alloc::{Bin, Channel, Codes, Pointers, Segment, Tables, BINS};

/// A channel and the tables that are lent.
#[derive(Clone, PartialEq, Eq)]
#[allow(missing_docs)]
pub struct Allocation<'a> {
    pub exponents: [u8; BINS],
    pub start: usize,
    pub end: usize,
    pub codes: Codes,
    pub leak: Option<(u8, u8)>,
    pub delta: Vec<Segment>,
    pub pointers: Pointers,
    pub hearing: Cow<'a, [u16]>,
    pub log_add: Bytes<'a>,
}

impl Allocation<'_> {
    /// The channel.
    pub fn channel(&self) -> Channel<'_> {
        Channel {
            exponents: &self.exponents,
            start: Bin(self.start),
            end: Bin(self.end),
            codes: self.codes,
            leak: self.leak,
            delta: &self.delta,
            pointers: self.pointers,
        }
    }

    /// The tables.
    pub fn tables(&self) -> Tables<'_> {
        Tables {
            hearing: &self.hearing,
            log_add: &self.log_add,
        }
    }
}
