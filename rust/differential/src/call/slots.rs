//! What walks and allocations of a block are given.

use super::Bytes;
use std::borrow::Cow;
use zelamodurk::alloc::{Bin, Pointers, Tables, BINS};
use zelamodurk::blocks::{Slot, Slots, State, SLOTS};
use zelamodurk::exponents::ExpSet;
use zelamodurk::syntax::Place;

/// A walk over the bins from `start` to `end`.
#[derive(Clone, PartialEq, Eq)]
#[allow(missing_docs)]
pub struct Walk<'a> {
    pub frame: Bytes<'a>,
    pub place: Place,
    pub codes: [u8; BINS],
    pub start: usize,
    pub end: usize,
}

/// A slot of a block.
#[derive(Clone, PartialEq, Eq)]
#[allow(missing_docs)]
pub struct Asking {
    pub set: ExpSet,
    pub start: usize,
    pub end: usize,
    pub pointers: Pointers,
}

/// A block and the tables that are lent.
#[derive(Clone, PartialEq, Eq)]
#[allow(missing_docs)]
pub struct Block<'a> {
    pub state: State,
    pub fscod: u8,
    pub slots: [Option<Asking>; SLOTS],
    pub hearing: Cow<'a, [u16]>,
    pub log_add: Bytes<'a>,
}

impl Block<'_> {
    /// The slots.
    pub fn slots(&self) -> Slots {
        let mut slots = Slots::NONE;
        for (n, asking) in self.slots.iter().enumerate() {
            if let Some(asking) = asking {
                let slot = Slot {
                    covered: (asking.set.start, asking.set.end),
                    start: Bin(asking.start),
                    end: Bin(asking.end),
                    pointers: asking.pointers,
                };
                let _ = slots.ask(n, &slot, asking.set.exp);
            }
        }
        slots
    }

    /// The tables.
    pub fn tables(&self) -> Tables<'_> {
        Tables {
            hearing: &self.hearing,
            log_add: &self.log_add,
        }
    }
}
