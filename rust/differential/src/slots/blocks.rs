//! Allocations of blocks: all slots with codes, segments and ranges as frames have them and any others, blocks
//! with no SNR offset in use, and everything that is refused, alone and together.

use super::deltas::any_state;
use crate::call::{Asking, Block, Call};
use crate::cases::HUGE;
use crate::random::Random;
use crate::rule::channel::{LARGEST, LARGEST_LEAK, LARGEST_SEGMENT};
use crate::rust;
use std::array::from_fn;
use zelamodurk::alloc::{Bin, Delta, Pointers, BINS, SEGMENTS};
use zelamodurk::blocks::{State, SLOTS};
use zelamodurk::exponents::{ExpSet, CPL, LFE};

/// How many random blocks there are of each kind.
const TAKEN: usize = 14_000;
const SILENT: usize = 2_000;
const TOGETHER: usize = 8_000;

/// The end of the last band.
const END: usize = 253;

/// Hands every case to `visit`.
pub fn all(visit: &mut impl FnMut(&Call)) {
    let tables = rust::tables();
    let mut blocks = Blocks {
        random: Random::new(34),
        tables: &tables,
    };
    for _ in 0..TAKEN {
        visit(&Call::allocate_block(blocks.any()));
    }
    for _ in 0..SILENT {
        visit(&Call::allocate_block(blocks.silent()));
    }
    blocks.spoiled(visit);
    blocks.past_the_bins(visit);
}

/// Random blocks, with the Rust's tables.
struct Blocks<'a> {
    random: Random,
    tables: &'a (Vec<u16>, Vec<u8>),
}

impl<'a> Blocks<'a> {
    fn bytes<const N: usize>(&mut self, most: u8) -> [u8; N] {
        from_fn(|_| self.random.byte(most))
    }

    /// A block that is taken.
    fn any(&mut self) -> Block<'a> {
        let absent = self.random.one(&[0, 1, 3]);
        let slots = from_fn(|n| {
            let there = self.random.to(3) >= absent;
            there.then(|| self.asking(n))
        });
        Block {
            state: self.state(),
            fscod: self.random.byte(2),
            slots,
            hearing: self.tables.0.as_slice().into(),
            log_add: self.tables.1.as_slice().into(),
        }
    }

    /// Everything sent, no code past its table.
    fn state(&mut self) -> State {
        let [sdcycod, fdcycod, sgaincod, dbpbcod, floorcod, fgaincod, csnroffst, fsnroffst, _] =
            LARGEST;
        let coarse = self.random.one(&[csnroffst, 30]);
        State {
            bai_sent: true,
            sdcycod: self.random.byte(sdcycod),
            fdcycod: self.random.byte(fdcycod),
            sgaincod: self.random.byte(sgaincod),
            dbpbcod: self.random.byte(dbpbcod),
            floorcod: self.random.byte(floorcod),
            csnroffst_sent: true,
            csnroffst: self.random.byte(coarse),
            fsnroffst: self.bytes(fsnroffst),
            fgaincod: self.bytes(fgaincod),
            cplleak_sent: true,
            cplfleak: self.random.byte(LARGEST_LEAK),
            cplsleak: self.random.byte(LARGEST_LEAK),
            delta: from_fn(|_| self.delta()),
        }
    }

    /// Segments; what stands after them is any byte.
    fn delta(&mut self) -> Delta {
        let [offset, len, ba] = LARGEST_SEGMENT;
        let some = self.random.to(SEGMENTS);
        let count = self.random.one(&[0, 0, 1, some]);
        let near = self.random.one(&[4, offset]);
        let mut delta = Delta {
            count: count as u8,
            offset: self.bytes(near),
            len: self.bytes(len),
            ba: self.bytes(ba),
        };
        for row in [&mut delta.offset, &mut delta.len, &mut delta.ba] {
            row[count..].fill(255);
        }
        delta
    }

    /// A slot with a range as it has it, or any other, and exponents that cover it.
    fn asking(&mut self, slot: usize) -> Asking {
        let (start, end) = self.range(slot);
        let set = ExpSet {
            exp: self.exponents(start, end),
            start: Bin(self.random.one(&[0, start])),
            end: Bin(self.random.one(&[end, BINS])),
        };
        Asking {
            set,
            start,
            end,
            pointers: self.random.one(&[Pointers::Bap, Pointers::Hebap]),
        }
    }

    fn range(&mut self, slot: usize) -> (usize, usize) {
        if self.random.to(7) == 0 {
            let start = self.random.to(END);
            return (start, start + self.random.to(END - start));
        }
        if slot == usize::from(LFE) {
            return (0, 7);
        }
        if slot == usize::from(CPL) {
            let first = self.random.to(17);
            let count = 1 + self.random.to(17 - first);
            return (37 + 12 * first, 37 + 12 * (first + count));
        }
        let end = 1 + self.random.to(END - 1);
        (0, self.random.one(&[END, end]))
    }

    /// Exponents in steps to 2, and above 24 beside the range.
    fn exponents(&mut self, start: usize, end: usize) -> [u8; BINS] {
        let mut exponent = self.random.byte(24);
        from_fn(|bin| {
            if !(start..end).contains(&bin) {
                return 255;
            }
            exponent = (exponent + self.random.byte(4)).saturating_sub(2).min(24);
            exponent
        })
    }

    /// No SNR offset in use: slots that are not there may have one. Ranges are covered or not, exponents any.
    fn silent(&mut self) -> Block<'a> {
        let mut given = self.any();
        given.state.csnroffst = 0;
        for (n, slot) in given.slots.iter_mut().enumerate() {
            if let Some(asking) = slot {
                given.state.fsnroffst[n] = 0;
                asking.set.exp = from_fn(|_| self.random.bits() as u8);
                asking.set.start = Bin(self.random.to(300));
                asking.end = self.random.one(&[asking.end, 300, usize::MAX]);
            }
        }
        // One offset makes the difference.
        if self.random.to(3) == 0 {
            let slot = self.random.to(SLOTS - 1);
            given.state.fsnroffst[slot] = 1 + self.random.byte(14);
        }
        given
    }

    /// Ranges far past the bins: empty ones, covered and not, and others.
    fn past_the_bins(&mut self, visit: &mut impl FnMut(&Call)) {
        for start in HUGE.into_iter().chain([254, 255, 256, 257]) {
            for end in [0, 1, 253, 254, 256, 257, usize::MAX] {
                for covered in [BINS, usize::MAX] {
                    let mut given = self.any();
                    let slot = self.random.to(SLOTS - 1);
                    let mut asking = self.asking(slot);
                    (asking.start, asking.end) = (start, end);
                    (asking.set.start, asking.set.end) = (Bin(0), Bin(covered));
                    given.slots[slot] = Some(asking);
                    visit(&Call::allocate_block(given));
                }
            }
        }
    }

    /// Everything that is refused: each alone, each two, and random threes. Of several the first in document
    /// 01's order is given, and of slots the first.
    fn spoiled(&mut self, visit: &mut impl FnMut(&Call)) {
        for (n, one) in SPOILS.into_iter().enumerate() {
            for other in &SPOILS[..=n] {
                visit(&self.spoil(&[one, *other]));
                visit(&self.spoil(&[*other, one]));
            }
        }
        for turn in 0..TOGETHER {
            // In half of them nothing that is tested before the slots.
            let of = if turn % 2 == 0 {
                &SPOILS
            } else {
                &SPOILS[LATE..]
            };
            let some = [0; 3].map(|_| self.random.one(of));
            let count = 1 + self.random.to(2);
            visit(&self.spoil(&some[..count]));
        }
    }

    fn spoil(&mut self, spoils: &[Spoil]) -> Call<'a> {
        let mut given = self.any();
        for spoil in spoils {
            spoil(&mut given, &mut self.random);
        }
        Call::allocate_block(given)
    }
}

/// What makes a block unfit, or lies beside it.
type Spoil = fn(&mut Block, &mut Random);

/// Changes one of the slots that are there.
fn one_slot(given: &mut Block, random: &mut Random, change: fn(&mut Asking, &mut Random)) {
    let n = random.to(SLOTS - 1);
    if let Some(asking) = &mut given.slots[n] {
        change(asking, random);
    }
}

/// Has a segment with one number past its table, the last of those there are, or one after them, which is not
/// looked at.
fn segment_past(given: &mut Block, random: &mut Random, row: usize) {
    let delta = &mut given.state.delta[random.to(SLOTS - 1)];
    delta.count = delta.count.max(1);
    let at = usize::from(delta.count) - random.to(1).min(SEGMENTS - usize::from(delta.count));
    let rows = [&mut delta.offset, &mut delta.len, &mut delta.ba];
    rows[row % 3][at.min(SEGMENTS - 1)] = LARGEST_SEGMENT[row % 3] + 1;
}

/// Where those begin that are tested with the slots.
const LATE: usize = 25;
const SPOILS: [Spoil; 36] = [
    |given, _| given.hearing.to_mut().truncate(149),
    |given, _| given.hearing.to_mut().resize(151, 0),
    |given, _| given.hearing.to_mut().fill(4096),
    |given, _| given.log_add.to_mut().truncate(255),
    |given, _| given.log_add.to_mut().resize(257, 0),
    |given, _| given.log_add.to_mut().fill(65),
    |given, _| given.state.sdcycod = 4,
    |given, _| given.state.fdcycod = 4,
    |given, _| given.state.sgaincod = 4,
    |given, _| given.state.dbpbcod = 4,
    |given, _| given.state.floorcod = 8,
    |given, _| given.state.csnroffst = 64,
    |given, random| given.state.fsnroffst[random.to(6)] = 16,
    |given, random| given.state.fgaincod[random.to(6)] = 8,
    |given, _| given.state.cplfleak = 8,
    |given, _| given.state.cplsleak = 8,
    |given, _| given.fscod = 3,
    |given, random| given.state = any_state(random),
    |given, random| segment_past(given, random, 0),
    |given, random| segment_past(given, random, 1),
    |given, random| segment_past(given, random, 2),
    |given, random| given.state.delta[random.to(6)].count = 9,
    |given, random| given.state.delta[random.to(6)].count = 255,
    |given, _| given.state.bai_sent = false,
    |given, _| given.state.csnroffst_sent = false,
    |given, _| given.state.cplleak_sent = false,
    |given, _| given.state.csnroffst = 0,
    |given, _| given.state.fsnroffst = [0; SLOTS],
    |given, _| given.slots = from_fn(|_| None),
    |given, random| {
        one_slot(given, random, |asking, _| {
            asking.set.start = Bin(asking.start + 1)
        })
    },
    |given, random| {
        one_slot(given, random, |asking, _| {
            asking.set.end = Bin(asking.end.saturating_sub(1))
        })
    },
    |given, random| {
        one_slot(given, random, |asking, random| {
            (asking.end, asking.set.end) = (254 + random.to(3), Bin(usize::MAX))
        })
    },
    |given, random| {
        one_slot(given, random, |asking, random| {
            (asking.end, asking.set.end) = (random.one(&HUGE), Bin(usize::MAX))
        })
    },
    |given, random| {
        one_slot(given, random, |asking, random| {
            asking.set.exp[asking.start % BINS] = 25 + random.to(230) as u8
        })
    },
    |given, random| {
        one_slot(given, random, |asking, _| {
            asking.set.exp[asking.end.wrapping_sub(1) % BINS] = 25
        })
    },
    |given, random| one_slot(given, random, |asking, _| asking.end = asking.start),
];
