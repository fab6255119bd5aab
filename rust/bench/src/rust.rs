//! The Rust's functions, called and not inlined, as a function of another library is; where the Rust
//! is not there, functions that do nothing.

pub mod bytes;
pub mod cursor;
pub mod deltas;
pub mod frames;
pub mod whole;

/// Whether the Rust was there when this was built.
pub const PRESENT: bool = cfg!(oracle);

#[cfg(oracle)]
mod called {
    use oracle::alloc;
    use oracle::blocks::{self, AllocState, ExpSet, SlotAlloc};
    use oracle::tables::{BAP, FAST_GAIN, HEARING, LOG_ADD};
    use zelamodurk::alloc::Codes;
    use zelamodurk::blocks::{State, SLOTS};

    /// A block's state and exponents as the Rust takes them, and the range of each slot.
    pub struct Block {
        state: AllocState,
        sets: Vec<ExpSet>,
        ranges: [(usize, usize); SLOTS],
    }

    impl Block {
        pub fn new(
            state: &State,
            sets: &[zelamodurk::exponents::ExpSet; SLOTS],
            range: impl Fn(usize) -> (usize, usize),
        ) -> Self {
            let set = |set: &zelamodurk::exponents::ExpSet| ExpSet {
                exp: set.exp.map(i16::from).to_vec(),
                start: set.start.0,
                end: set.end.0,
            };
            Block {
                state: AllocState {
                    bai: Some(state.bai()),
                    csnroffst: Some(state.csnroffst),
                    fsnroffst: state.fsnroffst,
                    fgaincod: state.fgaincod,
                    cplleak: Some((state.cplfleak, state.cplsleak)),
                    ..AllocState::default()
                },
                sets: sets.iter().map(set).collect(),
                ranges: std::array::from_fn(range),
            }
        }

        #[inline(never)]
        pub fn allocate(&self, fscod: u8) -> Option<[Vec<u8>; SLOTS]> {
            let slots: [SlotAlloc; SLOTS] = std::array::from_fn(|slot| SlotAlloc {
                slot,
                exps: &self.sets[slot],
                start: self.ranges[slot].0,
                end: self.ranges[slot].1,
                high_efficiency: false,
            });
            blocks::allocate_block(&self.state, fscod.into(), &slots).ok()
        }
    }

    /// A channel's exponents as the Rust takes them.
    pub struct Channel(Vec<i16>);

    impl Channel {
        pub fn new(exponents: &[u8]) -> Self {
            Channel(exponents.iter().map(|e| i16::from(*e)).collect())
        }

        /// Decodes the codes as the Rust's allocation of a block does, and allocates.
        #[inline(never)]
        pub fn allocate(&self, codes: Codes) -> Option<Vec<u8>> {
            let [bai @ .., fgaincod, csnroffst, fsnroffst, fscod] = codes.bytes();
            let state = AllocState {
                bai: Some(bai),
                ..AllocState::default()
            };
            let channel = alloc::Channel {
                exp: &self.0,
                start: 0,
                end: self.0.len(),
                fgain: i32::from(FAST_GAIN[usize::from(fgaincod)]),
                snroffset: (((i32::from(csnroffst) - 15) << 4) + i32::from(fsnroffst)) << 2,
                leak: None,
                delta: &[],
            };
            let params = state.params(fscod.into()).ok()?;
            Some(alloc::allocate(&channel, &params, &BAP))
        }
    }

    /// HEARING and LOG_ADD, to be lent.
    pub fn tables() -> (Vec<u16>, Vec<u8>) {
        let hearing = HEARING.iter().map(|entry| *entry as u16).collect();
        (hearing, LOG_ADD.iter().map(|entry| *entry as u8).collect())
    }
}

#[cfg(not(oracle))]
mod called {
    use zelamodurk::alloc::Codes;
    use zelamodurk::blocks::{State, SLOTS};
    use zelamodurk::exponents::ExpSet;

    pub struct Block;

    impl Block {
        pub fn new(_: &State, _: &[ExpSet; SLOTS], _: impl Fn(usize) -> (usize, usize)) -> Self {
            Block
        }

        pub fn allocate(&self, _: u8) -> Option<[Vec<u8>; SLOTS]> {
            None
        }
    }

    pub struct Channel;

    impl Channel {
        pub fn new(_: &[u8]) -> Self {
            Channel
        }

        pub fn allocate(&self, _: Codes) -> Option<Vec<u8>> {
            None
        }
    }

    /// Tables that are fit.
    pub fn tables() -> (Vec<u16>, Vec<u8>) {
        (vec![0; 150], vec![0; 256])
    }
}

pub use called::{tables, Block, Channel};
