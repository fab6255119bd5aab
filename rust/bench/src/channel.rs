//! The allocation of one channel, and what an allocation is lent.

use crate::{measure, rust};
use std::hint::black_box;
use zelamodurk::alloc::{self, Bin, Channel, Codes, Pointers, BINS};

/// The end of the last band, and codes as encoders send them.
pub const END: usize = 253;
pub const CODES: Codes = Codes {
    sdcycod: 2,
    fdcycod: 1,
    sgaincod: 1,
    dbpbcod: 2,
    floorcod: 7,
    fgaincod: 4,
    csnroffst: 20,
    fsnroffst: 5,
    fscod: 0,
};

/// HEARING and LOG_ADD.
pub struct Tables {
    hearing: Vec<u16>,
    log_add: Vec<u8>,
}

impl Tables {
    pub fn new() -> Self {
        let (hearing, log_add) = rust::tables();
        Tables { hearing, log_add }
    }

    pub fn lent(&self) -> alloc::Tables<'_> {
        alloc::Tables {
            hearing: &self.hearing,
            log_add: &self.log_add,
        }
    }
}

/// Exponents in steps of up to 2, as a stream has them.
pub fn exponents(bytes: &[u8]) -> [u8; BINS] {
    let mut exponent = 8;
    std::array::from_fn(|bin| {
        exponent = (exponent + bytes[bin] % 5).saturating_sub(2).min(24);
        exponent
    })
}

/// All bins of a full-bandwidth channel.
pub fn full(exponents: &[u8; BINS], pointers: Pointers) -> Channel<'_> {
    Channel {
        exponents,
        start: Bin(0),
        end: Bin(END),
        codes: CODES,
        leak: None,
        delta: &[],
        pointers,
    }
}

/// The row of this file. The codes are not yet decoded on either side.
pub fn all(bytes: &[u8]) {
    let exponents = exponents(bytes);
    let channel = full(&exponents, Pointers::Bap);
    let tables = Tables::new();
    let rusts = rust::Channel::new(&exponents[..END]);
    measure(
        "allocation of 253 bins",
        1.0,
        1,
        || {
            let _ = black_box(alloc::allocate(black_box(&channel), &tables.lent()));
        },
        || {
            black_box(black_box(&rusts).allocate(CODES));
        },
    );
}
