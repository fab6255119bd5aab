//! Tables that are not lent, or are unfit. A program with one test, since the first tables lent stay.
#![forbid(unsafe_code)]

mod asked;
mod said;

use asked::{bap, channel, exponents, params, slot, state};
use ddpmeta_core::alloc::allocate;
use ddpmeta_core::blocks::allocate_block;
use ddpmeta_core::lent::lend;
use said::{panics, refuses};

/// Both allocations refuse with 21.
#[track_caller]
fn refused() {
    let set = exponents();
    assert_eq!(
        refuses(allocate_block(&state(), 0, &[slot(&set, (0, 9))])),
        21
    );
    assert_eq!(panics(|| allocate(&channel(9), &params(), &bap())), 21);
}

#[test]
fn tables_that_are_not_there_or_unfit_are_refused() {
    refused();
    assert_eq!(refuses(lend(&[-1; 150], &[0; 256])), 21);
    assert_eq!(refuses(lend(&[0; 150], &[256; 256])), 21);
    refused();
    // An entry that can be handed over, and that the core refuses.
    assert_eq!(lend(&[4096; 150], &[0; 256]), Ok(()));
    refused();
    assert_eq!(refuses(lend(&[0; 150], &[0; 256])), 21);
}
