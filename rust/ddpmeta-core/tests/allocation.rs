//! What allocation refuses, with fit tables lent: the entries of the lists in the crate's documentation.
#![forbid(unsafe_code)]

mod asked;
mod said;

use asked::{bap, channel, exponents, params, slot, state};
use ddpmeta_core::alloc::{allocate, Channel, DeltaSeg, Params};
use ddpmeta_core::blocks::{allocate_block, AllocState, ExpSet, SlotAlloc};
use ddpmeta_core::lent;
use said::{panics, refuses};

/// More segments than a slot has.
const MANY: [DeltaSeg; 9] = [DeltaSeg {
    offset: 0,
    len: 0,
    ba: 0,
}; 9];

/// Tables that the core takes; every test lends the same.
fn lend() {
    assert_eq!(lent::lend(&[0; 150], &[0; 256]), Ok(()));
}

/// The number that a range of slot 0 is refused with.
#[track_caller]
fn refused(exps: &ExpSet, range: (usize, usize)) -> u8 {
    refuses(allocate_block(&state(), 0, &[slot(exps, range)]))
}

#[test]
fn a_block_refuses_slots() {
    lend();
    let set = exponents();
    let ask = |number| SlotAlloc {
        slot: number,
        ..slot(&set, (0, 9))
    };
    assert_eq!(refuses(allocate_block(&state(), 0, &[ask(7)])), 6);
    assert_eq!(refuses(allocate_block(&state(), 0, &[ask(0), ask(0)])), 6);
    let [pointers, ..] = allocate_block(&state(), 0, &[ask(0), ask(6)]).unwrap();
    assert_eq!(pointers.len(), 9);
}

#[test]
fn a_block_refuses_codes() {
    lend();
    let mut many = state();
    many.delta[4] = MANY.to_vec();
    assert_eq!(refuses(allocate_block(&many, 0, &[])), 11);
    many.delta[4].pop();
    assert!(allocate_block(&many, 0, &[]).is_ok());
    assert_eq!(refuses(allocate_block(&state(), 3, &[])), 11);
    let code = AllocState {
        bai: Some([4, 0, 0, 0, 0]),
        ..state()
    };
    assert_eq!(refuses(allocate_block(&code, 0, &[])), 11);
}

#[test]
fn a_block_refuses_ranges_and_exponents() {
    lend();
    let set = exponents();
    assert_eq!(refused(&set, (0, 254)), 6);
    for exponent in [-1, 25, i16::MAX] {
        let mut outside = exponents();
        outside.exp[8] = exponent;
        assert_eq!(refused(&outside, (0, 9)), 8);
    }
    let mut short = exponents();
    short.exp.truncate(8);
    assert_eq!(refused(&short, (0, 9)), 12);
}

/// How many pointers a state has for a range of slot 0, or the number that it is refused with.
#[track_caller]
fn len(state: &AllocState, range: (usize, usize)) -> Result<usize, u8> {
    let far = ExpSet {
        exp: vec![0; 4],
        start: 0,
        end: usize::MAX,
    };
    match allocate_block(state, 0, &[slot(&far, range)]) {
        Ok([pointers, ..]) => Ok(pointers.len()),
        refusal => Err(refuses(refusal)),
    }
}

/// The set has four exponents, and says that it covers every bin.
#[test]
fn a_block_has_as_many_pointers_as_the_original_up_to_a_bound() {
    lend();
    let quiet = AllocState {
        csnroffst: Some(0),
        ..state()
    };
    for end in [0, 5, 300, 65_536] {
        assert_eq!(len(&quiet, (10, end)), Ok(end));
        assert_eq!(len(&quiet, (usize::MAX, end)), Ok(end));
        assert_eq!(len(&state(), (end, end)), Ok(end));
        assert_eq!(len(&state(), (end, 0)), Ok(end));
    }
    for end in [65_537, usize::MAX] {
        assert_eq!(len(&quiet, (0, end)), Err(6));
        assert_eq!(len(&quiet, (end, end)), Err(6));
        assert_eq!(len(&state(), (end, 0)), Err(6));
        assert_eq!(len(&state(), (end, end)), Err(6));
    }
    assert_eq!(len(&state(), (0, 4)), Ok(4));
    assert_eq!(len(&state(), (4, 5)), Err(12));
}

#[test]
fn a_channel_refuses_tables_ranges_and_exponents() {
    lend();
    let taken = |channel: &Channel| allocate(channel, &params(), &bap());
    assert_eq!(panics(|| allocate(&channel(9), &params(), &[0; 64])), 6);
    assert_eq!(panics(|| taken(&channel(254))), 6);
    for exp in [&[25; 9][..], &[-1; 9], &[0; 8]] {
        assert_eq!(panics(|| taken(&Channel { exp, ..channel(9) })), 8);
    }
    assert_eq!(taken(&channel(0)), []);
    assert_eq!(taken(&channel(253)).len(), 253);
    let empty = |start| Channel {
        start,
        ..channel(5)
    };
    assert_eq!(taken(&empty(65_536)).len(), 65_536);
    assert_eq!(panics(|| taken(&empty(65_537))), 6);
    assert_eq!(panics(|| taken(&empty(usize::MAX))), 6);
}

#[test]
fn a_channel_refuses_numbers_that_no_code_has() {
    lend();
    let mut channels = std::array::from_fn::<_, 4, _>(|_| channel(9));
    channels[0].fgain = 129;
    channels[1].snroffset = 1;
    channels[2].leak = Some((768, 769));
    channels[3].delta = &MANY;
    for channel in channels {
        assert_eq!(panics(|| allocate(&channel, &params(), &bap())), 11);
    }
    let other = Params {
        sdecay: 16,
        ..params()
    };
    assert_eq!(panics(|| allocate(&channel(9), &other, &bap())), 11);
}
