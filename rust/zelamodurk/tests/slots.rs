//! The wrapper of exponents, walks and blocks: what is left after a refusal, and that no input panics.

use zelamodurk::alloc::{Bin, Delta, Pointers, Segment, Tables, BINS};
use zelamodurk::blocks::{self, Slot, Slots, State, SLOTS};
use zelamodurk::exponents::{self, Ask, ExpSet, CPL, D15};
use zelamodurk::syntax::{self, names, Place};
use zelamodurk::walks::{self, Groups};
use zelamodurk::{aht, Refusal, Why};

fn refused<T: std::fmt::Debug>(outcome: Result<T, Refusal>) -> (Why, usize) {
    let refusal = outcome.unwrap_err();
    (refusal.why, refusal.bit)
}

const FIRST_FOUR: Ask = Ask {
    slot: 0,
    strategy: D15,
    start: Bin(0),
    end: Bin(4),
};

/// A set that holds something.
const STALE: ExpSet = ExpSet {
    exp: [9; BINS],
    start: Bin(9),
    end: Bin(9),
};

#[test]
fn a_refused_set_is_zeros_and_what_was_read_is_logged() {
    // Absolute exponent 5, group 125.
    let frame = [0b0101_1111, 0b1010_0000];
    let (mut log, mut place, mut set) = ([0; 16], Place::new(16), STALE);
    let read = exponents::read_exponents(&frame, &mut log, &mut place, &FIRST_FOUR, &mut set);
    assert_eq!(refused(read), (Why::GroupAbove, 11));
    assert_eq!(set, ExpSet::default());
    assert_eq!((place.pos, place.count), (11, 2));
    let group = syntax::element_at(&log, 2, 1).unwrap();
    assert_eq!(
        (group.name, group.index, group.value),
        (names::EXPS, 0, 125)
    );
}

#[test]
fn a_set_that_can_t_be_asked_for_reads_nothing() {
    let (mut log, mut place, mut set) = ([7; 16], Place::new(16), STALE);
    let ask = Ask {
        slot: 7,
        ..FIRST_FOUR
    };
    let read = exponents::read_exponents(&[0; 2], &mut log, &mut place, &ask, &mut set);
    assert_eq!(refused(read), (Why::BadArgument, 0));
    assert_eq!((set, place), (ExpSet::default(), Place::new(16)));
    assert_eq!(log, [7; 16]);
}

/// A walk over two bins of these codes with this limit, from a group of code 4 with one member.
fn walk(codes: [u8; 2], limit: usize) -> (Result<(), Refusal>, usize, u8) {
    let mut bap = [0; BINS];
    bap[..2].copy_from_slice(&codes);
    let mut pos = 0;
    let mut groups = Groups {
        g4: 1,
        ..Groups::default()
    };
    let (start, end) = (Bin(0), Bin(2));
    let walked = walks::conventional(&[0; 2], &mut pos, limit, &bap, start, end, &mut groups);
    (walked, pos, groups.g4)
}

#[test]
fn a_mantissa_past_the_limit_is_counted_and_a_code_above_15_is_not() {
    // The group ends with the first, and the second begins another.
    assert_eq!(walk([4, 4], 7), (Ok(()), 7, 1));
    let (walked, pos, g4) = walk([4, 4], 6);
    assert_eq!((refused(walked), pos, g4), ((Why::PastLimit, 0), 0, 1));
    let (walked, pos, g4) = walk([4, 16], 6);
    assert_eq!((refused(walked), pos, g4), ((Why::PointerAbove, 0), 0, 0));
}

#[test]
fn groups_that_no_walk_leaves_stay_as_given() {
    let given = Groups {
        g1: 3,
        g2: 9,
        g4: 2,
    };
    let (mut pos, mut groups) = (0, given);
    let (codes, start, end) = ([1; BINS], Bin(0), Bin(2));
    let walked = walks::conventional(&[0; 2], &mut pos, 16, &codes, start, end, &mut groups);
    assert_eq!(refused(walked), (Why::BadArgument, 0));
    assert_eq!((pos, groups), (0, given));
}

#[test]
fn an_aht_walk_stands_where_it_was_refused() {
    // gaqmod 3 and the composite gain 27.
    let mut pos = 0;
    let walked = aht::aht(&[0b1111_0110, 0], &mut pos, 16, &[8; BINS], Bin(0), Bin(1));
    assert_eq!(refused(walked), (Why::GainAbove, 7));
    assert_eq!(pos, 7);
}

const LOUD: Segment = Segment {
    offset: 1,
    len: 1,
    ba: 7,
};

#[test]
fn segments_are_kept_until_a_code_ends_them() {
    // deltnseg 0, offset 1, length 1, ba 7.
    let frame = [0b0000_0001, 0b0001_1110];
    let (mut log, mut place, mut state) = ([0; 32], Place::new(16), State::default());
    let read = blocks::read_delta(&frame, &mut log, &mut place, &mut state, 5);
    assert_eq!((read, place.pos, place.count), (Ok(()), 15, 4));
    assert_eq!(state.delta[5].segments().collect::<Vec<_>>(), [LOUD]);
    let first = syntax::element_at(&log, 4, 0).unwrap();
    assert_eq!((first.name, first.index), (names::CPLDELTNSEG, 5));
    let kept = state;
    for code in [0, 1, 3] {
        let coded = blocks::delta_code(&mut state, 5, code, false);
        assert_eq!((coded.is_ok(), state), (code < 3, kept));
    }
    assert_eq!(blocks::delta_code(&mut state, 5, 2, false), Ok(()));
    assert_eq!(state, State::default());
}

#[test]
fn segments_that_break_off_leave_the_state() {
    let (mut log, mut place) = ([0; 32], Place::new(14));
    let mut state = State::default();
    state.delta[0] = Delta::of(&[LOUD; 3]);
    let kept = state;
    let read = blocks::read_delta(&[0; 2], &mut log, &mut place, &mut state, 0);
    assert_eq!(refused(read), (Why::PastLimit, 12));
    assert_eq!((place.pos, place.count, state), (12, 3, kept));
}

/// The tables are fit, and not those of TS.
const TABLES: Tables = Tables {
    hearing: &[0; 150],
    log_add: &[0; 256],
};

/// A state with which a slot is allocated.
fn sent() -> State {
    State {
        bai_sent: true,
        csnroffst_sent: true,
        csnroffst: 30,
        ..State::default()
    }
}

#[test]
fn a_block_has_pointers_for_the_slots_that_are_there() {
    let slot = Slot {
        covered: (Bin(0), Bin(8)),
        start: Bin(0),
        end: Bin(8),
        pointers: Pointers::Bap,
    };
    let mut slots = Slots::NONE;
    assert!(slots.ask(2, &slot, [0; BINS]));
    let mut pointers = [[7; BINS]; SLOTS];
    let done = blocks::allocate_block(&sent(), 0, &slots, &TABLES, &mut pointers);
    assert_eq!(done, Ok(()));
    assert!(pointers[2][..8].iter().all(|pointer| *pointer > 0));
    assert_eq!(pointers[2][8..], [0; BINS - 8]);
    assert_eq!(pointers[3], [0; BINS]);
    // A slot that is refused leaves none of the pointers.
    assert!(slots.ask(CPL.into(), &slot, [0; BINS]));
    let done = blocks::allocate_block(&sent(), 0, &slots, &TABLES, &mut pointers);
    assert_eq!(refused(done), (Why::NotSent, 0));
    assert_eq!(pointers, [[0; BINS]; SLOTS]);
}

#[test]
fn a_block_with_no_slot_is_tested_as_any_other() {
    let mut past = sent();
    past.fgaincod[6] = 8;
    for state in [sent(), State::default(), past] {
        let mut pointers = [[7; BINS]; SLOTS];
        for fscod in [0, 3] {
            let none = blocks::allocate_none(&state, fscod, &TABLES);
            let slots = &Slots::NONE;
            let block = blocks::allocate_block(&state, fscod, slots, &TABLES, &mut pointers);
            assert_eq!(none, block);
        }
    }
    assert_eq!(blocks::allocate_none(&sent(), 0, &TABLES), Ok(()));
}

/// Numbers at which a sum, a product or a cast could go wrong.
const EXTREMES: [usize; 9] = [
    0,
    1,
    255,
    256,
    257,
    32_768,
    1 << 32,
    usize::MAX - 1,
    usize::MAX,
];

#[test]
fn no_number_makes_a_call_panic() {
    for a in EXTREMES {
        for b in EXTREMES {
            for c in EXTREMES {
                read_and_walk(a, b, c);
                take_sides(a, b, c);
            }
        }
    }
}

const FRAME: [u8; 9] = [0xFF; 9];

/// Calls at places that are sound and at others.
fn read_and_walk(a: usize, b: usize, c: usize) {
    for limit in [8 * FRAME.len(), b] {
        let place = Place {
            pos: a,
            limit,
            block: i8::MIN,
            count: c,
        };
        let ask = Ask {
            slot: a as u8,
            strategy: c as u8,
            start: Bin(b),
            end: Bin(a),
        };
        let (mut log, mut set, mut state) = ([0; 24], STALE, State::default());
        let _ = exponents::read_exponents(&FRAME, &mut log, &mut place.clone(), &ask, &mut set);
        let _ = blocks::read_delta(&FRAME, &mut log, &mut place.clone(), &mut state, c);
        let mut groups = Groups {
            g1: a as u8,
            ..Groups::default()
        };
        let (codes, start, end) = ([19; BINS], Bin(c), Bin(b));
        let (pos, limit) = (&mut place.pos.clone(), place.limit);
        let _ = walks::conventional(&FRAME, pos, limit, &codes, start, end, &mut groups);
        let _ = aht::aht(&FRAME, pos, limit, &codes, start, end);
    }
}

/// Calls of side information and blocks.
fn take_sides(a: usize, b: usize, c: usize) {
    let mut state = sent();
    let _ = blocks::delta_code(&mut state, c, b as u32, a == 0);
    state.delta[c % SLOTS].count = a as u8;
    let slot = Slot {
        covered: (STALE.start, Bin(c)),
        start: Bin(b),
        end: Bin(a),
        pointers: Pointers::Hebap,
    };
    let mut slots = Slots::NONE;
    for n in 0..SLOTS {
        assert!(slots.ask(n, &slot, STALE.exp));
    }
    let mut pointers = [[0; BINS]; SLOTS];
    let _ = blocks::allocate_block(&state, c as u8, &slots, &TABLES, &mut pointers);
}
