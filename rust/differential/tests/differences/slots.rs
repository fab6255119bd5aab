//! Exponents, walks, delta segments and blocks.

use super::{core_refuses, differ, rust_does, segment, Rust, MAX};
use differential::answers::{expected, Answer};
use differential::call::{Asking, Block, Call, Standing, Walk};
use differential::{core, rust};
use zelamodurk::alloc::{Bin, Delta, Pointers, BINS};
use zelamodurk::blocks::{State, SLOTS};
use zelamodurk::exponents::{Ask, ExpSet, D15};
use zelamodurk::syntax::{Place, WORDS};
use zelamodurk::walks::Groups;

/// What the core answers, which is what the Rust does where it is there.
#[track_caller]
fn agreed(call: &Call) -> Answer {
    let answer = core::answer(call).unwrap();
    if rust::PRESENT {
        assert_eq!(Ok(&answer), expected(call).as_ref(), "{call}");
    }
    answer
}

/// A cursor with room for eight elements.
fn cursor(frame: &[u8], pos: usize, limit: usize) -> Standing<'_> {
    let place = Place {
        pos,
        ..Place::new(limit)
    };
    Standing::new(frame, vec![0; 8 * WORDS], place)
}

/// deltnseg 0, offset 1, length 1, ba 7: 15 bits.
const ONE_SEGMENT: [u8; 2] = [0b0000_0001, 0b0001_1110];

#[test]
fn deltbae_0_after_2_keeps_no_segment() {
    let state = |call: &Call| *agreed(call).state.unwrap();
    let from = cursor(&ONE_SEGMENT, 0, 16);
    let one = state(&Call::read_delta(from, State::default(), 0));
    assert_eq!(one.delta[0], Delta::of(&[segment(1, 1, 7)]));
    let none = state(&Call::delta_code(one, 0, 2, false));
    assert_eq!(none, State::default());
    let again = state(&Call::delta_code(none, 0, 0, false));
    assert_eq!(again, State::default());
    // What hangs on it: the pointer of bin 1, which is band 1.
    let pointers = |delta: Delta| {
        let call = block(|given, asking| {
            given.state.delta[0] = delta;
            (asking.end, asking.set.end) = (2, Bin(2));
        });
        agreed(&call).after[..2].to_vec()
    };
    assert_eq!(pointers(one.delta[0]), [5, 0]);
    assert_eq!(pointers(again.delta[0]), [5, 5]);
}

/// Absolute exponent 5 and a group of no step.
const ONE_GROUP: [u8; 2] = [0b0101_0111, 0b1100_0000];

fn set(from: Standing, slot: u8) -> Call {
    let ask = Ask {
        slot,
        strategy: D15,
        start: Bin(0),
        end: Bin(4),
    };
    Call::read_exponents(from, ask)
}

/// The exponents of these bins, and 0 in all others.
fn leaves(exponents: &[u8]) -> Rust {
    let mut all = vec![0; BINS];
    all[..exponents.len()].copy_from_slice(exponents);
    Rust::Leaves(all)
}

#[test]
fn exponents_of_slots_above_6() {
    for slot in [7, 255] {
        let call = set(cursor(&ONE_GROUP, 0, 16), slot);
        differ(&call, leaves(&[5; 4]), 6);
        // The Rust logs them as those of slot 0.
        let first = set(cursor(&ONE_GROUP, 0, 16), 0);
        if let (Some(asked), Some(of_0)) = (rust::ask(&call), rust::ask(&first)) {
            assert_eq!(asked.answer.log, of_0.answer.log);
        }
    }
}

#[test]
fn strategies_and_ranges_that_both_refuse() {
    let ask = |strategy, start, end| Ask {
        slot: 0,
        strategy,
        start: Bin(start),
        end: Bin(end),
    };
    for ask in [ask(0, 0, 4), ask(4, 0, 4), ask(1, 4, 4), ask(1, 0, 257)] {
        let call = Call::read_exponents(cursor(&ONE_GROUP, 0, 16), ask);
        differ(&call, Rust::Refuses(6), 6);
    }
}

#[test]
fn exponents_with_the_limit_past_the_data() {
    differ(&set(cursor(&[], 0, 11), 0), Rust::Panics, 6);
    differ(&set(cursor(&ONE_GROUP, 0, 17), 0), leaves(&[5; 4]), 6);
}

#[test]
fn exponents_whose_end_overflows() {
    differ(&set(cursor(&ONE_GROUP, MAX, 16), 0), Rust::Panics, 1);
}

#[test]
fn a_set_that_fills_the_log() {
    // The Rust's log grows. What was read before stays logged.
    let from = Standing::new(&ONE_GROUP[..], vec![0; WORDS], Place::new(16));
    let call = set(from, 0);
    rust_does(&call, &leaves(&[5; 4]));
    let answer = core::answer(&call).unwrap();
    let place = Place {
        pos: 4,
        count: 1,
        ..Place::new(16)
    };
    assert_eq!(
        (answer.number, answer.bit, answer.place),
        (19, 4, Some(place))
    );
    assert_eq!(answer.log, [1, 0, 0xFFFF, 0, 0, 4, 5, 0]);
    assert_eq!((answer.after, answer.range), (vec![0; BINS], Some((0, 0))));
}

/// A walk over bins of one code.
fn walk(frame: &[u8], place: (usize, usize), code: u8, (start, end): (usize, usize)) -> Walk<'_> {
    Walk {
        frame: frame.into(),
        place: cursor(frame, place.0, place.1).place,
        codes: [code; BINS],
        start,
        end,
    }
}

fn mantissas(walk: Walk) -> Call {
    Call::conventional(walk, Groups::default())
}

#[test]
fn walks_over_ranges_that_are_unfit() {
    let frame = [0; 2];
    for range in [(1, 0), (0, 257), (256, 257), (MAX, 0), (0, MAX)] {
        differ(&mantissas(walk(&frame, (0, 16), 0, range)), Rust::Panics, 6);
    }
    // The Rust has read gaqmod, and finds no bin, or panics at the first that is not there.
    differ(
        &Call::aht(walk(&frame, (0, 16), 0, (1, 0))),
        Rust::Reads(0, 2),
        6,
    );
    differ(
        &Call::aht(walk(&frame, (0, 1), 0, (1, 0))),
        Rust::Refuses(1),
        6,
    );
    let call = Call::aht(walk(&frame, (0, 16), 0, (0, 257)));
    differ(&call, Rust::PanicsHavingRead(2), 6);
}

#[test]
fn groups_that_no_walk_leaves() {
    // The Rust's groups can't be handed in.
    let of = |g1, g2, g4| Groups { g1, g2, g4 };
    for groups in [of(3, 0, 0), of(0, 3, 0), of(0, 0, 2), of(255, 255, 255)] {
        let call = Call::conventional(walk(&[0; 2], (0, 16), 0, (0, 1)), groups);
        core_refuses(&call, 6);
    }
}

#[test]
fn walks_with_the_limit_past_the_data() {
    // Code 3 and gaqmod 0 with hebap 1: 3 bits and 4.
    differ(&mantissas(walk(&[], (0, 3), 3, (0, 1))), Rust::Panics, 6);
    differ(&Call::aht(walk(&[], (0, 4), 1, (0, 1))), Rust::Panics, 6);
    let (frame, long) = ([0], [0; 4097]);
    for (frame, limit) in [(&frame[..], 9), (&long[..], 32_769)] {
        let at = (0, limit);
        differ(&mantissas(walk(frame, at, 3, (0, 1))), Rust::Reads(0, 3), 6);
        differ(&Call::aht(walk(frame, at, 1, (0, 1))), Rust::Reads(0, 4), 6);
    }
}

#[test]
fn walks_whose_end_overflows() {
    let frame = [0; 2];
    differ(
        &mantissas(walk(&frame, (MAX, 16), 3, (0, 1))),
        Rust::Panics,
        1,
    );
    differ(
        &Call::aht(walk(&frame, (MAX, 16), 0, (0, 1))),
        Rust::Panics,
        1,
    );
    // The group counts the mantissa that is refused, as it does in the Rust where no sum comes round.
    let call = mantissas(walk(&frame, (MAX, 16), 1, (0, 1)));
    rust_does(&call, &Rust::Panics);
    let answer = core::answer(&call).unwrap();
    let counted = Groups {
        g1: 1,
        ..Groups::default()
    };
    assert_eq!((answer.number, answer.bit), (1, MAX));
    assert_eq!((answer.place, answer.groups), (call.place(), Some(counted)));
}

#[test]
fn what_walks_do_that_document_01_does_not_print() {
    let frame = [0b1000_0000, 0];
    // Bins of no bits are passed with the cursor past its limit.
    let call = mantissas(walk(&frame, (17, 16), 0, (0, 256)));
    assert_eq!(agreed(&call).number, 0);
    // A hebap above 19 is met after the gains are read: gaqmod 2 and two of them.
    let mut codes = [0; BINS];
    codes[..3].copy_from_slice(&[20, 8, 9]);
    let call = Call::aht(Walk {
        codes,
        ..walk(&frame, (0, 16), 0, (0, 3))
    });
    let answer = agreed(&call);
    assert_eq!((answer.number, answer.bit), (13, 4));
}

#[test]
fn delta_codes_of_slots_above_6() {
    for slot in [7, MAX] {
        let call = |code, block0| Call::delta_code(State::default(), slot, code, block0);
        differ(&call(0, false), Rust::Answers(0), 6);
        differ(&call(1, true), Rust::Answers(0), 6);
        differ(&call(2, false), Rust::Panics, 6);
        differ(&call(0, true), Rust::Refuses(15), 6);
        differ(&call(3, false), Rust::Refuses(15), 6);
    }
}

#[test]
fn delta_segments_of_slots_above_6() {
    for slot in [7, MAX] {
        let call = Call::read_delta(cursor(&ONE_SEGMENT, 0, 16), State::default(), slot);
        differ(&call, Rust::PanicsHavingRead(15), 6);
    }
}

/// A block of slot 0 alone, bin 0 alone, that is taken with pointer 5, changed in one way.
fn block(change: impl FnOnce(&mut Block, &mut Asking)) -> Call<'static> {
    let (hearing, log_add) = rust::tables();
    let mut given = Block {
        state: State {
            bai_sent: true,
            csnroffst_sent: true,
            csnroffst: 20,
            ..State::default()
        },
        fscod: 0,
        slots: [const { None }; SLOTS],
        hearing: hearing.into(),
        log_add: log_add.into(),
    };
    let mut asking = Asking {
        set: ExpSet {
            end: Bin(1),
            ..ExpSet::default()
        },
        start: 0,
        end: 1,
        pointers: Pointers::Bap,
    };
    change(&mut given, &mut asking);
    given.slots[0] = Some(asking);
    Call::allocate_block(given)
}

/// The pointer of bin 0 of slot 0, and 0 in all others.
fn pointer(first: u8) -> Rust {
    let mut pointers = vec![0; SLOTS * BINS];
    pointers[0] = first;
    Rust::Leaves(pointers)
}

#[test]
fn a_block_of_one_bin_is_taken_by_both() {
    let call = block(|_, _| ());
    assert_eq!(Rust::Leaves(agreed(&call).after), pointer(5));
}

/// A change of a block's state.
type Change = fn(&mut State);

#[test]
fn codes_of_a_block_past_their_tables() {
    let changes: [fn(&mut Block); 7] = [
        |given| given.state.sdcycod = 4,
        |given| given.state.fdcycod = 4,
        |given| given.state.sgaincod = 4,
        |given| given.state.dbpbcod = 4,
        |given| given.state.floorcod = 8,
        |given| given.state.fgaincod[0] = 8,
        |given| given.fscod = 3,
    ];
    for change in changes {
        differ(&block(|given, _| change(given)), Rust::Panics, 11);
    }
    let changes: [(Change, u8); 6] = [
        (|state| state.csnroffst = 64, 15),
        (|state| state.fsnroffst[0] = 16, 6),
        (|state| state.delta[0] = Delta::of(&[segment(32, 1, 0)]), 5),
        (|state| state.delta[0] = Delta::of(&[segment(0, 16, 0)]), 9),
        (|state| state.delta[0] = Delta::of(&[segment(0, 1, 8)]), 0),
        (|state| state.delta[0].count = 9, 5),
    ];
    for (change, first) in changes {
        let call = block(|given, _| change(&mut given.state));
        differ(&call, pointer(first), 11);
    }
}

#[test]
fn codes_of_slots_that_are_not_there() {
    let changes: [Change; 5] = [
        |state| state.fgaincod[1] = 8,
        |state| state.fsnroffst[6] = 16,
        |state| state.delta[6] = Delta::of(&[segment(32, 1, 0)]),
        |state| (state.cplleak_sent, state.cplfleak) = (true, 8),
        |state| (state.cplleak_sent, state.cplsleak) = (true, 8),
    ];
    for change in changes {
        let call = block(|given, _| change(&mut given.state));
        differ(&call, pointer(5), 11);
    }
    // A code that was not sent is not looked at by either.
    let call = block(|given, _| given.state.cplfleak = 8);
    assert_eq!(Rust::Leaves(agreed(&call).after), pointer(5));
}

#[test]
fn a_code_past_its_table_before_anything_else() {
    let call = block(|given, asking| {
        given.fscod = 3;
        (asking.end, asking.set.end) = (0, Bin(0));
    });
    differ(&call, pointer(0), 11);
    let call = block(|given, _| (given.fscod, given.state.csnroffst) = (3, 0));
    differ(&call, pointer(0), 11);
    let call = block(|given, _| (given.fscod, given.state.csnroffst_sent) = (3, false));
    differ(&call, Rust::Refuses(10), 11);
}

#[test]
fn ranges_and_exponents_of_a_slot_that_are_unfit() {
    let call = block(|_, asking| (asking.end, asking.set.end) = (254, Bin(256)));
    differ(&call, Rust::Panics, 6);
    let call = block(|_, asking| asking.set.exp[0] = 25);
    differ(&call, pointer(0), 8);
}

#[test]
fn ranges_past_the_bins_that_give_zeros() {
    // No offset in use, and an empty range.
    let silent = |end| {
        move |given: &mut Block, asking: &mut Asking| {
            (given.state.csnroffst, asking.end) = (0, end);
        }
    };
    let empty = |start| {
        move |_: &mut Block, asking: &mut Asking| {
            (asking.start, asking.end) = (start, 0);
        }
    };
    for call in [
        block(silent(300)),
        block(silent(MAX)),
        block(empty(300)),
        block(empty(MAX)),
    ] {
        let answer = core::answer(&call).unwrap();
        assert_eq!((answer.number, answer.after), (0, vec![0; SLOTS * BINS]));
    }
    // The Rust answers as many zeros as the range says, and panics where no memory holds them.
    if rust::PRESENT {
        let lengths = |call| match call {
            Call::AllocateBlock(given) => rust::lengths(&given).map(|lengths| lengths[0]),
            _ => None,
        };
        assert_eq!(lengths(block(silent(300))), Some(300));
        assert_eq!(lengths(block(empty(300))), Some(300));
        assert_eq!(lengths(block(silent(MAX))), None);
        assert_eq!(lengths(block(empty(MAX))), None);
    }
}

#[test]
fn tables_of_a_block_that_are_unfit() {
    // The Rust has its own.
    let changes: [fn(&mut Block); 4] = [
        |given| given.hearing.to_mut().truncate(149),
        |given| given.hearing.to_mut()[149] = 4096,
        |given| given.log_add.to_mut().push(0),
        |given| given.log_add.to_mut()[255] = 65,
    ];
    for change in changes {
        differ(&block(|given, _| change(given)), pointer(5), 21);
    }
}
