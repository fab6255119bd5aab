//! Document 01's fixed values K1 to K7, K10 and K11, and those of its list "Run:" that are of exponents and
//! walks: the core gives each, and the Rust the same.
#![forbid(unsafe_code)]

use differential::answers::{expected, Answer};
use differential::call::{Call, Standing, Walk};
use differential::{core, rust};
use zelamodurk::alloc::{Bin, BINS};
use zelamodurk::exponents::{Ask, CPL, D15};
use zelamodurk::syntax::Place;
use zelamodurk::walks::Groups;

/// What the core answers, which is what the Rust does where it is there.
#[track_caller]
fn agreed(call: &Call) -> Answer {
    let answer = core::answer(call).unwrap();
    if rust::PRESENT {
        assert_eq!(Ok(&answer), expected(call).as_ref());
    }
    answer
}

/// Bits as text, in bytes.
fn bytes(bits: &str) -> Vec<u8> {
    let bits: Vec<u8> = bits.bytes().filter(|bit| *bit != b' ').collect();
    let byte = |bits: &[u8]| bits.iter().fold(0, |byte, bit| byte << 1 | (bit - b'0'));
    bits.chunks(8)
        .map(|bits| byte(bits) << (8 - bits.len()))
        .collect()
}

/// The end of a row of conventional walks from bit 0 over zeros, each over these codes.
#[track_caller]
fn row(walks: &[&[u8]]) -> usize {
    let (mut place, mut groups) = (Place::new(128), Groups::default());
    for walk in walks {
        let mut codes = [0; BINS];
        codes[..walk.len()].copy_from_slice(walk);
        let call = Call::conventional(
            Walk {
                frame: vec![0; 16].into(),
                place,
                codes,
                start: 0,
                end: walk.len(),
            },
            groups,
        );
        let answer = agreed(&call);
        assert_eq!(answer.number, 0);
        place = answer.place.unwrap();
        groups = answer.groups.unwrap();
    }
    place.pos
}

#[test]
fn k1_four_of_code_1() {
    assert_eq!(row(&[&[1, 1, 1, 1]]), 10);
}

#[test]
fn k2_one_of_each_kind() {
    assert_eq!(row(&[&[1, 2, 4, 3, 0, 15]]), 38);
}

#[test]
fn k3_a_group_over_two_walks() {
    assert_eq!(row(&[&[4], &[4, 4]]), 14);
    // With the groups begun anew at each walk that would be 14 too, and this also.
    assert_eq!(row(&[&[4], &[4]]), 7);
}

/// A set of the bins below `end` by D15.
fn set(slot: u8, end: usize, absolute: u8, group: u8) -> Call<'static> {
    let frame = bytes(&format!("{absolute:04b} {group:07b} {:013b}", 0));
    let place = Place::new(8 * frame.len());
    let ask = Ask {
        slot,
        strategy: D15,
        start: Bin(0),
        end: Bin(end),
    };
    Call::read_exponents(Standing::new(frame, vec![0; 80], place), ask)
}

#[test]
fn k4_a_group_of_no_step() {
    assert_eq!(agreed(&set(0, 4, 5, 62)).after[..5], [5, 5, 5, 5, 0]);
}

#[test]
fn k5_a_group_of_the_largest_steps() {
    assert_eq!(agreed(&set(0, 4, 5, 124)).after[..5], [5, 7, 9, 11, 0]);
}

#[test]
fn k6_a_group_above_124() {
    let answer = agreed(&set(0, 4, 5, 125));
    // It has been read and logged.
    assert_eq!((answer.number, answer.bit), (7, 11));
    assert_eq!(answer.place.unwrap().count, 2);
}

#[test]
fn k7_an_exponent_below_0() {
    let answer = agreed(&set(0, 4, 1, 0));
    assert_eq!((answer.number, answer.bit), (8, 11));
}

/// An AHT walk over one bin.
fn aht(hebap: u8, bits: &str) -> Call<'static> {
    let frame = bytes(bits);
    Call::aht(Walk {
        place: Place::new(8 * frame.len()),
        frame: frame.into(),
        codes: [hebap; BINS],
        start: 0,
        end: 1,
    })
}

/// The end of a walk that is taken, and the tags that it met.
#[track_caller]
fn walked(call: &Call) -> (usize, u32) {
    let answer = agreed(call);
    assert_eq!(answer.number, 0);
    (answer.place.unwrap().pos, answer.value)
}

#[test]
fn k10_an_aht_bin_without_gain() {
    assert_eq!(walked(&aht(8, &"0".repeat(24))), (20, 0));
}

#[test]
fn k11_six_tags() {
    // gaqmod 2, the gain 4, and six small mantissas of one bit with a large one of three after each.
    assert_eq!(
        walked(&aht(8, &format!("10 1 {}", "1 000".repeat(6)))),
        (27, 6)
    );
}

#[test]
fn run_composite_gains() {
    // 26 is 4, 4, 4: six small mantissas of one bit follow.
    assert_eq!(
        walked(&aht(8, &format!("11 11010 {}", "0".repeat(9)))),
        (13, 0)
    );
    let answer = agreed(&aht(8, &format!("11 11011 {}", "0".repeat(9))));
    assert_eq!((answer.number, answer.bit), (14, 7));
}

#[test]
fn run_coupling_absolute_13_needs_a_first_step_of_2_down() {
    for group in 0..128 {
        let answer = agreed(&set(CPL, 3, 13, group));
        let first = group / 25;
        match group {
            125.. => assert_eq!(answer.number, 7),
            _ if first > 0 => assert_eq!(answer.number, 8),
            // From 24 on the other steps may not lead up.
            _ => {
                let up = group / 5 % 5 > 2 || group / 5 % 5 + group % 5 > 4;
                assert_eq!(answer.number, if up { 8 } else { 0 });
            }
        }
    }
    assert_eq!(agreed(&set(CPL, 3, 13, 12)).after[..4], [24, 24, 24, 0]);
}

#[test]
fn run_coupling_absolute_14_is_refused_with_its_first_group() {
    for group in 0..=124 {
        assert_eq!(agreed(&set(CPL, 3, 14, group)).number, 8);
    }
    for group in 125..=127 {
        assert_eq!(agreed(&set(CPL, 3, 14, group)).number, 7);
    }
    // Without a whole group none is read.
    assert_eq!(agreed(&set(CPL, 2, 14, 0)).number, 9);
}

#[test]
fn run_d15_to_bin_2() {
    let answer = agreed(&set(0, 2, 5, 62));
    assert_eq!((answer.number, answer.bit), (9, 4));
}
