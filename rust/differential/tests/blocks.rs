//! The drop-in's allocation of a block beside the Rust's: the pointers and how many there are, also of empty
//! ranges and of blocks with no offset in use, which may end past the bins.
#![forbid(unsafe_code)]
#![cfg(oracle)]

use differential::random::Random;

/// A slot of a block.
struct Asked {
    slot: usize,
    exponents: Vec<i16>,
    covered: (usize, usize),
    range: (usize, usize),
    high: bool,
}

/// A block that the Rust answers or refuses, and does not panic at.
struct Given {
    bai: [u8; 5],
    fscod: usize,
    csnroffst: u8,
    fsnroffst: [u8; 7],
    fgaincod: [u8; 7],
    leak: Option<(u8, u8)>,
    slots: Vec<Asked>,
}

/// A number past the bins at times.
const FAR: usize = 400;

/// A range that needs exponents, or in a quiet block any.
fn range(random: &mut Random, quiet: bool) -> (usize, usize) {
    match random.to(2) {
        0 if quiet => (random.to(FAR), random.to(FAR)),
        0 | 1 => (random.to(20), random.to(253)),
        _ => {
            let start = random.to(FAR);
            (start, random.to(start))
        }
    }
}

fn asked(random: &mut Random, slot: usize, quiet: bool) -> Asked {
    let range = range(random, quiet);
    let needed = if range.0 < range.1 && !quiet { 256 } else { 0 };
    Asked {
        slot,
        exponents: (0..needed.max(random.to(256)))
            .map(|_| random.to(24) as i16)
            .collect(),
        covered: (random.one(&[0, 0, 3]), random.one(&[FAR, FAR, 40])),
        range,
        high: random.to(1) == 0,
    }
}

fn given(random: &mut Random) -> Given {
    let quiet = random.to(1) == 0;
    let slots = (0..7).filter(|_| random.to(2) > 0).collect::<Vec<_>>();
    Given {
        bai: [3, 3, 3, 3, 7].map(|most| random.to(most) as u8),
        fscod: random.to(2),
        csnroffst: if quiet {
            0
        } else {
            random.one(&[0, 1, 20, 63])
        },
        fsnroffst: std::array::from_fn(|slot| match quiet && slots.contains(&slot) {
            true => 0,
            false => random.to(15) as u8,
        }),
        fgaincod: [7; 7].map(|most| random.to(most) as u8),
        leak: (random.to(3) > 0).then(|| (random.to(7) as u8, random.to(7) as u8)),
        slots: (slots.iter())
            .map(|slot| asked(random, *slot, quiet))
            .collect(),
    }
}

/// What a side answers; none where it refuses.
macro_rules! answer {
    ($side:ident, $given:expr) => {{
        use $side::blocks::{allocate_block, AllocState, ExpSet, SlotAlloc};
        let given: &Given = $given;
        let state = AllocState {
            bai: Some(given.bai),
            csnroffst: Some(given.csnroffst),
            fsnroffst: given.fsnroffst,
            fgaincod: given.fgaincod,
            cplleak: given.leak,
            ..AllocState::default()
        };
        let set = |asked: &Asked| ExpSet {
            exp: asked.exponents.clone(),
            start: asked.covered.0,
            end: asked.covered.1,
        };
        let sets: Vec<ExpSet> = given.slots.iter().map(set).collect();
        let slot = |(asked, exps)| {
            let Asked {
                slot, range, high, ..
            }: &Asked = asked;
            SlotAlloc {
                slot: *slot,
                exps,
                start: range.0,
                end: range.1,
                high_efficiency: *high,
            }
        };
        let slots: Vec<SlotAlloc> = given.slots.iter().zip(&sets).map(slot).collect();
        allocate_block(&state, given.fscod, &slots).ok()
    }};
}

#[test]
fn blocks_have_the_same_pointers() {
    differential::rust::lend().unwrap();
    let (mut random, mut taken) = (Random::new(62), 0);
    for _ in 0..4000 {
        let given = given(&mut random);
        let answer = answer!(oracle, &given);
        taken += usize::from(answer.is_some());
        assert_eq!(answer, answer!(parser, &given));
    }
    assert!((1000..3900).contains(&taken), "{taken}");
}
