//! What reads, walks and allocates slots.

use crate::channel::{self, Tables, CODES, END};
use crate::rust::cursor::Reader;
use crate::{measure, rust, written};
use std::hint::black_box;
use zelamodurk::alloc::{Bin, Pointers, BINS};
use zelamodurk::blocks::{self, Slot, Slots, State, SLOTS};
use zelamodurk::exponents::{self, Ask, ExpSet, CPL, D15, D45, LFE};
use zelamodurk::syntax::Place;
use zelamodurk::walks::{self, Groups};
use zelamodurk::{aht, alloc};

/// The words of a log with room for every element of a set.
const LOG: usize = 8 * 100;
/// The first bin of coupling, and the end of LFE.
const CPL_START: usize = 37;
const LFE_END: usize = 7;

/// The rows of this file.
pub fn all(bytes: &[u8]) {
    for (name, slot, strategy, end) in [
        ("exponents, D15, 253 bins", 0, D15, END),
        ("exponents, D45, 253 bins", 0, D45, END),
        ("exponents, LFE", LFE, D15, LFE_END),
    ] {
        let (start, end) = (Bin(0), Bin(end));
        let ask = Ask {
            slot,
            strategy,
            start,
            end,
        };
        read_exponents(name, bytes, &ask);
    }
    allocate_block(bytes);
    conventional(bytes);
    for (name, gaqmod) in [("AHT walk, gaqmod 0", 0), ("AHT walk, gaqmod 3", 3)] {
        aht_walk(name, bytes, gaqmod);
    }
}

/// An absolute exponent and groups, each of which comes back to it.
fn groups(bytes: &[u8]) -> Vec<u8> {
    // No step; up by 2 and down; up by 1 and down, from the first exponent or the second.
    let group = |byte: &u8| ([62, 102, 82, 66][usize::from(byte % 4)], 7);
    written([(8, 4)].into_iter().chain(bytes[..90].iter().map(group)))
}

/// Both log every element, and begin the log anew in each pass.
fn read_exponents(name: &str, bytes: &[u8], ask: &Ask) {
    let frame = groups(bytes);
    let (begin, mut log) = (Place::new(8 * frame.len()), [0; LOG]);
    let mut set = ExpSet::default();
    let mut reader = Reader::new(&frame);
    measure(
        name,
        1.5,
        1,
        || {
            let mut place = begin;
            let _ = black_box(exponents::read_exponents(
                black_box(&frame),
                &mut log,
                &mut place,
                ask,
                &mut set,
            ));
        },
        || {
            black_box(reader.exponents(ask));
        },
    );
}

/// The bins of a slot: five full channels, coupling and LFE.
fn range(slot: usize) -> (usize, usize) {
    match slot as u8 {
        CPL => (CPL_START, END),
        LFE => (0, LFE_END),
        _ => (0, END),
    }
}

/// Every slot by its exponents, which are there for all bins.
fn slots(sets: &[ExpSet; SLOTS]) -> Slots {
    let mut slots = Slots::NONE;
    for (n, set) in sets.iter().enumerate() {
        let (start, end) = range(n);
        let slot = Slot {
            covered: (set.start, set.end),
            start: Bin(start),
            end: Bin(end),
            pointers: Pointers::Bap,
        };
        let _ = slots.ask(n, &slot, set.exp);
    }
    slots
}

fn allocate_block(bytes: &[u8]) {
    let sets: [ExpSet; SLOTS] = std::array::from_fn(|slot| ExpSet {
        exp: channel::exponents(&bytes[BINS * slot..]),
        start: Bin(0),
        end: Bin(END),
    });
    let (state, tables) = (state(), Tables::new());
    let rusts = rust::Block::new(&state, &sets, range);
    let mut pointers = [[0; BINS]; SLOTS];
    measure(
        "allocation of 7 slots",
        1.0,
        1,
        || {
            let fscod = CODES.fscod;
            let _ = black_box(blocks::allocate_block(
                black_box(&state),
                fscod,
                &slots(black_box(&sets)),
                &tables.lent(),
                &mut pointers,
            ));
        },
        || {
            black_box(black_box(&rusts).allocate(CODES.fscod));
        },
    );
}

/// Codes as encoders send them, alike in all slots.
fn state() -> State {
    State {
        bai_sent: true,
        sdcycod: CODES.sdcycod,
        fdcycod: CODES.fdcycod,
        sgaincod: CODES.sgaincod,
        dbpbcod: CODES.dbpbcod,
        floorcod: CODES.floorcod,
        csnroffst_sent: true,
        csnroffst: CODES.csnroffst,
        fsnroffst: [CODES.fsnroffst; SLOTS],
        fgaincod: [CODES.fgaincod; SLOTS],
        cplleak_sent: true,
        ..State::default()
    }
}

/// The pointers of a channel of 253 bins.
fn pointers(bytes: &[u8], pointers: Pointers) -> [u8; BINS] {
    let exponents = channel::exponents(bytes);
    let channel = channel::full(&exponents, pointers);
    alloc::allocate(&channel, &Tables::new().lent()).unwrap_or([0; BINS])
}

fn conventional(bytes: &[u8]) {
    let bap = pointers(bytes, Pointers::Bap);
    let (limit, start, end) = (8 * bytes.len(), Bin(0), Bin(END));
    let mut reader = Reader::new(bytes);
    measure(
        "conventional walk",
        1.0,
        1,
        || {
            let (mut pos, mut groups) = (0, Groups::default());
            let (frame, bap) = (black_box(bytes), black_box(&bap));
            let walked = walks::conventional(frame, &mut pos, limit, bap, start, end, &mut groups);
            let _ = black_box(walked);
        },
        || {
            black_box(reader.conventional(black_box(&bap), END));
        },
    );
}

/// Random bits after gaqmod, and composite gains of which none is above 26.
fn aht_walk(name: &str, bytes: &[u8], gaqmod: u32) {
    let hebap = pointers(bytes, Pointers::Hebap);
    let gain = |byte: &u8| (u32::from(byte % 27), 5);
    let gains = bytes[..END].iter().map(gain);
    let mut frame = written([(gaqmod, 2)].into_iter().chain(gains));
    frame.extend_from_slice(&bytes[..bytes.len() - frame.len()]);
    let (limit, start, end) = (8 * frame.len(), Bin(0), Bin(END));
    let mut reader = Reader::new(&frame);
    measure(
        name,
        1.0,
        1,
        || {
            let mut pos = 0;
            let (frame, hebap) = (black_box(&frame), black_box(&hebap));
            let _ = black_box(aht::aht(frame, &mut pos, limit, hebap, start, end));
        },
        || {
            black_box(reader.aht(black_box(&hebap), END));
        },
    );
}
