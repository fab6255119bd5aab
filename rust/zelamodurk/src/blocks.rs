//! Side information and block allocation (TS 6.2.2): what the blocks of a frame carry on, and the
//! pointers of all slots of a block. Slots 0 to 4 are the full bandwidth channels, 5 is coupling, 6 is
//! LFE.

use crate::alloc::{Bin, Delta, Pointers, Tables, BINS, SEGMENTS};
use crate::core;
use crate::refusal::Refusal;
use crate::syntax::Place;

/// How many slots a block has.
pub const SLOTS: usize = 7;
/// How many bytes a state has: the header's `struct zela_state`.
pub const STATE: usize = 200;
const _: () = assert!(size_of::<State>() == STATE);
/// Where the fine offsets, the fast gains, the leak and the segments begin in it.
const FINE: usize = 8;
const GAIN: usize = FINE + SLOTS;
const LEAK: usize = GAIN + SLOTS;
const DELTAS: usize = LEAK + 3;
/// The bytes of a slot's segments.
const DELTA: usize = 1 + 3 * SEGMENTS;

/// The side information that a frame's blocks carry on, by its names in TS, not yet decoded. Beside what
/// may be unsent stands whether it was sent. A frame begins with the default: nothing sent, no segment.
/// It is laid out as the header's `struct zela_state`.
#[derive(Clone, Copy, Debug, Default, PartialEq, Eq, Hash)]
#[repr(C)]
pub struct State {
    /// Whether the five parameters were sent.
    pub bai_sent: bool,
    /// The slow decay, 0 to 3.
    pub sdcycod: u8,
    /// The fast decay, 0 to 3.
    pub fdcycod: u8,
    /// The slow gain, 0 to 3.
    pub sgaincod: u8,
    /// The knee, 0 to 3.
    pub dbpbcod: u8,
    /// The floor, 0 to 7.
    pub floorcod: u8,
    /// Whether the coarse SNR offset was sent.
    pub csnroffst_sent: bool,
    /// The coarse SNR offset, 0 to 63.
    pub csnroffst: u8,
    /// The fine SNR offset of each slot, 0 to 15.
    pub fsnroffst: [u8; SLOTS],
    /// The fast gain of each slot, 0 to 7.
    pub fgaincod: [u8; SLOTS],
    /// Whether the coupling leak was sent.
    pub cplleak_sent: bool,
    /// The fast leak of coupling, 0 to 7.
    pub cplfleak: u8,
    /// The slow leak of coupling, 0 to 7.
    pub cplsleak: u8,
    /// The delta segments of each slot. LFE's are kept and never applied.
    pub delta: [Delta; SLOTS],
}

impl State {
    /// The five parameters.
    pub const fn bai(&self) -> [u8; 5] {
        [
            self.sdcycod,
            self.fdcycod,
            self.sgaincod,
            self.dbpbcod,
            self.floorcod,
        ]
    }

    /// The state as bytes, in the order of the fields.
    pub fn bytes(&self) -> [u8; STATE] {
        let mut bytes = [0; STATE];
        bytes[0] = self.bai_sent.into();
        bytes[1..6].copy_from_slice(&self.bai());
        bytes[6..FINE].copy_from_slice(&[self.csnroffst_sent.into(), self.csnroffst]);
        bytes[FINE..GAIN].copy_from_slice(&self.fsnroffst);
        bytes[GAIN..LEAK].copy_from_slice(&self.fgaincod);
        bytes[LEAK..DELTAS].copy_from_slice(&[
            self.cplleak_sent.into(),
            self.cplfleak,
            self.cplsleak,
        ]);
        let rooms = bytes[DELTAS..].as_chunks_mut::<DELTA>().0;
        for (delta, room) in self.delta.iter().zip(rooms) {
            room[0] = delta.count;
            let rows = room[1..].as_chunks_mut::<SEGMENTS>().0;
            rows.copy_from_slice(&[delta.offset, delta.len, delta.ba]);
        }
        bytes
    }

    /// The state of its bytes. What is not 0 counts as sent.
    pub fn of_bytes(bytes: &[u8; STATE]) -> State {
        let mut state = State {
            bai_sent: bytes[0] != 0,
            sdcycod: bytes[1],
            fdcycod: bytes[2],
            sgaincod: bytes[3],
            dbpbcod: bytes[4],
            floorcod: bytes[5],
            csnroffst_sent: bytes[6] != 0,
            csnroffst: bytes[7],
            cplleak_sent: bytes[LEAK] != 0,
            cplfleak: bytes[LEAK + 1],
            cplsleak: bytes[LEAK + 2],
            ..State::default()
        };
        state.fsnroffst.copy_from_slice(&bytes[FINE..GAIN]);
        state.fgaincod.copy_from_slice(&bytes[GAIN..LEAK]);
        let rooms = bytes[DELTAS..].as_chunks::<DELTA>().0;
        for (delta, room) in state.delta.iter_mut().zip(rooms) {
            delta.count = room[0];
            let rows = room[1..].as_chunks::<SEGMENTS>().0;
            [delta.offset, delta.len, delta.ba] = [rows[0], rows[1], rows[2]];
        }
        state
    }
}

/// What a block asks for a slot, beside its exponents.
#[derive(Clone, Copy, Debug, PartialEq, Eq, Hash)]
pub struct Slot {
    /// The bins that there are exponents for, from the first to the one after the last.
    pub covered: (Bin, Bin),
    /// The first bin of the range.
    pub start: Bin,
    /// The bin after the range.
    pub end: Bin,
    /// Which table the pointers are taken from.
    pub pointers: Pointers,
}

/// The pointers of a block's slots, by slot and bin.
pub type Block = [[u8; BINS]; SLOTS];

/// The slots that a block asks for, laid out as the C interface takes them, so that what is handed over is
/// written once.
#[derive(Clone, Debug, PartialEq, Eq)]
pub struct Slots {
    pub(crate) present: [bool; SLOTS],
    pub(crate) high: [bool; SLOTS],
    pub(crate) exponents: Block,
    pub(crate) ranges: [[usize; 4]; SLOTS],
}

impl Slots {
    /// No slot at all.
    pub const NONE: Slots = Slots {
        present: [false; SLOTS],
        high: [false; SLOTS],
        exponents: [[0; BINS]; SLOTS],
        ranges: [[0; 4]; SLOTS],
    };

    /// Asks for a slot, with its exponents by bin: at most 256 are taken, and those that are not given are 0.
    /// False where the slot is above 6 or was asked for before; nothing is changed then.
    #[inline]
    #[must_use]
    pub fn ask(&mut self, n: usize, slot: &Slot, exponents: impl IntoIterator<Item = u8>) -> bool {
        let Some(present @ false) = self.present.get_mut(n) else {
            return false;
        };
        *present = true;
        self.high[n] = slot.pointers == Pointers::Hebap;
        let (from, to) = slot.covered;
        self.ranges[n] = [from.0, to.0, slot.start.0, slot.end.0];
        for (to, from) in self.exponents[n].iter_mut().zip(exponents) {
            *to = from;
        }
        true
    }
}

/// A slot's deltbae code: 2 ends its segments, 0 and 1 leave them. The state is as it was where it is
/// refused.
///
/// # Errors
/// In this order: 6 where the slot is above 6; 15 where the code is 0 in block 0, or above 2. The bit
/// is 0.
#[inline]
pub fn delta_code(state: &mut State, slot: usize, code: u32, block0: bool) -> Result<(), Refusal> {
    core::delta_code(state, slot, code, block0)
}

/// Reads a slot's segments at the cursor: deltnseg, then offset, length and ba of one more than it says.
/// Each element is logged, and the cursor stands after those that were read, taken or refused; the state
/// is as it was where it is refused.
///
/// # Errors
/// In this order: 6 where the slot is above 6, the place is not sound, or its count past the log's room;
/// for each element 1 where it would pass the limit, and 19 where the log is full. The bit is the
/// cursor's.
#[inline]
pub fn read_delta(
    frame: &[u8],
    log: &mut [u32],
    place: &mut Place,
    state: &mut State,
    slot: usize,
) -> Result<(), Refusal> {
    core::read_delta(frame, log, place, state, slot)
}

/// The pointers of a block's slots: zeros for a slot that is not there, and for all where no SNR offset is
/// in use. They are all zeros where it is refused.
///
/// # Errors
/// In this order: 21 where a table is unfit; 11 where a code that was sent, or one of a slot, there or
/// not, is past its table; 10 where csnroffst was not sent, and where the five parameters were not. Then,
/// unless no SNR offset is in use, slot by slot: 12 where the exponents don't cover the range; 10 where
/// coupling's leak was not sent; with a range that is not empty, 6 where it ends above bin 253, and 8
/// where one of its exponents is above 24. The bit is 0.
#[inline]
pub fn allocate_block(
    state: &State,
    fscod: u8,
    slots: &Slots,
    tables: &Tables,
    pointers: &mut Block,
) -> Result<(), Refusal> {
    core::allocate_block(state, fscod, slots, tables, pointers)
}

/// What [`allocate_block`] comes to for a block that asks for no slot, which has no pointers: most blocks of a
/// frame with AHT ask for none.
///
/// # Errors
/// In this order: 21 where a table is unfit; 11 where a code that was sent, or one of a slot, is past its table;
/// 10 where csnroffst was not sent, and where the five parameters were not. The bit is 0.
#[inline]
pub fn allocate_none(state: &State, fscod: u8, tables: &Tables) -> Result<(), Refusal> {
    core::allocate_none(state, fscod, tables)
}

#[cfg(test)]
mod tests {
    use super::*;

    #[test]
    fn the_state_comes_back_from_its_bytes() {
        let bytes = std::array::from_fn(|n| match n {
            0 | 6 | LEAK => 1,
            _ => n as u8,
        });
        let state = State::of_bytes(&bytes);
        assert_eq!(state.bytes(), bytes);
        assert_eq!((state.sdcycod, state.csnroffst), (1, 7));
        assert_eq!((state.fsnroffst[6], state.fgaincod[6]), (14, 21));
        assert_eq!((state.cplsleak, state.delta[0].count), (24, 25));
        assert_eq!((state.delta[6].count, state.delta[6].ba[7]), (175, 199));
        assert_eq!(State::default().bytes(), [0; STATE]);
    }

    /// The fields of one of the header's structs, and how many there are of each.
    fn fields(name: &str) -> Vec<(&'static str, usize)> {
        const HEADER: &str = include_str!("../../../include/zelamodurk.h");
        let start = format!("struct {name} {{");
        let lines = HEADER.lines().skip_while(|line| *line != start).skip(1);
        lines
            .take_while(|line| *line != "};")
            .map(|line| {
                let field = line.split(';').next().unwrap_or_default();
                let field = field.rsplit(' ').next().unwrap_or_default();
                match field.trim_end_matches(']').split_once('[') {
                    Some((name, count)) => (name, count.parse().unwrap_or(0)),
                    None => (field, 1),
                }
            })
            .collect()
    }

    #[test]
    fn the_state_is_the_headers() {
        let delta = [("count", 1), ("offset", 8), ("len", 8), ("ba", 8)];
        assert_eq!(fields("zela_delta"), delta);
        let state = [
            ("bai_sent", 1),
            ("sdcycod", 1),
            ("fdcycod", 1),
            ("sgaincod", 1),
            ("dbpbcod", 1),
            ("floorcod", 1),
            ("csnroffst_sent", 1),
            ("csnroffst", 1),
            ("fsnroffst", SLOTS),
            ("fgaincod", SLOTS),
            ("cplleak_sent", 1),
            ("cplfleak", 1),
            ("cplsleak", 1),
            ("delta", SLOTS),
        ];
        assert_eq!(fields("zela_state"), state);
    }

    #[test]
    fn a_slot_that_is_not_there_is_handed_over_as_zeros() {
        let slot = Slot {
            covered: (Bin(1), Bin(9)),
            start: Bin(2),
            end: Bin(8),
            pointers: Pointers::Hebap,
        };
        let mut slots = Slots::NONE;
        assert!(slots.ask(5, &slot, [3; 9]));
        assert_eq!(slots.present.map(u8::from), [0, 0, 0, 0, 0, 1, 0]);
        assert_eq!(slots.high, slots.present);
        assert_eq!(slots.exponents[4], [0; BINS]);
        assert_eq!(slots.exponents[5][..9], [3; 9]);
        assert_eq!(slots.exponents[5][9..], [0; BINS - 9]);
        assert_eq!((slots.ranges[4], slots.ranges[5]), ([0; 4], [1, 9, 2, 8]));
    }

    #[test]
    fn a_slot_is_asked_for_once() {
        let slot = |end| Slot {
            covered: (Bin(0), Bin(9)),
            start: Bin(0),
            end: Bin(end),
            pointers: Pointers::Bap,
        };
        let mut slots = Slots::NONE;
        assert!(slots.ask(6, &slot(8), [3; BINS + 1]));
        let before = slots.clone();
        assert!(!slots.ask(6, &slot(7), [4; BINS]));
        assert!(!slots.ask(7, &slot(7), [4; BINS]));
        assert!(!slots.ask(usize::MAX, &slot(7), [4; BINS]));
        assert_eq!(slots, before);
    }
}
