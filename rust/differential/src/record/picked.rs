//! The recorded calls that are picked out of the compared cases: of each function and each number that it
//! answers the first, the second, the fourth, the eighth and so on, which a line has room for.

use crate::answers::{expected, By};
use crate::call::{Call, NAMES};
use crate::frames;
use crate::sides;
use crate::slots;
use crate::vectors;
use std::collections::HashMap;

pub const SETS_HEAD: &str = "\
# Answers of the function of exponents. PLACE is POS LIMIT BLOCK COUNT:
# read_exponents FIRST SECOND WORDS PLACE SLOT STRATEGY START END, answers .. POS COUNT START END
# FIRST is the frame, WORDS the log; SECOND is the room for the exponents, and after the = those.
";

pub const WALKS_HEAD: &str = "\
# Answers of the functions of walks and aht. PLACE is POS LIMIT BLOCK COUNT:
# conventional FIRST SECOND PLACE START END G1 G2 G4, answers .. POS COUNT G1 G2 G4
# aht FIRST SECOND PLACE START END, answers .. POS COUNT, and the value is the tags
# FIRST is the frame, SECOND the pointers of the 256 bins.
";

pub const DELTAS_HEAD: &str = "\
# Answers of the functions of blocks for segments. PLACE is POS LIMIT BLOCK COUNT:
# delta_code SECOND SLOT CODE BLOCK0
# read_delta FIRST SECOND WORDS PLACE SLOT, answers .. POS COUNT
# FIRST is the frame, SECOND the state, its 200 bytes in C, WORDS the log.
";

pub const BLOCKS_HEAD: &str = "\
# Answers of the function of blocks for a block:
# allocate_block FIRST SECOND WORDS FSCOD, and of each slot PRESENT HIGH EXP_START EXP_END START END
# FIRST is the exponents of seven slots, after the = the pointers, and LOG_ADD behind them; SECOND is the
# state, its 200 bytes in C, WORDS is HEARING.
";

pub const FRAMES_HEAD: &str = "\
# Answers of the functions of probe, frame and repair. PLACE is POS LIMIT BLOCK COUNT, EAC3 1 for E-AC-3:
# probe FIRST, answers .. EAC3 BYTES where taken
# read_tail FIRST WORDS PLACE TOTAL EAC3, answers .. POS COUNT BLOCK, and where taken the user bits' START WIDTH
# crc_status FIRST EAC3, answers .. CRC1 CRC2 where taken, 1 for a good one, and CRC1 0 for E-AC-3
# repair FIRST EAC3
# FIRST is the frame, WORDS the log.
";

/// A file has room for lines of so many letters, below its head.
const ROOM: usize = 62_000;

/// Picks calls that are no longer than so many letters, so many of each kind, and no more than a file has
/// room for.
struct Picker {
    longest: usize,
    most: usize,
    room: usize,
    seen: HashMap<(usize, u8), usize>,
    calls: Vec<Call<'static>>,
    failed: Option<String>,
}

impl Picker {
    fn new(longest: usize, most: usize) -> Picker {
        Picker {
            longest,
            most,
            room: ROOM,
            seen: HashMap::new(),
            calls: Vec::new(),
            failed: None,
        }
    }

    fn visit(&mut self, call: &Call) {
        if self.failed.is_none() {
            self.failed = self.pick(call).err();
        }
    }

    fn pick(&mut self, call: &Call) -> Result<(), String> {
        let lent = sides::lent(call);
        // Most calls are far too long: their text is not made.
        let is_long = lent.digits() > self.longest || call.to_string().len() > self.longest;
        if is_long || !lent.fits() {
            return Ok(());
        }
        let answer = expected(call)?;
        let (function, number) = (call.function(), answer.number);
        let seen = self.seen.entry((function, number)).or_default();
        *seen += 1;
        if seen.is_power_of_two() && *seen < 1 << self.most {
            let line = vectors::line(call, &answer, By::Differs)?.len() + 1;
            if line <= self.room {
                self.room -= line;
                self.calls.push(sides::call(NAMES[function], lent)?);
            }
        }
        Ok(())
    }

    fn calls(self) -> Result<Vec<Call<'static>>, String> {
        self.failed.map_or(Ok(self.calls), Err)
    }
}

pub fn sets() -> Result<Vec<Call<'static>>, String> {
    let mut picker = Picker::new(2_000, 6);
    slots::sets::all(&mut |call| picker.visit(call));
    picker.calls()
}

pub fn walks() -> Result<Vec<Call<'static>>, String> {
    let mut picker = Picker::new(1_500, 8);
    slots::walks::all(&mut |call| picker.visit(call));
    slots::aht::all(&mut |call| picker.visit(call));
    picker.calls()
}

pub fn deltas() -> Result<Vec<Call<'static>>, String> {
    let mut picker = Picker::new(1_200, 6);
    slots::deltas::all(&mut |call| picker.visit(call));
    picker.calls()
}

/// A block has a long line: a file has room for six of them.
pub fn blocks() -> Result<Vec<Call<'static>>, String> {
    let mut picker = Picker::new(7_000, 1);
    slots::blocks::all(&mut |call| picker.visit(call));
    picker.calls()
}

pub fn frames() -> Result<Vec<Call<'static>>, String> {
    let mut picker = Picker::new(1_500, 8);
    frames::all(&mut |call| picker.visit(call));
    picker.calls()
}
