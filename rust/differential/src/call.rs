//! A call of one of the functions that are compared.

mod allocation;
mod slots;

use crate::sides;
use std::borrow::Cow;
use std::fmt;
use zelamodurk::blocks::State;
use zelamodurk::exponents;
use zelamodurk::frame::Codec;
use zelamodurk::syntax::{Ask, Place, Role};
use zelamodurk::walks::Groups;

pub use allocation::Allocation;
pub use slots::{Asking, Block, Walk};

/// The functions' names, in the order of [`Call::function`].
pub const NAMES: [&str; 23] = [
    "get",
    "set",
    "range_eq",
    "range_zero",
    "crc16",
    "zeros",
    "read_element",
    "read_raw",
    "span",
    "close_span",
    "check_tiling",
    "element_at",
    "allocate",
    "read_exponents",
    "conventional",
    "aht",
    "delta_code",
    "read_delta",
    "allocate_block",
    "probe",
    "read_tail",
    "crc_status",
    "repair",
];

/// Bytes that a case lends or owns.
pub type Bytes<'a> = Cow<'a, [u8]>;
/// A log's words that a case lends or owns.
pub type Words<'a> = Cow<'a, [u32]>;

/// What a call that logs is given besides its own: the frame, the log, and where the cursor stands.
#[derive(Clone, PartialEq, Eq)]
pub struct Standing<'a> {
    /// The frame's bytes.
    pub frame: Bytes<'a>,
    /// The log's words.
    pub log: Words<'a>,
    /// The cursor's numbers.
    pub place: Place,
}

impl<'a> Standing<'a> {
    /// A frame, a log and a place.
    pub fn new(
        frame: impl Into<Bytes<'a>>,
        log: impl Into<Words<'a>>,
        place: Place,
    ) -> Standing<'a> {
        let (frame, log) = (frame.into(), log.into());
        Standing { frame, log, place }
    }

    /// The same, lent.
    pub fn lent(&self) -> Standing<'_> {
        Standing::new(&*self.frame, &*self.log, self.place)
    }

    /// The same with the cursor elsewhere.
    pub fn at(mut self, place: Place) -> Self {
        self.place = place;
        self
    }
}

/// A call, with what it is given.
#[derive(Clone, PartialEq, Eq)]
#[allow(missing_docs)]
pub enum Call<'a> {
    Get {
        bytes: Bytes<'a>,
        pos: usize,
        n: usize,
    },
    Set {
        bytes: Bytes<'a>,
        pos: usize,
        n: usize,
        value: u32,
    },
    RangeEq {
        x: Bytes<'a>,
        a: usize,
        y: Bytes<'a>,
        b: usize,
        n: usize,
    },
    RangeZero {
        x: Bytes<'a>,
        a: usize,
        n: usize,
    },
    Crc16 {
        init: u16,
        bytes: Bytes<'a>,
    },
    Zeros {
        init: u16,
        n: usize,
    },
    ReadElement {
        from: Standing<'a>,
        ask: Ask,
    },
    ReadRaw {
        frame: Bytes<'a>,
        place: Place,
        width: usize,
    },
    Span {
        from: Standing<'a>,
        name: u32,
        role: Role,
        width: usize,
    },
    CloseSpan {
        from: Standing<'a>,
        name: u32,
        role: Role,
        start: usize,
    },
    CheckTiling {
        log: Words<'a>,
        count: usize,
        total: usize,
    },
    ElementAt {
        log: Words<'a>,
        count: usize,
        k: usize,
    },
    Allocate(Box<Allocation<'a>>),
    ReadExponents {
        from: Standing<'a>,
        ask: exponents::Ask,
    },
    Conventional {
        walk: Box<Walk<'a>>,
        groups: Groups,
    },
    Aht(Box<Walk<'a>>),
    DeltaCode {
        state: Box<State>,
        slot: usize,
        code: u32,
        block0: bool,
    },
    ReadDelta {
        from: Standing<'a>,
        state: Box<State>,
        slot: usize,
    },
    AllocateBlock(Box<Block<'a>>),
    Probe {
        frame: Bytes<'a>,
    },
    ReadTail {
        from: Standing<'a>,
        total: usize,
        codec: Codec,
    },
    CrcStatus {
        frame: Bytes<'a>,
        codec: Codec,
    },
    Repair {
        frame: Bytes<'a>,
        codec: Codec,
    },
}

impl<'a> Call<'a> {
    /// A read.
    pub fn get(bytes: impl Into<Bytes<'a>>, pos: usize, n: usize) -> Self {
        let bytes = bytes.into();
        Call::Get { bytes, pos, n }
    }

    /// A write.
    pub fn set(bytes: impl Into<Bytes<'a>>, pos: usize, n: usize, value: u32) -> Self {
        let bytes = bytes.into();
        Call::Set {
            bytes,
            pos,
            n,
            value,
        }
    }

    /// A comparison of two ranges.
    pub fn range_eq(
        (x, a): (impl Into<Bytes<'a>>, usize),
        (y, b): (impl Into<Bytes<'a>>, usize),
        n: usize,
    ) -> Self {
        let (x, y) = (x.into(), y.into());
        Call::RangeEq { x, a, y, b, n }
    }

    /// A comparison of a range with zeros.
    pub fn range_zero(x: impl Into<Bytes<'a>>, a: usize, n: usize) -> Self {
        let x = x.into();
        Call::RangeZero { x, a, n }
    }

    /// A CRC of bytes.
    pub fn crc16(init: u16, bytes: impl Into<Bytes<'a>>) -> Self {
        let bytes = bytes.into();
        Call::Crc16 { init, bytes }
    }

    /// A CRC of a run of zero bytes.
    pub fn zeros(init: u16, n: usize) -> Self {
        Call::Zeros { init, n }
    }

    /// A read that is logged.
    pub fn read_element(from: Standing<'a>, ask: Ask) -> Self {
        Call::ReadElement { from, ask }
    }

    /// A read that is not logged.
    pub fn read_raw(frame: impl Into<Bytes<'a>>, place: Place, width: usize) -> Self {
        let frame = frame.into();
        Call::ReadRaw {
            frame,
            place,
            width,
        }
    }

    /// A span of bits.
    pub fn span(from: Standing<'a>, (name, role): (u32, Role), width: usize) -> Self {
        Call::Span {
            from,
            name,
            role,
            width,
        }
    }

    /// A span up to the cursor.
    pub fn close_span(from: Standing<'a>, (name, role): (u32, Role), start: usize) -> Self {
        Call::CloseSpan {
            from,
            name,
            role,
            start,
        }
    }

    /// A check of what is logged.
    pub fn check_tiling(log: impl Into<Words<'a>>, count: usize, total: usize) -> Self {
        let log = log.into();
        Call::CheckTiling { log, count, total }
    }

    /// A look at an element.
    pub fn element_at(log: impl Into<Words<'a>>, count: usize, k: usize) -> Self {
        let log = log.into();
        Call::ElementAt { log, count, k }
    }

    /// An allocation.
    pub fn allocate(given: Allocation<'a>) -> Self {
        Call::Allocate(Box::new(given))
    }

    /// A reading of exponents.
    pub fn read_exponents(from: Standing<'a>, ask: exponents::Ask) -> Self {
        Call::ReadExponents { from, ask }
    }

    /// A conventional walk.
    pub fn conventional(walk: Walk<'a>, groups: Groups) -> Self {
        let walk = Box::new(walk);
        Call::Conventional { walk, groups }
    }

    /// An AHT walk.
    pub fn aht(walk: Walk<'a>) -> Self {
        Call::Aht(Box::new(walk))
    }

    /// A deltbae code.
    pub fn delta_code(state: State, slot: usize, code: u32, block0: bool) -> Self {
        let state = Box::new(state);
        Call::DeltaCode {
            state,
            slot,
            code,
            block0,
        }
    }

    /// A reading of delta segments.
    pub fn read_delta(from: Standing<'a>, state: State, slot: usize) -> Self {
        let state = Box::new(state);
        Call::ReadDelta { from, state, slot }
    }

    /// An allocation of a block.
    pub fn allocate_block(given: Block<'a>) -> Self {
        Call::AllocateBlock(Box::new(given))
    }

    /// A probe of a header.
    pub fn probe(frame: impl Into<Bytes<'a>>) -> Self {
        let frame = frame.into();
        Call::Probe { frame }
    }

    /// A reading of a tail.
    pub fn read_tail(from: Standing<'a>, total: usize, codec: Codec) -> Self {
        Call::ReadTail { from, total, codec }
    }

    /// A look at checksums.
    pub fn crc_status(frame: impl Into<Bytes<'a>>, codec: Codec) -> Self {
        let frame = frame.into();
        Call::CrcStatus { frame, codec }
    }

    /// A repair of checksums.
    pub fn repair(frame: impl Into<Bytes<'a>>, codec: Codec) -> Self {
        let frame = frame.into();
        Call::Repair { frame, codec }
    }

    /// The function's place among [`NAMES`].
    pub fn function(&self) -> usize {
        match self {
            Call::Get { .. } => 0,
            Call::Set { .. } => 1,
            Call::RangeEq { .. } => 2,
            Call::RangeZero { .. } => 3,
            Call::Crc16 { .. } => 4,
            Call::Zeros { .. } => 5,
            Call::ReadElement { .. } => 6,
            Call::ReadRaw { .. } => 7,
            Call::Span { .. } => 8,
            Call::CloseSpan { .. } => 9,
            Call::CheckTiling { .. } => 10,
            Call::ElementAt { .. } => 11,
            Call::Allocate(_) => 12,
            Call::ReadExponents { .. } => 13,
            Call::Conventional { .. } => 14,
            Call::Aht(_) => 15,
            Call::DeltaCode { .. } => 16,
            Call::ReadDelta { .. } => 17,
            Call::AllocateBlock(_) => 18,
            Call::Probe { .. } => 19,
            Call::ReadTail { .. } => 20,
            Call::CrcStatus { .. } => 21,
            Call::Repair { .. } => 22,
        }
    }

    /// The cursor's numbers before the call, where it has a cursor.
    pub fn place(&self) -> Option<Place> {
        match self {
            Call::ReadRaw { place, .. } => Some(*place),
            Call::Conventional { walk, .. } | Call::Aht(walk) => Some(walk.place),
            _ => self.standing().map(|from| from.place),
        }
    }

    /// What the call may log from, where it may log.
    pub fn standing(&self) -> Option<&Standing<'a>> {
        match self {
            Call::ReadElement { from, .. }
            | Call::Span { from, .. }
            | Call::CloseSpan { from, .. }
            | Call::ReadExponents { from, .. }
            | Call::ReadDelta { from, .. }
            | Call::ReadTail { from, .. } => Some(from),
            _ => None,
        }
    }

    /// The groups before the call, where it has any.
    pub fn groups(&self) -> Option<Groups> {
        match self {
            Call::Conventional { groups, .. } => Some(*groups),
            _ => None,
        }
    }

    /// The allocation state before a call that may change it.
    pub fn state(&self) -> Option<&State> {
        match self {
            Call::DeltaCode { state, .. } | Call::ReadDelta { state, .. } => Some(state),
            _ => None,
        }
    }
}

/// The call in the form of the recorded answers: the function's name, then what it is lent and asked.
impl fmt::Display for Call<'_> {
    fn fmt(&self, f: &mut fmt::Formatter<'_>) -> fmt::Result {
        write!(f, "{} {}", NAMES[self.function()], sides::lent(self))
    }
}

/// A block or an index as it is written down: two's complement in 16 bits.
pub fn word16(number: impl Into<i16>) -> u16 {
    number.into() as u16
}

/// Two lower-case digits a byte, or `-` for no byte.
pub fn hex(bytes: &[u8]) -> String {
    if bytes.is_empty() {
        return "-".to_string();
    }
    bytes.iter().map(|byte| format!("{byte:02x}")).collect()
}

/// A log's words: four bytes each, high byte first.
pub fn words_hex(words: &[u32]) -> String {
    let bytes: Vec<u8> = words.iter().flat_map(|word| word.to_be_bytes()).collect();
    hex(&bytes)
}
