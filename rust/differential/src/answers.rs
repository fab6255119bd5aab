//! What a call answers.

use crate::call::{hex, words_hex, Call};
use crate::rule;
use crate::rust;
use std::fmt;
use zelamodurk::alloc::BINS;
use zelamodurk::blocks::{State, SLOTS};
use zelamodurk::frame::{Header, Status, UserBits};
use zelamodurk::syntax::{Element, Place};
use zelamodurk::walks::Groups;

/// What a call answers and leaves.
#[derive(Clone, Debug, Default, PartialEq, Eq)]
pub struct Answer {
    /// 0, or the refusal's number.
    pub number: u8,
    /// The bit that the refusal carries.
    pub bit: usize,
    /// The value, with 1 for true; 0 where refused.
    pub value: u32,
    /// The bytes after a set or a repair, the pointers of an allocation, the exponents of a set; empty for the
    /// other functions.
    pub after: Vec<u8>,
    /// The cursor's numbers after the call, where it has a cursor.
    pub place: Option<Place>,
    /// The log after a call that may log; empty for the other functions.
    pub log: Vec<u32>,
    /// The element that was looked at; none where refused.
    pub element: Option<Element>,
    /// The range of an exponent set.
    pub range: Option<(usize, usize)>,
    /// The groups after a conventional walk.
    pub groups: Option<Groups>,
    /// The allocation state after a call that may change it.
    pub state: Option<Box<State>>,
    /// What a header says; none where refused.
    pub header: Option<Header>,
    /// Where a tail's user bits stand; none where refused.
    pub user: Option<UserBits>,
    /// Which checksums are good; none where refused.
    pub status: Option<Status>,
}

impl Answer {
    /// A taken call's answer.
    pub fn taken(value: u32, after: Vec<u8>) -> Self {
        Answer {
            value,
            after,
            ..Self::default()
        }
    }

    /// A refused call's answer: nothing found, nothing changed. The bit is the cursor's, and 0 where
    /// there is none.
    pub fn refused(number: u8, call: &Call) -> Self {
        let after = match call {
            Call::Set { bytes, .. } | Call::Repair { frame: bytes, .. } => bytes.to_vec(),
            Call::Allocate(_) | Call::ReadExponents { .. } => vec![0; BINS],
            Call::AllocateBlock(_) => vec![0; SLOTS * BINS],
            _ => Vec::new(),
        };
        let log = call.standing().map(|from| from.log.to_vec());
        Answer {
            number,
            bit: call.place().map_or(0, |place| place.pos),
            after,
            place: call.place(),
            log: log.unwrap_or_default(),
            range: matches!(call, Call::ReadExponents { .. }).then_some((0, 0)),
            groups: call.groups(),
            state: call.state().copied().map(Box::new),
            ..Self::default()
        }
    }
}

impl fmt::Display for Answer {
    fn fmt(&self, f: &mut fmt::Formatter<'_>) -> fmt::Result {
        let (number, bit, value) = (self.number, self.bit, self.value);
        let after = hex(&self.after);
        write!(
            f,
            "number {number}, bit {bit}, value {value}, bytes {after}"
        )?;
        if let Some(place) = self.place {
            write!(f, ", {place:?}, log {}", words_hex(&self.log))?;
        }
        if let Some(element) = self.element {
            write!(f, ", {element:?}")?;
        }
        if let Some((start, end)) = self.range {
            write!(f, ", range {start}..{end}")?;
        }
        if let Some(groups) = self.groups {
            write!(f, ", {groups:?}")?;
        }
        if let Some(state) = &self.state {
            write!(f, ", {state:?}")?;
        }
        if let Some(header) = self.header {
            write!(f, ", {header:?}")?;
        }
        if let Some(user) = self.user {
            write!(f, ", {user:?}")?;
        }
        if let Some(status) = self.status {
            write!(f, ", {status:?}")?;
        }
        Ok(())
    }
}

/// Who a recorded answer comes from.
#[derive(Clone, Copy, Debug, PartialEq, Eq)]
pub enum By {
    /// The Rust answers so.
    Rust,
    /// The Rust panics, and document 01 decides.
    Panics,
    /// The Rust answers something else, and document 01 decides.
    Differs,
}

impl By {
    /// Each, with its word.
    pub const WORDS: [(By, &'static str); 3] = [
        (By::Rust, "rust"),
        (By::Panics, "panics"),
        (By::Differs, "differs"),
    ];
}

impl fmt::Display for By {
    fn fmt(&self, f: &mut fmt::Formatter<'_>) -> fmt::Result {
        let word = By::WORDS.iter().find(|(by, _)| by == self);
        f.write_str(word.map_or("", |(_, word)| word))
    }
}

/// What document 01 asks of a call: a refusal of its own or an empty range past the bins, where the Rust
/// is not asked, and else the Rust's answer, which must have document 01's number. What a call that reads
/// on is refused with comes out of the bits: the Rust's number is taken, and document 01's for a full log.
pub fn expected(call: &Call) -> Result<Answer, String> {
    let number = rule::number(call);
    if rule::is_ports_own(call, number) {
        return Ok(Answer::refused(number, call));
    }
    if let Call::Allocate(given) = call {
        if rule::is_empty_past_the_bins(given) {
            return Ok(Answer::taken(0, vec![0; BINS]));
        }
    }
    if rule::reads_on(call) {
        return read_on(call);
    }
    let answer = rule::reading::in_room(call, of_the_rust(call)?);
    if answer.number == number {
        return Ok(answer);
    }
    Err(format!(
        "the Rust's number is {}, document 01's {number}",
        answer.number
    ))
}

/// The Rust's answer, held to the room that the log has. The sums of a cursor near the largest number come
/// round in the Rust: it is asked with the cursor just past its limit, where nothing can be read either.
fn read_on(call: &Call) -> Result<Answer, String> {
    let Some(near) = rule::reading::nearer(call) else {
        return Ok(rule::reading::in_room(call, of_the_rust(call)?));
    };
    let mut answer = rule::reading::in_room(&near, of_the_rust(&near)?);
    if answer.place != near.place() {
        return Err("the Rust moved a cursor past its limit".to_string());
    }
    answer.place = call.place();
    if answer.number != 0 {
        answer.bit = answer.place.map_or(0, |place| place.pos);
    }
    Ok(answer)
}

fn of_the_rust(call: &Call) -> Result<Answer, String> {
    let asked = rust::ask(call).ok_or("the Rust is not there")?;
    if asked.panicked {
        return Err("the Rust panics where document 01 does not refuse the call".to_string());
    }
    Ok(asked.answer)
}

/// The expected answer, and who it comes from: here the Rust is asked about every call.
pub fn witnessed(call: &Call) -> Result<(Answer, By), String> {
    let answer = expected(call)?;
    let asked = rust::ask(call).ok_or("the Rust is not there")?;
    let by = if asked.panicked {
        By::Panics
    } else if asked.answer == answer {
        By::Rust
    } else {
        By::Differs
    };
    Ok((answer, by))
}
