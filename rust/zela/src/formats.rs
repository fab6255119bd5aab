//! The format of a stream, and where it changes.
//!
//! A frame is compared with the one of the same substream before it, and a unit with the one before it, so that a
//! substream that comes or goes is a change too. A unit beside damage may lack a frame: only its frames are compared.

use crate::clock::Time;
use crate::frames::Frame;
use crate::sound::{Format, Sound, Substream};
use crate::trouble::{Bad, Place, Trouble};
use crate::units::Unit;

/// How many bytes one frame of a constant bit rate may be longer than another, where the rate is no whole
/// number of words a frame (TS 4.4.1.4: at 44.1 kHz a word more).
const WORD: u64 = 2;

/// What is known of a stream's format.
#[derive(Clone, Default)]
pub struct Formats {
    unit: Unit,
    /// Where the unit begins, its bytes and its time.
    place: Place,
    bytes: u64,
    time: Time,
    /// What the next frames are compared with. It is broken where not all substreams of it are known.
    known: Unit,
    /// The format of the first frame, where there is no good one.
    first: Option<Format>,
    layout_varies: bool,
    rate_varies: bool,
    /// The bytes, frames and time of the first whole unit.
    pace: Option<(u64, u64, Time)>,
    pace_varies: bool,
}

impl Formats {
    /// The next frame, with the changes that it tells: the unit before it may be complete by it.
    pub fn add(&mut self, place: Place, frame: &Frame<'_>) -> Vec<Bad> {
        let Some(Sound { format, .. }) = frame.sound.filter(|_| frame.status.is_good()) else {
            self.first = self.first.or(frame.sound.map(|sound| sound.format));
            self.interrupt();
            return Vec::new();
        };
        let mut changes = Vec::new();
        if self.unit.formats.is_empty() || self.unit.is_before(&format) {
            changes.extend(self.complete());
            self.unit.begin(&format);
            (self.place, self.bytes, self.time) = (place, 0, Time::default());
        }
        let before = self.known.counterpart(&self.unit, &format);
        self.unit.push(format);
        if before.is_some_and(|before| before != format) {
            // What else the new format has is not known before its unit is complete.
            let now = Unit::of(self.unit.formats.clone(), true);
            changes.push(self.change_to(now, place));
        }
        self.bytes += frame.bytes.len() as u64;
        self.time += frame.sound.map(|sound| sound.time()).unwrap_or_default();
        changes
    }

    /// Damage stands here.
    pub fn interrupt(&mut self) {
        self.unit.interrupt();
    }

    /// The unit is complete.
    pub fn complete(&mut self) -> Option<Bad> {
        if self.unit.formats.is_empty() {
            return None;
        }
        if self.unit.is_broken {
            if self.known.formats.is_empty() {
                self.known = Unit::of(self.unit.formats.clone(), true);
            }
            return None;
        }
        self.compare_pace();
        if self.known.is_broken || self.known.formats.is_empty() {
            self.known = Unit::of(self.unit.formats.clone(), false);
            return None;
        }
        if self.unit.formats == self.known.formats {
            return None;
        }
        let now = Unit::of(self.unit.formats.clone(), false);
        Some(self.change_to(now, self.place))
    }

    fn change_to(&mut self, now: Unit, place: Place) -> Bad {
        let was = std::mem::replace(&mut self.known, now);
        let (was, is) = (&was.formats, &self.known.formats);
        self.layout_varies |= layout(was) != layout(is);
        self.rate_varies |= rate(was) != rate(is);
        let (was, is) = (words(was).into(), words(is).into());
        Bad::new(place, 0, Trouble::Changed { was, is })
    }

    fn compare_pace(&mut self) {
        let unit = (self.bytes, self.unit.formats.len() as u64, self.time);
        let (bytes, frames, time) = *self.pace.get_or_insert(unit);
        let (ours, theirs) = (self.time.parts_of(bytes), time.parts_of(self.bytes));
        let longer = time.max(self.time);
        let padding = longer.parts_of(WORD * frames.max(unit.1));
        self.pace_varies |= ours.abs_diff(theirs) > padding;
    }

    fn shown(&self) -> Vec<Format> {
        match self.known.formats.is_empty() {
            true => self.first.into_iter().collect(),
            false => self.known.formats.clone(),
        }
    }

    /// As in 3/2.1, with the number of further substreams behind it, as in 3/2.1+1.
    pub fn layout(&self) -> Option<String> {
        match self.layout_varies {
            true => Some("varies".to_string()),
            false => layout(&self.shown()),
        }
    }

    /// Samples a second; none where there is not one for the whole stream.
    pub fn rate(&self) -> Option<u64> {
        rate(&self.shown()).filter(|_| !self.rate_varies)
    }

    pub fn rate_varies(&self) -> bool {
        self.rate_varies
    }

    pub fn bit_rate_varies(&self) -> bool {
        self.pace_varies
    }
}

fn layout(formats: &[Format]) -> Option<String> {
    let (first, more) = formats.split_first()?;
    Some(match more.len() {
        0 => first.layout().to_string(),
        more => format!("{}+{more}", first.layout()),
    })
}

fn rate(formats: &[Format]) -> Option<u64> {
    formats.first()?.rate
}

/// The formats of a unit in words.
fn words(formats: &[Format]) -> String {
    let with = |format: &Format| match format.substream {
        Substream::Independent(0) => format.to_string(),
        Substream::Independent(id) => format!("independent {id} {format}"),
        Substream::Dependent(id) => format!("dependent {id} {format}"),
        Substream::Reserved(id) => format!("reserved {id} {format}"),
    };
    let all: Vec<String> = formats.iter().map(with).collect();
    all.join(" with ")
}

#[cfg(test)]
mod tests;
