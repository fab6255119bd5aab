//! `zela reseal`: new checksums over the bytes as they are, for frames that were edited.

use crate::args::Rewrite;
use crate::core;
use crate::frames::{Frame, Item};
use crate::outcome::{Failure, Outcome};
use crate::output;
use crate::report::{Record, Value};
use crate::rewrite::{self, Done, Fate, Places, Put, Way};
use crate::trouble::{Bad, Place, Trouble};
use crate::words::counted;

/// Gives new checksums to the frames of a file.
pub fn run(asked: &Rewrite) -> Result<Outcome, Failure> {
    let way = Reseal {
        frames: 0,
        resealed: Places::new(asked),
        left_out: Places::new(asked),
    };
    rewrite::run(asked, way)
}

/// What was written, and what was left out.
#[derive(Clone)]
struct Reseal {
    frames: u64,
    resealed: Places,
    left_out: Places,
}

/// A frame with its checksums made good. One that is so short that they stand in its header, which then
/// says something else, can't have any.
fn resealed(frame: &Frame<'_>) -> Option<Vec<u8>> {
    let mut bytes = frame.bytes.to_vec();
    core::repair(&mut bytes, frame.codec).ok()?;
    let header = core::probe(&bytes).ok()?;
    (header.bytes == bytes.len()).then_some(bytes)
}

impl Reseal {
    fn frame(&mut self, place: Place, frame: &Frame<'_>, put: &mut Put<'_>) -> Result<(), Failure> {
        let bytes = frame.bytes.len() as u64;
        if frame.status.is_good() {
            self.frames += 1;
            return put(frame.bytes);
        }
        let bad = Bad::new(place, bytes, Trouble::Checksum(frame.status));
        match resealed(frame) {
            Some(sealed) => {
                self.resealed.add(bad);
                self.frames += 1;
                put(&sealed)
            }
            None => {
                self.left_out.add(bad);
                Ok(())
            }
        }
    }
}

impl Way for Reseal {
    fn take(&mut self, place: Place, item: Item<'_>, put: &mut Put<'_>) -> Result<(), Failure> {
        match item {
            Item::Frame(frame) => self.frame(place, &frame, put),
            Item::Gap(gap) => {
                self.left_out.add(Bad::new(place, gap.bytes, gap.trouble));
                Ok(())
            }
        }
    }

    fn frames(&self) -> u64 {
        self.frames
    }

    fn in_place(&self) -> &'static str {
        "; use --in-place"
    }

    /// Nothing of a file may be lost, so that it is replaced only where all of it is frames.
    fn is_worth_it(&self) -> bool {
        self.resealed.count > 0 && self.left_out.count == 0
    }

    fn outcome(&self) -> Outcome {
        match self.left_out.count {
            0 => Outcome::Good,
            _ => Outcome::Damage,
        }
    }

    fn lines(&self, done: &Done) -> Vec<String> {
        let mut lines = sealed_lines(&self.resealed, done);
        if self.left_out.count == 0 {
            return lines;
        }
        let bytes = counted(self.left_out.bytes, "byte", "bytes");
        let places = counted(self.left_out.count, "place", "places");
        let result = match done.fate {
            Fate::Written | Fate::Replaced => "Left out",
            Fate::Tried => "Would be left out",
            Fate::Left => "Would be lost",
        };
        lines.push(format!(
            "{result}, since no frame there can be resealed: {bytes} at {places}:"
        ));
        lines.extend(self.left_out.lines(told));
        lines.push("For damage there is 'zela fix'.".to_string());
        lines
    }

    fn record(&self, record: &mut Record) {
        record.add("frames", Value::Number(self.frames));
        record.add("resealed", Value::Number(self.resealed.count));
        record.add("left_out_bytes", Value::Number(self.left_out.bytes));
        Bad::add_first(record, self.left_out.first());
        record.add("left_out_places", Value::Number(self.left_out.count));
        record.add("resealed_at", self.resealed.records(record_of));
        record.add("left_out_at", self.left_out.records(record_of));
    }
}

fn told(bad: &Bad, _: u64) -> String {
    bad.to_string()
}

fn record_of(bad: &Bad, _: u64) -> Record {
    bad.record()
}

/// How many frames had bad checksums, and what it means that they have no longer.
fn sealed_lines(resealed: &Places, done: &Done) -> Vec<String> {
    if resealed.count == 0 {
        return vec!["No frame was given new checksums.".to_string()];
    }
    let (had, has) = match resealed.count {
        1 => ("1 frame".to_string(), "has"),
        many => (counted(many, "frame", "frames"), "have"),
    };
    let result = match done.fate {
        Fate::Written | Fate::Replaced => format!("and {has} new ones now"),
        Fate::Tried => "and would get new ones".to_string(),
        Fate::Left => format!("and {has} them still"),
    };
    let mut lines = vec![format!("{had} had bad checksums, {result}:")];
    lines.extend(resealed.lines(told));
    let out = output::spoken(&done.out);
    let shows = match done.fate {
        Fate::Written | Fate::Replaced => "shows it any more",
        Fate::Tried => "would show it any more",
        Fate::Left => return lines,
    };
    lines.push(format!(
        "If that was damage, and no edit of yours, nothing in {out} {shows}."
    ));
    lines
}
