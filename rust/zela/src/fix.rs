//! `zela fix`: the good frames of a damaged file, with the bad ones left out or replaced.
//!
//! Frames are written by units (`units`), so that what is written has no frame of one substream without the
//! others: a unit that lacks a frame by damage is left out as a whole.

use crate::args::{Instead, Rewrite};
use crate::core::Status;
use crate::formats::Formats;
use crate::frames::{Frame, Item, Lost};
use crate::outcome::{Failure, Outcome};
use crate::report::{Record, Value};
use crate::rewrite::{self, Done, Fate, Places, Put, Way};
use crate::sound::{Format, Sound, Substream};
use crate::stand_in::{Filling, StandIns};
use crate::trouble::{Bad, Place, Trouble};
use crate::units::Unit;
use crate::words::counted;

/// Writes the good frames of a file.
pub fn run(asked: &Rewrite, instead: Instead) -> Result<Outcome, Failure> {
    let way = Fix {
        instead,
        stand_ins: StandIns::default(),
        now: Held::default(),
        whole: Vec::new(),
        held: Vec::new(),
        held_bytes: 0,
        has_first: false,
        frames: 0,
        repeated: 0,
        incomplete: 0,
        formats: Formats::default(),
        changes: 0,
        bad: Places::new(asked),
    };
    rewrite::run(asked, way)
}

/// The checksums of a frame that is written are good.
const GOOD: Status = Status {
    crc1: None,
    crc2: true,
};
/// What leaving out means for what follows.
const EARLIER: &str =
    "What follows a place comes earlier by what is left out; --bad repeat puts earlier frames there.";

/// How many bytes are held until it is known which frames a whole unit has.
const HELD: usize = 1 << 20;

/// A unit that is not written yet.
#[derive(Clone, Default)]
struct Held {
    unit: Unit,
    sounds: Vec<Sound>,
    frames: Vec<Vec<u8>>,
    /// For each of its frames that stands in for a lost one, the number of the bad place, if there was one.
    repeated: Vec<Option<u64>>,
}

impl Held {
    fn add(&mut self, sound: Sound, bytes: &[u8]) {
        self.unit.push(sound.format);
        self.sounds.push(sound);
        self.frames.push(bytes.to_vec());
    }
}

/// What was written, and what was bad.
#[derive(Clone)]
struct Fix {
    instead: Instead,
    stand_ins: StandIns,
    now: Held,
    /// The frames of the last unit that nothing was lost beside; none before there is one.
    whole: Vec<Format>,
    /// The units before that, all of them beside damage, and how many bytes they have.
    held: Vec<Held>,
    held_bytes: usize,
    /// Whether a unit began with independent substream 0.
    has_first: bool,
    frames: u64,
    /// How many of the frames stand in for lost ones.
    repeated: u64,
    /// How many frames are left out that are good, since others of their units are lost.
    incomplete: u64,
    /// The formats of what is written, and how often they change.
    formats: Formats,
    changes: u64,
    bad: Places,
}

impl Fix {
    fn good(&mut self, sound: Sound, frame: &Frame<'_>, put: &mut Put<'_>) -> Result<(), Failure> {
        self.make_room(sound, put)?;
        self.now.add(sound, frame.bytes);
        self.stand_ins.keep(sound, frame.bytes);
        Ok(())
    }

    /// Takes leave of the unit where the next frame begins another.
    fn make_room(&mut self, next: Sound, put: &mut Put<'_>) -> Result<(), Failure> {
        if !self.now.unit.is_before(&next.format) {
            return Ok(());
        }
        let is_broken = self.now.unit.is_broken;
        self.close(put)?;
        self.now.unit.is_broken = is_broken;
        self.now.unit.begin(&next.format);
        Ok(())
    }

    /// The unit has no more frames, but for those that stand in for what it lacks.
    fn close(&mut self, put: &mut Put<'_>) -> Result<(), Failure> {
        if self.now.unit.is_broken && self.instead == Instead::LastGood {
            self.complete();
        }
        let now = std::mem::take(&mut self.now);
        self.has_first |= now.unit.has_first();
        if !now.unit.is_broken && now.unit.has_first() {
            self.whole.clone_from(&now.unit.formats);
        }
        self.held_bytes += now.frames.iter().map(Vec::len).sum::<usize>();
        self.held.push(now);
        match !self.whole.is_empty() || self.held_bytes > HELD {
            true => self.write_held(put),
            false => Ok(()),
        }
    }

    fn complete(&mut self) {
        let unit = &self.now.unit;
        let next = self
            .stand_ins
            .completing(|sound| unit.is_full(&sound.format));
        if let (Some(at), true) = (next, unit.has_first()) {
            self.stand_in(at);
            self.complete();
        }
    }

    /// Writes the units that are held, but for those that lack substreams.
    fn write_held(&mut self, put: &mut Put<'_>) -> Result<(), Failure> {
        if self.whole.is_empty() {
            self.whole = self.longest();
        }
        self.held_bytes = 0;
        for held in std::mem::take(&mut self.held) {
            let (frames, repeated) = (held.frames.len() as u64, held.repeated.len() as u64);
            if self.lacks_some(&held.unit) {
                self.incomplete += frames - repeated;
                continue;
            }
            self.frames += frames;
            self.repeated += repeated;
            held.repeated
                .iter()
                .flatten()
                .for_each(|place| self.bad.stands_in(*place));
            for (sound, frame) in held.sounds.iter().zip(&held.frames) {
                put(frame)?;
                self.follow(*sound, frame);
            }
        }
        Ok(())
    }

    /// The most frames that a held unit has with its first one.
    fn longest(&self) -> Vec<Format> {
        let units = self.held.iter().map(|held| &held.unit);
        let units = units.filter(|unit| unit.has_first() || !self.has_first);
        let longest = units.max_by_key(|unit| unit.formats.len());
        longest.map_or(Vec::new(), |unit| unit.formats.clone())
    }

    /// Whether a unit beside damage, or one without its first frame, has other substreams than whole ones.
    fn lacks_some(&self, unit: &Unit) -> bool {
        let substreams = |formats: &[Format]| -> Vec<Substream> {
            formats.iter().map(|format| format.substream).collect()
        };
        let is_torn = unit.is_broken || (self.has_first && !unit.has_first());
        is_torn && substreams(&unit.formats) != substreams(&self.whole)
    }

    /// Counts the changes of format that stay, as a check will.
    fn follow(&mut self, sound: Sound, bytes: &[u8]) {
        let frame = Frame {
            codec: sound.format.codec,
            status: GOOD,
            sound: Some(sound),
            bytes,
        };
        self.changes += self.formats.add(Place::default(), &frame).len() as u64;
    }

    /// Puts what stands in for a bad place. The units on both sides of it may lack a frame.
    fn bad(&mut self, bad: Bad, lost: Option<Lost>, put: &mut Put<'_>) -> Result<(), Failure> {
        let bytes = bad.bytes;
        self.bad.add(bad);
        self.now.unit.is_broken = true;
        let stands_in = self.instead == Instead::LastGood && self.fill(lost, bytes, put)? > 0;
        // What follows a stand-in, or a few bytes, is not cut off from what was before.
        if !stands_in && (lost.is_some() || !self.stand_ins.is_little(bytes)) {
            self.now.unit.interrupt();
        }
        Ok(())
    }

    /// Adds the frames that stand in for so many lost bytes, and says how many there are.
    fn fill(&mut self, lost: Option<Lost>, bytes: u64, put: &mut Put<'_>) -> Result<u64, Failure> {
        let (mut filling, mut count) = (self.stand_ins.filling(lost, bytes), 0);
        while let Some((at, sound)) = self.next(&filling) {
            self.make_room(sound, put)?;
            filling.add(self.stand_in(at));
            count += 1;
        }
        Ok(count)
    }

    fn next(&self, filling: &Filling) -> Option<(usize, Sound)> {
        let at = self.stand_ins.candidate(filling)?;
        Some((at, self.stand_ins.sound(at)?))
    }

    /// Adds an earlier frame to the unit for the last bad place, and says how many bytes it has.
    fn stand_in(&mut self, at: usize) -> usize {
        let Some(sound) = self.stand_ins.sound(at) else {
            return 0;
        };
        let bytes = self.stand_ins.take(at);
        self.now.add(sound, bytes);
        self.now.unit.is_broken = true;
        self.now.repeated.push(self.bad.count.checked_sub(1));
        bytes.len()
    }

    /// What became of a bad place, where so many frames stand in.
    fn done(&self, stand_ins: u64) -> String {
        match (self.instead, stand_ins) {
            (Instead::Nothing, _) => "left out".to_string(),
            (Instead::LastGood, 0) => "left out, and nothing stands in".to_string(),
            (Instead::LastGood, 1) => "an earlier frame stands in".to_string(),
            (Instead::LastGood, many) => {
                format!(
                    "{} stand in",
                    counted(many, "earlier frame", "earlier frames")
                )
            }
        }
    }
}

impl Way for Fix {
    fn take(&mut self, place: Place, item: Item<'_>, put: &mut Put<'_>) -> Result<(), Failure> {
        let (bytes, trouble, lost) = match item {
            Item::Gap(gap) => (gap.bytes, gap.trouble, gap.lost),
            Item::Frame(frame) => {
                let length = frame.bytes.len();
                match frame.sound {
                    Some(sound) if frame.status.is_good() => return self.good(sound, &frame, put),
                    sound => (
                        length as u64,
                        Trouble::Checksum(frame.status),
                        sound.map(|sound| Lost {
                            sound,
                            bytes: length,
                        }),
                    ),
                }
            }
        };
        self.bad(Bad::new(place, bytes, trouble), lost, put)
    }

    /// The last unit may be torn off by the end, and is measured as one beside damage is.
    fn end(&mut self, put: &mut Put<'_>) -> Result<(), Failure> {
        let is_known = !self.whole.is_empty();
        self.now.unit.is_broken |= is_known && self.now.unit.formats.len() < self.whole.len();
        self.close(put)?;
        self.write_held(put)?;
        self.changes += u64::from(self.formats.complete().is_some());
        Ok(())
    }

    fn frames(&self) -> u64 {
        self.frames
    }

    /// There is no fix in place: what is left out of a file would be lost.
    fn is_worth_it(&self) -> bool {
        false
    }

    /// A change of format stays as it is, and is no good output either.
    fn outcome(&self) -> Outcome {
        match self.bad.count + self.incomplete + self.repeated + self.changes {
            0 => Outcome::Good,
            _ => Outcome::Damage,
        }
    }

    fn lines(&self, done: &Done) -> Vec<String> {
        let mut lines = self.bad_lines(done);
        if self.changes > 0 {
            let changes = counted(
                self.changes,
                "change of format stays",
                "changes of format stay",
            );
            lines.push(format!("{changes}: 'zela check' tells where."));
        }
        lines
    }

    fn record(&self, record: &mut Record) {
        record.add("frames", Value::Number(self.frames));
        record.add("repeated", Value::Number(self.repeated));
        record.add("bad_bytes", Value::Number(self.bad.bytes));
        Bad::add_first(record, self.bad.first());
        record.add("bad_places", Value::Number(self.bad.count));
        record.add("incomplete_frames", Value::Number(self.incomplete));
        record.add("format_changes", Value::Number(self.changes));
        let places = self.bad.records(|bad, stand_ins| {
            let mut record = bad.record();
            record.add("stand_ins", Value::Number(stand_ins));
            record
        });
        record.add("places", places);
    }
}

impl Fix {
    /// The bad places, and what was done there.
    fn bad_lines(&self, done: &Done) -> Vec<String> {
        if self.bad.count == 0 {
            let none = "No frame was bad, and no byte was in none.".to_string();
            let torn = counted(
                self.repeated,
                "earlier frame stands",
                "earlier frames stand",
            );
            let torn = (self.repeated > 0)
                .then(|| format!("{torn} in at the end, where others are missing."));
            let lines = [Some(none), torn, self.incomplete_line()];
            return lines.into_iter().flatten().collect();
        }
        let was = if self.bad.count == 1 { "was" } else { "were" };
        let places = counted(self.bad.count, "place", "places");
        let mut lines = vec![format!("{places} {was} bad:")];
        let told = |bad: &Bad, stand_ins| format!("{bad}: {}", self.done(stand_ins));
        lines.extend(self.bad.lines(told));
        lines.extend(self.incomplete_line());
        if self.instead == Instead::Nothing && done.fate != Fate::Left {
            lines.push(EARLIER.to_string());
        }
        lines
    }

    /// How many good frames are left out, if there are such.
    fn incomplete_line(&self) -> Option<String> {
        let frames = counted(self.incomplete, "good frame", "good frames");
        let words = "left out: other substreams of the same time are lost.";
        (self.incomplete > 0).then(|| format!("{frames} {words}"))
    }
}
