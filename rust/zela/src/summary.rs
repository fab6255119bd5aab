//! What a check finds out about one file.

use crate::clock::Time;
use crate::core::{self, Codec};
use crate::formats::Formats;
use crate::frames::{Frame, Frames, Gap, Item};
use crate::kinds::{self, Kind};
use crate::marks::Marks;
use crate::outcome::{Failure, Outcome};
use crate::sound::codec_name;
use crate::trouble::{Bad, Place, Trouble};
use std::ffi::OsString;
use std::io::{self, Read};

/// How many checksums of a kind are good, and how many bad.
#[derive(Default)]
pub struct Sums {
    pub good: u64,
    pub bad: u64,
}

impl Sums {
    fn add(&mut self, is_good: bool) {
        let which = if is_good {
            &mut self.good
        } else {
            &mut self.bad
        };
        *which += 1;
    }
}

/// What a file is.
#[derive(Clone, Copy, Debug, PartialEq, Eq)]
pub enum State {
    Good,
    Bad,
    /// There is no AC-3 in it.
    Wrong,
    /// It could not be read, or not to its end.
    Unread,
}

impl State {
    pub fn word(self) -> &'static str {
        match self {
            State::Good => "good",
            State::Bad => "bad",
            State::Wrong => "wrong",
            State::Unread => "error",
        }
    }
}

/// What a file holds.
#[derive(Default)]
pub struct Summary {
    pub file: OsString,
    /// Of the whole file; none where that is not known.
    pub bytes: Option<u64>,
    pub ac3: u64,
    pub eac3: u64,
    pub frame_bytes: u64,
    pub length: Time,
    pub crc1: Sums,
    pub crc2: Sums,
    /// Bytes in no frame, and at how many places.
    pub skipped: u64,
    pub gaps: u64,
    /// Whether a frame stands behind such bytes, whose time does not count them.
    pub is_early: bool,
    /// Frames with a bad checksum.
    pub bad_frames: u64,
    pub changes: u64,
    pub changes_are_allowed: bool,
    pub formats: Formats,
    pub first_bad: Option<Bad>,
    /// The places that are told, as many of them as are kept.
    pub places: Vec<Bad>,
    pub keep: usize,
    /// Whether all places are told, and not only those that are kept.
    pub all_are_told: bool,
    pub marks: Marks,
    /// A kind of file that has no AC-3, where it is known.
    pub kind: Option<&'static Kind>,
    pub is_wrong: bool,
    pub failure: Option<Failure>,
}

impl Summary {
    /// Reads an input to its end, and hands out each place as it is found.
    pub fn read(&mut self, input: impl Read, found: &mut impl FnMut(&Bad)) -> io::Result<()> {
        let mut frames = Frames::new(input);
        let (kind, refused) = kind_of(&mut frames)?;
        if kind.is_some_and(|kind| kind.is_sure) {
            self.is_wrong = true;
            self.kind = kind;
            self.first_bad = refused;
            return Ok(());
        }
        while let Some((place, item)) = frames.next()? {
            match item {
                Item::Frame(frame) => self.add(place, &frame, found),
                // An input without AC-3 is one gap, and has no place to tell.
                Item::Gap(gap) if gap.is_all && refused.is_some() => {
                    self.add_gap(place, gap, &mut |_| {});
                }
                Item::Gap(gap) => self.add_gap(place, gap, found),
            }
        }
        if let Some(change) = self.formats.complete() {
            self.tell(change, found);
        }
        self.end(frames.place().offset, kind, refused);
        Ok(())
    }

    fn add_gap(&mut self, place: Place, gap: Gap, found: &mut impl FnMut(&Bad)) {
        self.formats.interrupt();
        self.skipped += gap.bytes;
        self.gaps += 1;
        self.tell(Bad::new(place, gap.bytes, gap.trouble), found);
    }

    fn add(&mut self, place: Place, frame: &Frame<'_>, found: &mut impl FnMut(&Bad)) {
        match frame.codec {
            Codec::Ac3 => self.ac3 += 1,
            Codec::Eac3 => self.eac3 += 1,
        }
        let bytes = frame.bytes.len() as u64;
        self.frame_bytes += bytes;
        self.length = place.time;
        self.length += frame.sound.map(|sound| sound.time()).unwrap_or_default();
        self.is_early |= self.skipped > 0;
        if let Some(is_good) = frame.status.crc1 {
            self.crc1.add(is_good);
        }
        self.crc2.add(frame.status.crc2);
        for change in self.formats.add(place, frame) {
            self.tell(change, found);
        }
        if !frame.status.is_good() {
            self.bad_frames += 1;
            let trouble = Trouble::Checksum(frame.status);
            self.tell(Bad::new(place, bytes, trouble), found);
        }
    }

    fn tell(&mut self, bad: Bad, found: &mut impl FnMut(&Bad)) {
        let is_change = bad.is_change();
        self.changes += u64::from(is_change);
        self.marks.add(bad.place.offset, bad.bytes);
        found(&bad);
        if self.first_bad.is_none() && !(is_change && self.changes_are_allowed) {
            self.first_bad = Some(bad.clone());
        }
        if self.places.len() < self.keep {
            self.places.push(bad);
        }
    }

    /// The end of the file. One with no frame, and no header where it begins, has no AC-3 in it.
    fn end(&mut self, bytes: u64, kind: Option<&'static Kind>, refused: Option<Bad>) {
        self.bytes = Some(bytes);
        if self.frames() == 0 && refused.is_some() {
            self.is_wrong = true;
            self.kind = kind;
            self.gaps = 0;
            self.places.clear();
            // An empty file has no place that was told.
            self.first_bad = self.first_bad.take().or(refused);
        }
    }

    /// Whether it is no file, but a folder without one to check.
    pub fn is_folder(&self) -> bool {
        self.is_wrong && self.failure.is_some()
    }

    pub fn frames(&self) -> u64 {
        self.ac3 + self.eac3
    }

    pub fn codec(&self) -> Option<&'static str> {
        match (self.ac3, self.eac3) {
            (0, 0) => None,
            (_, 0) => Some(codec_name(Codec::Ac3)),
            (0, _) => Some(codec_name(Codec::Eac3)),
            _ => Some("AC-3+E-AC-3"),
        }
    }

    /// That of all frames over their time.
    pub fn bit_rate(&self) -> Option<u64> {
        self.length.bit_rate(self.frame_bytes)
    }

    /// How many places are told.
    pub fn told(&self) -> u64 {
        self.gaps + self.bad_frames + self.changes
    }

    /// How many of them are bad.
    pub fn bad(&self) -> u64 {
        match self.changes_are_allowed {
            true => self.told() - self.changes,
            false => self.told(),
        }
    }

    pub fn state(&self) -> State {
        match () {
            () if self.is_wrong => State::Wrong,
            () if self.failure.is_some() => State::Unread,
            () if self.bad() > 0 => State::Bad,
            () => State::Good,
        }
    }

    pub fn outcome(&self) -> Outcome {
        match self.state() {
            State::Good => Outcome::Good,
            State::Bad => Outcome::Damage,
            State::Wrong => Outcome::NoAc3,
            State::Unread => Outcome::Io,
        }
    }
}

/// What kind of file this is, if its first bytes tell, and why the core refuses them; neither where they are a
/// header.
pub fn kind_of(frames: &mut Frames<impl Read>) -> io::Result<(Option<&'static Kind>, Option<Bad>)> {
    let first = frames.peek(kinds::LOOK)?;
    let header = first.get(..core::HEADER).unwrap_or(first);
    Ok(match core::probe(header) {
        Ok(_) => (None, None),
        Err(refusal) => (kinds::of(first), Some(Bad::refused(refusal))),
    })
}
