//! The frames of an input, and the bytes between them.
//!
//! A frame is where the core's probe accepts a header, the whole frame is there, and its checksums are
//! good. Where they are bad it is still a frame if the input ends with it or a header that probe accepts
//! follows, and no frame with good checksums begins inside it: a wrong length would swallow that one. Any
//! other byte is skipped. The rule looks at no byte before it, so that after damage the first frame is
//! found as if the input began there.
//!
//! The work is bounded by the input's length, whatever it holds: a place is judged at most twice, where a gap
//! ends and as what stands next, and tried at most once from before it. So it costs at most 5 probes and 3
//! runs of checksums.

use crate::core::{self, Codec, Header, Refusal, Status};
use crate::sound::Sound;
use crate::trouble::{Place, Trouble};
use crate::window::Window;
use std::io::{self, Read};

/// What the rule looks at: a frame, and one that begins with its last byte.
const LOOK: usize = 2 * core::LONGEST;
const SYNC: [u8; 2] = [0x0B, 0x77];

/// A whole frame.
pub struct Frame<'a> {
    pub codec: Codec,
    pub status: Status,
    /// None where the frame is too short to say.
    pub sound: Option<Sound>,
    pub bytes: &'a [u8],
}

/// A run of bytes that are in no frame.
#[derive(Clone, Debug, PartialEq, Eq)]
pub struct Gap {
    pub bytes: u64,
    /// What is wrong with its first byte.
    pub trouble: Trouble,
    /// The frame whose header begins it, if one does.
    pub lost: Option<Lost>,
    /// Whether it is the whole input.
    pub is_all: bool,
}

/// What a header says of a frame that is not there, or is bad.
#[derive(Clone, Copy, Debug, PartialEq, Eq)]
pub struct Lost {
    pub sound: Sound,
    pub bytes: usize,
}

/// What stands next in an input.
pub enum Item<'a> {
    Frame(Frame<'a>),
    Gap(Gap),
}

/// A reader of frames.
pub struct Frames<R> {
    window: Window<R>,
    ahead: Ahead,
    place: Place,
}

impl<R: Read> Frames<R> {
    pub fn new(input: R) -> Self {
        Frames {
            window: Window::new(input),
            ahead: Ahead::default(),
            place: Place::default(),
        }
    }

    /// Where the reader stands.
    pub fn place(&self) -> Place {
        Place {
            offset: self.window.offset(),
            ..self.place
        }
    }

    /// The next bytes, as many as the input has of the number asked for, without a move.
    pub fn peek(&mut self, bytes: usize) -> io::Result<&[u8]> {
        self.window.fill(bytes)?;
        let held = self.window.held();
        Ok(held.get(..bytes).unwrap_or(held))
    }

    /// What stands next and where, or nothing at the end of the input.
    pub fn next(&mut self) -> io::Result<Option<(Place, Item<'_>)>> {
        let place = self.place();
        self.window.fill(LOOK)?;
        if self.window.held().is_empty() {
            return Ok(None);
        }
        let item = match self.judged() {
            Ok((header, status)) => Item::Frame(self.take(header, status)),
            Err(trouble) => Item::Gap(self.skip(trouble)?),
        };
        Ok(Some((place, item)))
    }

    /// Whether a frame begins where the reader stands.
    fn judged(&mut self) -> Result<(Header, Status), Trouble> {
        let (bytes, here) = (self.window.held(), self.window.offset());
        let (header, status) = whole(bytes)?;
        if status.is_good() {
            return Ok((header, status));
        }
        let after = bytes.get(header.bytes..).unwrap_or_default();
        let ends_well = (self.window.is_last() && after.is_empty()) || probe(after).is_ok();
        if ends_well && !self.ahead.holds_good(bytes, here, header.bytes) {
            return Ok((header, status));
        }
        let whole = header.bytes as u64;
        Err(Trouble::Lone { status, whole })
    }

    fn take(&mut self, header: Header, status: Status) -> Frame<'_> {
        let codec = header.codec;
        let bytes = self.window.take(header.bytes);
        let sound = Sound::of(codec, bytes);
        self.place.frame += 1;
        self.place.time += sound.map(|sound| sound.time()).unwrap_or_default();
        Frame {
            codec,
            status,
            sound,
            bytes,
        }
    }

    /// Moves to the next frame, or to the end of the input.
    fn skip(&mut self, trouble: Trouble) -> io::Result<Gap> {
        let lost = lost(self.window.held());
        let mut bytes = 0;
        loop {
            let step = next_sync(self.window.held());
            bytes += self.window.take(step).len() as u64;
            self.window.fill(LOOK)?;
            if self.window.held().is_empty() || self.judged().is_ok() {
                let trouble = trouble.before_next(bytes);
                let is_all = self.window.held().is_empty() && self.window.offset() == bytes;
                return Ok(Gap {
                    bytes,
                    trouble,
                    lost,
                    is_all,
                });
            }
        }
    }
}

/// What is known of good frames past the reader. Frames that claim the same bytes ask for them again and
/// again, so that what was found is kept, by offsets of the input.
#[derive(Default)]
struct Ahead {
    /// No frame with good checksums begins after the reader and before this.
    clear: u64,
    /// Whether one begins here.
    found: bool,
}

impl Ahead {
    /// Whether a frame with good checksums begins inside the first one of these bytes, which stand at `here`.
    fn holds_good(&mut self, bytes: &[u8], here: u64, first: usize) -> bool {
        if self.clear <= here {
            self.clear = here + next_sync(bytes) as u64;
            self.found = false;
        }
        let end = here + first as u64;
        while !self.found && self.clear < end {
            let at = (self.clear - here) as usize;
            let rest = bytes.get(at..).unwrap_or_default();
            self.found = whole(rest).is_ok_and(|(_, status)| status.is_good());
            if !self.found {
                self.clear += next_sync(rest) as u64;
            }
        }
        self.found && self.clear < end
    }
}

/// What the core makes of these bytes as a header; it looks at no others.
fn probe(bytes: &[u8]) -> Result<Header, Refusal> {
    core::probe(bytes.get(..core::HEADER).unwrap_or(bytes))
}

/// The checksums of what may be a frame, if all of it is there.
fn whole(bytes: &[u8]) -> Result<(Header, Status), Trouble> {
    let header = probe(bytes).map_err(Trouble::Refused)?;
    let Some(frame) = bytes.get(..header.bytes) else {
        let (have, whole) = (bytes.len() as u64, header.bytes as u64);
        return Err(Trouble::Cut { have, whole });
    };
    let status = core::crc_status(frame, header.codec).map_err(Trouble::Refused)?;
    Ok((header, status))
}

/// The frame whose header these bytes begin with.
fn lost(bytes: &[u8]) -> Option<Lost> {
    let Header {
        codec,
        bytes: length,
    } = probe(bytes).ok()?;
    let sound = Sound::of(codec, bytes)?;
    Some(Lost {
        sound,
        bytes: length,
    })
}

/// How far it is from these bytes' first to the next that may begin a frame: a sync word, or half of one
/// at the end.
fn next_sync(bytes: &[u8]) -> usize {
    let mut at = 1;
    while let Some(more) = bytes.iter().skip(at).position(|byte| *byte == SYNC[0]) {
        at += more;
        if bytes.get(at + 1).is_none_or(|byte| *byte == SYNC[1]) {
            return at;
        }
        at += 1;
    }
    bytes.len()
}

#[cfg(test)]
mod tests;
