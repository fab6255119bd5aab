//! What a frame's header says of its sound, read by the core at the places that TS 102 366 gives.

use crate::clock::Time;
use crate::core::{self, Codec};
use std::fmt;

/// Blocks of a frame, unless it says that there are fewer.
const BLOCKS: u64 = 6;

/// Which substream a frame belongs to (TS E.1.3.1.1, E.1.3.1.2). An AC-3 frame is independent substream 0.
#[derive(Clone, Copy, Debug, PartialEq, Eq)]
pub enum Substream {
    Independent(u8),
    Dependent(u8),
    /// A type that TS reserves.
    Reserved(u8),
}

impl Substream {
    /// Whether time goes on with its frames.
    pub fn is_first(self) -> bool {
        self == Substream::Independent(0)
    }

    pub fn is_independent(self) -> bool {
        matches!(self, Substream::Independent(_))
    }
}

/// What a listener meets: another one inside a file is a change of format.
#[derive(Clone, Copy, Debug, PartialEq, Eq)]
pub struct Format {
    pub codec: Codec,
    pub substream: Substream,
    /// Samples a second; none where the code is reserved.
    pub rate: Option<u64>,
    acmod: u32,
    lfe: bool,
}

/// What a header says of the sound.
#[derive(Clone, Copy, Debug, PartialEq, Eq)]
pub struct Sound {
    pub format: Format,
    blocks: u64,
}

impl Sound {
    /// That of a frame; none where it is too short to say.
    pub fn of(codec: Codec, frame: &[u8]) -> Option<Sound> {
        match codec {
            Codec::Ac3 => ac3(frame),
            Codec::Eac3 => eac3(frame),
        }
    }

    /// The time that the frame takes: none where it is not of independent substream 0, or of a reserved rate.
    pub fn time(&self) -> Time {
        match self.format.rate {
            Some(rate) if self.format.substream.is_first() => Time::of_blocks(self.blocks, rate),
            _ => Time::default(),
        }
    }
}

impl Format {
    /// The channels in front and behind, as in 3/2.1.
    pub fn layout(&self) -> &'static str {
        let plain = ["1+1", "1/0", "2/0", "3/0", "2/1", "3/1", "2/2", "3/2"];
        let with_lfe = [
            "1+1.1", "1/0.1", "2/0.1", "3/0.1", "2/1.1", "3/1.1", "2/2.1", "3/2.1",
        ];
        let layouts = if self.lfe { with_lfe } else { plain };
        layouts.get(self.acmod as usize).copied().unwrap_or("-")
    }
}

/// The name of a codec.
pub fn codec_name(codec: Codec) -> &'static str {
    match codec {
        Codec::Ac3 => "AC-3",
        Codec::Eac3 => "E-AC-3",
    }
}

/// A sampling rate in kHz, as in 44.1.
pub fn kilohertz(rate: u64) -> String {
    let text = format!("{}.{:03}", rate / 1000, rate % 1000);
    let text = text.trim_end_matches('0').trim_end_matches('.');
    text.to_string()
}

impl fmt::Display for Format {
    fn fmt(&self, f: &mut fmt::Formatter<'_>) -> fmt::Result {
        write!(f, "{} {}", codec_name(self.codec), self.layout())?;
        match self.rate {
            Some(rate) => write!(f, " {} kHz", kilohertz(rate)),
            None => f.write_str(" of a reserved rate"),
        }
    }
}

/// fscod, acmod, and lfeon behind the mix levels that acmod asks for (TS 4.3.1, 4.3.2).
fn ac3(frame: &[u8]) -> Option<Sound> {
    let acmod = field(frame, 48, 3)?;
    let has_centre = acmod & 1 == 1 && acmod != 1;
    let levels = [has_centre, acmod & 4 == 4, acmod == 2];
    let lfeon = 51 + 2 * levels.iter().filter(|is_there| **is_there).count();
    let format = Format {
        codec: Codec::Ac3,
        substream: Substream::Independent(0),
        rate: rate(field(frame, 32, 2)?),
        acmod,
        lfe: field(frame, lfeon, 1)? == 1,
    };
    Some(Sound {
        format,
        blocks: BLOCKS,
    })
}

/// strmtyp, substreamid, fscod, numblkscod or fscod2, acmod and lfeon (TS E.1.2.2).
fn eac3(frame: &[u8]) -> Option<Sound> {
    let id = field(frame, 18, 3)? as u8;
    let substream = match field(frame, 16, 2)? {
        0 | 2 => Substream::Independent(id),
        1 => Substream::Dependent(id),
        _ => Substream::Reserved(id),
    };
    let (fscod, next) = (field(frame, 32, 2)?, field(frame, 34, 2)?);
    let (rate, blocks) = match fscod {
        3 => (rate(next).map(|rate| rate / 2), BLOCKS),
        _ => (rate(fscod), *[1, 2, 3, BLOCKS].get(next as usize)?),
    };
    let format = Format {
        codec: Codec::Eac3,
        substream,
        rate,
        acmod: field(frame, 36, 3)?,
        lfe: field(frame, 39, 1)? == 1,
    };
    Some(Sound { format, blocks })
}

fn field(frame: &[u8], at: usize, width: usize) -> Option<u32> {
    core::get(frame, at, width).ok()
}

/// The sampling rate of fscod (TS 4.4.1.3); that of fscod2 is half of it.
fn rate(code: u32) -> Option<u64> {
    [48_000, 44_100, 32_000].get(code as usize).copied()
}

#[cfg(test)]
mod tests;
