//! Whole E-AC-3 frames: the Rust's own parser over the Rust's modules and over the drop-in core
//! (`ddpmeta-core`) must tell the same of each frame of the streams and of damaged copies.

mod made;
mod refusal;

use crate::random::Random;
use crate::{rust, streams};
use std::collections::{BTreeMap, BTreeSet};
use std::fmt;
use zelamodurk::bits;
use zelamodurk::frame::Codec;

pub use refusal::Refusal;

/// How many damaged copies there are of each frame; few under an emulator, where each element read is sent to
/// another process.
const COPIES: usize = if zelamodurk::EMULATED { 20 } else { 200 };
/// How many frames of random bits are made for each copy of a frame.
const MADE: usize = 300;

/// An element that a parser answers, with its role's word.
#[derive(Clone, Debug, PartialEq, Eq)]
pub struct Element {
    /// Its name.
    pub name: &'static str,
    /// Its role, as the core's word.
    pub role: u32,
    /// The audio block, or -1.
    pub block: i8,
    /// Its index, or -1.
    pub index: i16,
    /// Its first bit.
    pub pos: usize,
    /// How many bits it has.
    pub width: usize,
    /// Its value.
    pub value: u32,
}

/// Everything that a parser answers for a frame.
#[derive(Clone, Debug, PartialEq, Eq)]
pub struct Frame {
    /// Whether the frame is E-AC-3.
    pub is_eac3: bool,
    /// lfeon.
    pub lfeon: bool,
    /// bsid, acmod, fscod, strmtyp and substreamid.
    pub codes: [u8; 5],
    /// bytes, numblks, audio_end, aht_tags, spx_blocks and cpl_blocks.
    pub numbers: [usize; 6],
    /// Where the blocks begin.
    pub block_starts: Vec<usize>,
    /// Where their mantissas begin.
    pub mantissa_starts: Vec<usize>,
    /// The slots that are coded with AHT.
    pub aht_slots: Vec<usize>,
    /// The elements.
    pub elements: Vec<Element>,
}

/// What a parser tells of a frame.
#[derive(Clone, Debug, PartialEq, Eq)]
pub enum Told {
    /// All that it read.
    Frame(Box<Frame>),
    /// An error.
    Refused(Refusal),
    /// Nothing: it panicked.
    Panicked,
}

/// How both tell it of a frame where they agree, and none where they don't. The Rust panics on no frame.
fn agreed(frame: &[u8], rusts: &Told, ours: &Told) -> Option<String> {
    match (rusts, ours) {
        (Told::Frame(rusts), Told::Frame(ours)) if rusts == ours => Some("taken".to_string()),
        (Told::Refused(rusts), Told::Refused(ours)) if rusts.is_as(ours, frame) => {
            Some(match ours.number {
                u8::MAX => "refused by the parser itself".to_string(),
                number => format!("refused with {number:>2}"),
            })
        }
        _ => None,
    }
}

/// The E-AC-3 frames of the streams.
///
/// # Errors
/// Where a stream can't be read or cut.
pub fn frames() -> Result<Vec<Vec<u8>>, String> {
    streams::frames(Codec::Eac3)
}

/// A damaged copy of a frame; the others are there to take from.
type Damage = fn(&mut Random, &[Vec<u8>], &[u8]) -> Vec<u8>;

/// The kinds of damage.
const DAMAGE: [(&str, Damage); 6] = [
    ("flipped", flipped),
    ("flipped ahead", flipped_ahead),
    ("cut", cut),
    ("cut, with the length", cut_with_length),
    ("spliced", spliced),
    ("random behind a header", random_behind),
];

/// Where frmsiz stands.
const FRMSIZ: (usize, usize) = (21, 11);

/// Makes frmsiz say the bytes that there are.
fn with_length(mut frame: Vec<u8>) -> Vec<u8> {
    let (pos, n) = FRMSIZ;
    let words = (frame.len() / 2).max(1) as u32;
    let _ = bits::set(&mut frame, pos, n, words - 1);
    frame
}

/// One to eight bits flipped below a bit.
fn flipped_below(random: &mut Random, frame: &[u8], end: usize) -> Vec<u8> {
    let mut frame = frame.to_vec();
    for _ in 0..=random.to(7) {
        let bit = random.to(end - 1);
        frame[bit / 8] ^= 0x80 >> (bit % 8);
    }
    frame
}

fn flipped(random: &mut Random, _: &[Vec<u8>], frame: &[u8]) -> Vec<u8> {
    flipped_below(random, frame, 8 * frame.len())
}

/// In what stands before the first mantissas.
fn flipped_ahead(random: &mut Random, _: &[Vec<u8>], frame: &[u8]) -> Vec<u8> {
    flipped_below(random, frame, frame.len().min(400))
}

fn cut(random: &mut Random, _: &[Vec<u8>], frame: &[u8]) -> Vec<u8> {
    frame[..random.to(frame.len())].to_vec()
}

fn cut_with_length(random: &mut Random, _: &[Vec<u8>], frame: &[u8]) -> Vec<u8> {
    with_length(frame[..6 + random.to(frame.len() - 6)].to_vec())
}

/// A frame's start before what stands there in another, with the length of either.
fn spliced(random: &mut Random, frames: &[Vec<u8>], frame: &[u8]) -> Vec<u8> {
    let other = &frames[random.to(frames.len() - 1)];
    let at = random.to(frame.len().min(other.len()));
    let spliced = [&frame[..at], &other[at..]].concat();
    match random.to(1) {
        0 if spliced.len() > 6 => with_length(spliced),
        _ => spliced,
    }
}

fn random_behind(random: &mut Random, _: &[Vec<u8>], frame: &[u8]) -> Vec<u8> {
    let mut frame = frame.to_vec();
    let from = 6 + random.to(60);
    let len = frame.len().saturating_sub(from);
    let bytes = random.bytes(len);
    let end = frame.len();
    frame[end - len..].copy_from_slice(&bytes);
    frame
}

/// Frames that were compared, by what both sides told of them.
#[derive(Default)]
pub struct Tally {
    counts: BTreeMap<(&'static str, String), u64>,
    /// The names of the elements in frames that both sides took.
    pub names: BTreeSet<&'static str>,
}

impl Tally {
    /// How many were compared and found equal.
    pub fn total(&self) -> u64 {
        self.counts.values().sum()
    }

    /// How many of a kind both sides took.
    pub fn taken(&self, kind: &'static str) -> u64 {
        let key = (kind, "taken".to_string());
        self.counts.get(&key).copied().unwrap_or(0)
    }

    fn compare(&mut self, kind: &'static str, frame: &[u8]) -> Result<(), String> {
        let [rusts, ours] = rust::parsed(frame).ok_or("the Rust is not there")?;
        let Some(told) = agreed(frame, &rusts, &ours) else {
            let hex: String = frame.iter().map(|byte| format!("{byte:02X}")).collect();
            return Err(format!(
                "a frame ({kind}) differs: {hex}\n  expected {}\n  got      {}",
                shown(&rusts, &ours),
                shown(&ours, &rusts)
            ));
        };
        *self.counts.entry((kind, told)).or_default() += 1;
        if let Told::Frame(frame) = ours {
            self.names
                .extend(frame.elements.iter().map(|element| element.name));
        }
        Ok(())
    }
}

/// What one side tells, short: of two frames the first element that is another, or all but the elements.
fn shown(told: &Told, other: &Told) -> String {
    let (Told::Frame(frame), Told::Frame(other)) = (told, other) else {
        return match told {
            Told::Frame(_) => "a frame that is taken".to_string(),
            _ => format!("{told:?}"),
        };
    };
    let mut pairs = frame.elements.iter().zip(&other.elements);
    match pairs.find(|(one, two)| one != two) {
        Some((one, _)) => format!("{one:?}"),
        None => {
            let mut rest = frame.clone();
            rest.elements.clear();
            format!("{} elements, {rest:?}", frame.elements.len())
        }
    }
}

impl fmt::Display for Tally {
    fn fmt(&self, f: &mut fmt::Formatter<'_>) -> fmt::Result {
        for ((kind, told), count) in &self.counts {
            writeln!(f, "{kind:<26}{told:<36}{count:>8}")?;
        }
        Ok(())
    }
}

/// Compares every frame, each also before other bytes, `copies` damaged copies of each, and [`MADE`] times as
/// many frames of random bits as copies.
///
/// # Errors
/// The first frame that differs, in words.
pub fn run(copies: usize) -> Result<Tally, String> {
    rust::lend()?;
    let (frames, mut tally) = (frames()?, Tally::default());
    let mut random = Random::new(60);
    for frame in &frames {
        tally.compare("as it is", frame)?;
        let followed = [&frame[..], &random.bytes(5000)].concat();
        tally.compare("with more behind it", &followed)?;
        for turn in 0..copies {
            let (kind, damage) = DAMAGE[turn % DAMAGE.len()];
            let damaged = damage(&mut random, &frames, frame);
            tally.compare(kind, &damaged)?;
        }
    }
    for _ in 0..MADE * copies {
        tally.compare("made of random bits", &made::frame(&mut random))?;
    }
    Ok(tally)
}

/// Compares every frame and all copies.
///
/// # Errors
/// The first frame that differs, in words.
pub fn all() -> Result<Tally, String> {
    run(COPIES)
}
