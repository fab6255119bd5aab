//! Frames that stand in for lost ones, so that the time stays.
//!
//! The last good frame of each length and header is kept, with the one that followed it. A header that is there is
//! that of one lost frame. What would have followed stands in for it if it has the same length, since the header may
//! be damaged; else the frame of the same length and header; else the last one of the same substream; else what would
//! have followed. Where no header is left, the frames that would have followed stand in, as many as come nearest to the
//! bytes that are lost.

use crate::frames::Lost;
use crate::sound::{Sound, Substream};

/// How many kinds of frames are kept. A stream has one, or two at 44.1 kHz, and as many more for each further
/// substream; of one whose bit rate varies, those are kept that came last.
const KINDS: usize = 32;

/// The last good frame of a length and header.
#[derive(Clone)]
struct Kept {
    sound: Sound,
    /// The independent substream that it belongs to.
    parent: Option<Substream>,
    bytes: Vec<u8>,
    /// The kind that followed it when it was last seen, by its number.
    next: Option<usize>,
    /// The number of frames before it.
    came: u64,
}

/// The frames that can stand in.
#[derive(Clone, Default)]
pub struct StandIns {
    kinds: Vec<Kept>,
    /// The kind of the last frame.
    last: Option<usize>,
    /// How many good frames have come.
    count: u64,
}

/// A place that is being filled.
pub struct Filling {
    /// The kind that stands in for the frame whose header is there, and how many bytes that frame had.
    first: Option<(usize, u64)>,
    /// How many bytes are left to count.
    left: u64,
}

impl StandIns {
    /// A good frame has come.
    pub fn keep(&mut self, sound: Sound, bytes: &[u8]) {
        self.count += 1;
        let at = self.place_for(sound, bytes.len());
        let kept = Kept {
            sound,
            parent: self.parent_of(sound),
            bytes: bytes.to_vec(),
            next: self.kinds.get(at).and_then(|kept| kept.next),
            came: self.count,
        };
        match self.kinds.get_mut(at) {
            Some(old) => *old = kept,
            None => self.kinds.push(kept),
        }
        if let Some(before) = self.last.and_then(|last| self.kinds.get_mut(last)) {
            before.next = Some(at);
        }
        self.last = Some(at);
    }

    /// Where a frame is to be kept: with its like, else as a new kind, for which the one that came first gives way.
    fn place_for(&mut self, sound: Sound, length: usize) -> usize {
        if let Some(at) = self.like(sound, length) {
            return at;
        }
        if self.kinds.len() < KINDS {
            return self.kinds.len();
        }
        let oldest = (0..KINDS).min_by_key(|at| self.kinds[*at].came);
        let oldest = oldest.unwrap_or_default();
        self.kinds[oldest].next = None;
        let followed = self
            .kinds
            .iter_mut()
            .filter(|kept| kept.next == Some(oldest));
        followed.for_each(|kept| kept.next = None);
        self.last = self.last.filter(|last| *last != oldest);
        oldest
    }

    /// The kind of the same length and header, of the same independent substream.
    fn like(&self, sound: Sound, length: usize) -> Option<usize> {
        let (own, mut kinds) = (self.parent_of(sound), self.kinds.iter());
        let is_like = |kept: &Kept| kept.sound == sound && kept.bytes.len() == length;
        kinds.position(|kept| is_like(kept) && kept.parent == own)
    }

    /// The independent substream that the next frame belongs to.
    fn parent_of(&self, next: Sound) -> Option<Substream> {
        let substream = next.format.substream;
        match substream.is_independent() {
            true => Some(substream),
            false => self.kinds.get(self.last?)?.parent,
        }
    }

    /// The last kind of the same codec and substream.
    fn of_substream(&self, sound: Sound) -> Option<usize> {
        let is_one = |kept: &Kept| {
            let (own, other) = (kept.sound.format, sound.format);
            own.codec == other.codec && own.substream == other.substream
        };
        let kinds = self
            .kinds
            .iter()
            .enumerate()
            .filter(|(_, kept)| is_one(kept));
        kinds.max_by_key(|(_, kept)| kept.came).map(|(at, _)| at)
    }

    /// The kind that would follow, where one did before.
    fn successor(&self) -> Option<usize> {
        self.kinds.get(self.last?)?.next
    }

    /// The same, and the last kind again where none did.
    fn follower(&self) -> Option<usize> {
        self.successor().or(self.last)
    }

    /// What the frame of a kind says of its sound.
    pub fn sound(&self, kind: usize) -> Option<Sound> {
        self.kinds.get(kind).map(|kept| kept.sound)
    }

    /// A place of so many lost bytes that is to be filled; it may begin with a header.
    pub fn filling(&self, lost: Option<Lost>, bytes: u64) -> Filling {
        let first = lost.and_then(|lost| self.instead_of(lost));
        let left = match (first, lost) {
            (None, Some(lost)) if self.is_new(lost) => bytes.saturating_sub(lost.bytes as u64),
            _ => bytes,
        };
        let first = first.zip(lost.map(|lost| lost.bytes as u64));
        Filling { first, left }
    }

    /// The kind that stands in for a frame whose header is there.
    fn instead_of(&self, lost: Lost) -> Option<usize> {
        let successor = self.successor();
        let has_length = |at: &usize| {
            let kept = self.kinds.get(*at);
            kept.is_some_and(|kept| kept.bytes.len() == lost.bytes)
        };
        let like = || self.like(lost.sound, lost.bytes);
        let of_substream = || self.of_substream(lost.sound);
        let known = successor.filter(has_length).or_else(like);
        known.or_else(of_substream).or(successor)
    }

    /// Whether a header may well be of a substream that has not come yet: nothing fits for it. One of another codec is
    /// likely damaged.
    fn is_new(&self, lost: Lost) -> bool {
        let mut kinds = self.kinds.iter();
        kinds.any(|kept| kept.sound.format.codec == lost.sound.format.codec)
    }

    /// Whether fewer bytes are lost than half of the frame that would follow.
    pub fn is_little(&self, bytes: u64) -> bool {
        let follower = self.follower().and_then(|at| self.kinds.get(at));
        follower.is_some_and(|kept| bytes < (kept.bytes.len() as u64).div_ceil(2))
    }

    /// The kind that stands in there next, if there is one more.
    pub fn candidate(&self, filling: &Filling) -> Option<usize> {
        if let Some((first, _)) = filling.first {
            return Some(first);
        }
        let at = self.follower()?;
        let length = self.kinds.get(at)?.bytes.len() as u64;
        (filling.left >= length.div_ceil(2)).then_some(at)
    }

    /// The kind that would complete a unit, for which `begins` says whether a frame begins another one.
    pub fn completing(&self, begins: impl Fn(Sound) -> bool) -> Option<usize> {
        let at = self.successor()?;
        (!begins(self.sound(at)?)).then_some(at)
    }

    /// The frame of a kind, which stands in now.
    pub fn take(&mut self, at: usize) -> &[u8] {
        self.last = Some(at);
        self.kinds.get(at).map_or(&[], |kept| &kept.bytes)
    }
}

impl Filling {
    /// A frame of so many bytes stands in. The lost one had as many as its header says, if it has one.
    pub fn add(&mut self, bytes: usize) {
        let own = self.first.take().map_or(0, |(_, bytes)| bytes);
        self.left = self.left.saturating_sub(own.max(bytes as u64));
    }
}

#[cfg(test)]
mod tests;
