//! Units of a stream: a frame of independent substream 0, AC-3 or E-AC-3, with the frames of other substreams up to
//! the next such one.
//!
//! A frame of another substream depends on the last independent one. Directly behind damage that one may be lost,
//! so that a dependent frame there belongs to no unit that is known.

use crate::sound::{Format, Substream};

/// A unit, as far as its frames have come.
#[derive(Clone, Debug, Default)]
pub struct Unit {
    pub formats: Vec<Format>,
    /// Whether something in it or beside it is lost.
    pub is_broken: bool,
    /// Whether something was lost behind its last frame.
    is_interrupted: bool,
}

/// A substream, and the independent one that it depends on, if it does.
type Key = (Option<Substream>, Substream);

impl Unit {
    pub fn of(formats: Vec<Format>, is_broken: bool) -> Unit {
        Unit {
            formats,
            is_broken,
            is_interrupted: false,
        }
    }

    /// Something is lost here.
    pub fn interrupt(&mut self) {
        self.is_broken = true;
        self.is_interrupted = true;
    }

    /// Whether a frame begins another unit.
    pub fn is_before(&self, next: &Format) -> bool {
        let is_orphan = self.is_interrupted && !next.substream.is_independent();
        is_orphan || self.is_full(next)
    }

    /// Whether a frame begins another unit, were nothing lost here.
    pub fn is_full(&self, next: &Format) -> bool {
        next.substream.is_first() || self.has(next.substream)
    }

    /// Begins the next unit, by its first frame. Behind damage, one that does not begin with independent substream 0
    /// may lack it.
    pub fn begin(&mut self, first: &Format) {
        self.formats.clear();
        self.is_broken &= !first.substream.is_first();
        self.is_interrupted = false;
    }

    pub fn push(&mut self, format: Format) {
        self.formats.push(format);
        self.is_interrupted = false;
    }

    /// Whether the substream is there, behind the last independent one where it depends on one.
    fn has(&self, substream: Substream) -> bool {
        let mut own = self.formats.iter().rev();
        own.by_ref()
            .take_while(|format| substream.is_independent() || !format.substream.is_independent())
            .any(|format| format.substream == substream)
    }

    /// Whether it begins with independent substream 0.
    pub fn has_first(&self) -> bool {
        let first = self.formats.first();
        first.is_some_and(|format| format.substream.is_first())
    }

    /// The substream of a frame that would come next, with the independent one that it depends on; none where that is
    /// lost.
    fn key(&self, next: &Format) -> Option<Key> {
        if next.substream.is_independent() {
            return Some((None, next.substream));
        }
        let mut parents = self.formats.iter().rev().map(|format| format.substream);
        let parent = parents.find(|substream| substream.is_independent())?;
        Some((Some(parent), next.substream))
    }

    /// The format that the unit has where another one has a frame that would come next.
    pub fn counterpart(&self, other: &Unit, next: &Format) -> Option<Format> {
        let key = other.key(next)?;
        let mut parent = None;
        let is_one = |format: &&Format| {
            if format.substream.is_independent() {
                parent = Some(format.substream);
                return key == (None, format.substream);
            }
            key == (parent, format.substream)
        };
        self.formats.iter().find(is_one).copied()
    }
}
