//! Syntax elements: a cursor that keeps every element that it reads, and the check that they tile a frame.

use crate::error::{refused, taken, unfit, Result};
use zelamodurk::syntax::{self as core, names, Place, MOST_BITS, POS, WIDTH};
use zelamodurk::{Refusal, Why};

pub use zelamodurk::syntax::Role;
pub(crate) use zelamodurk::syntax::WORDS;

/// A name's number that is none of the core's own: the text stays on this side.
const GIVEN: u32 = 256;

/// An element.
#[derive(Clone, Debug, PartialEq, Eq)]
pub struct Field {
    /// Its name.
    pub name: &'static str,
    /// What it means.
    pub role: Role,
    /// The audio block, or -1 outside blocks.
    pub block: i8,
    /// Channel or array index, or -1 where there is none.
    pub index: i16,
    /// Its first bit, from the start of the frame.
    pub pos: usize,
    /// How many bits it has.
    pub width: usize,
    /// Its bits as a number; 0 for spans.
    pub value: u32,
}

impl Field {
    /// The bit after the element.
    ///
    /// # Panics
    /// With 6 where there is no such number.
    #[track_caller]
    pub fn end(&self) -> usize {
        let end = self.pos.checked_add(self.width);
        taken("end", end.ok_or(unfit(Why::BadArgument, 0)))
    }

    /// The field of an element that the core logged; block and index are two's complements in 16 bits.
    fn of(name: &'static str, words: &[u32; WORDS]) -> Field {
        let [_, role, block, index, pos, width, value, _] = *words;
        Field {
            name,
            role: Role::of_word(role),
            block: block as i8,
            index: index as i16,
            pos: pos as usize,
            width: width as usize,
            value,
        }
    }
}

/// The text of a name that the core itself logs.
fn text(name: u32) -> &'static str {
    match name {
        names::ABSEXP => "exps[ch][0]",
        names::EXPS => "exps[ch]",
        names::CPLABSEXP => "cplabsexp",
        names::CPLEXPS => "cplexps",
        names::LFEABSEXP => "lfeexps[0]",
        names::LFEEXPS => "lfeexps",
        names::DELTNSEG => "deltnseg",
        names::DELTOFFST => "deltoffst",
        names::DELTLEN => "deltlen",
        names::DELTBA => "deltba",
        names::CPLDELTNSEG => "cpldeltnseg",
        names::CPLDELTOFFST => "cpldeltoffst",
        names::CPLDELTLEN => "cpldeltlen",
        names::CPLDELTBA => "cpldeltba",
        names::AUXBITS => "auxbits",
        names::AUXDATAL => "auxdatal",
        names::AUXDATAE => "auxdatae",
        names::CRCRSV => "crcrsv",
        names::ENCINFO => "encinfo",
        names::CRC2 => "crc2",
        _ => "unnamed",
    }
}

/// A reader that keeps every element that it reads.
///
/// A limit past the data or past 32,768 bits is not sound to the core. It is then handed the part that
/// is sound, and what it refuses with 1 is refused with 6.
pub struct Cursor<'a> {
    /// The frame.
    pub data: &'a [u8],
    /// The cursor's bit.
    pub pos: usize,
    /// The bit that nothing read may pass.
    pub limit: usize,
    /// The elements that were read.
    pub fields: Vec<Field>,
    /// The audio block, or -1 outside blocks.
    pub block: i8,
}

impl<'a> Cursor<'a> {
    /// A cursor at bit 0, outside blocks.
    pub fn new(data: &'a [u8], limit_bits: usize) -> Self {
        Cursor {
            data,
            pos: 0,
            limit: limit_bits,
            fields: Vec::with_capacity(1024),
            block: -1,
        }
    }

    /// The part of the limit that is sound.
    #[inline]
    fn sound(&self) -> usize {
        self.limit.min(8 * self.data.len().min(MOST_BITS / 8))
    }

    /// The cursor's numbers before a log of so many elements.
    fn place(&self, count: usize) -> Place {
        Place {
            pos: self.pos,
            limit: self.sound(),
            block: self.block,
            count,
        }
    }

    /// A refusal as it is told of this cursor.
    #[cold]
    fn told(&self, refusal: Refusal) -> Refusal {
        let why = match refusal.why {
            Why::PastLimit if self.sound() < self.limit => Why::BadArgument,
            why => why,
        };
        Refusal { why, ..refusal }
    }

    /// Hands the cursor to a call of the core that logs elements of its own behind the first `count` of a
    /// log, and keeps those.
    pub(crate) fn logging<T>(
        &mut self,
        what: &str,
        log: &mut [u32],
        count: usize,
        call: impl FnOnce(&[u8], &mut [u32], &mut Place) -> std::result::Result<T, Refusal>,
    ) -> Result<T> {
        let mut place = self.place(count);
        let done = call(self.data, log, &mut place);
        (self.pos, self.block) = (place.pos, place.block);
        let logged = &log.as_chunks().0[count..place.count];
        let fields = logged.iter().map(|words| Field::of(text(words[0]), words));
        self.fields.extend(fields);
        done.map_err(|refusal| refused(what, self.told(refusal)))
    }

    /// Hands the cursor to a call of the core that logs nothing.
    #[inline]
    pub(crate) fn moving<T>(
        &mut self,
        what: &str,
        call: impl FnOnce(&[u8], &mut usize, usize) -> std::result::Result<T, Refusal>,
    ) -> Result<T> {
        let limit = self.sound();
        let done = call(self.data, &mut self.pos, limit);
        done.map_err(|refusal| refused(what, self.told(refusal)))
    }

    /// Reads an element, and keeps what was asked for with the cursor's bit and the value. The core's log of it
    /// would hold the same, and while it has room refuses nothing more; so it is lent none.
    // A copy in each of the readers below, most of which know the role and the width.
    #[inline(always)]
    fn read(&mut self, name: &'static str, role: Role, index: i16, width: usize) -> Result<u32> {
        let pos = self.pos;
        let value = self.raw(width, name)?;
        self.fields.push(Field {
            name,
            role,
            block: self.block,
            index,
            pos,
            width,
            value,
        });
        Ok(value)
    }

    /// Reads an element.
    ///
    /// # Errors
    /// With 6 where the width is above 32, then with 1 where the element would pass the limit.
    pub fn get_role(
        &mut self,
        name: &'static str,
        role: Role,
        index: i16,
        width: usize,
    ) -> Result<u32> {
        self.read(name, role, index, width)
    }

    /// Reads an element with no role and no index.
    ///
    /// # Errors
    /// As [`Cursor::get_role`].
    pub fn get(&mut self, name: &'static str, width: usize) -> Result<u32> {
        self.read(name, Role::Plain, -1, width)
    }

    /// Reads an element with no role.
    ///
    /// # Errors
    /// As [`Cursor::get_role`].
    pub fn geti(&mut self, name: &'static str, index: usize, width: usize) -> Result<u32> {
        self.read(name, Role::Plain, index as i16, width)
    }

    /// Reads an element of one bit.
    ///
    /// # Errors
    /// As [`Cursor::get_role`].
    pub fn flag(&mut self, name: &'static str) -> Result<bool> {
        Ok(self.read(name, Role::Plain, -1, 1)? != 0)
    }

    /// Reads an element of one bit with an index.
    ///
    /// # Errors
    /// As [`Cursor::get_role`].
    pub fn flagi(&mut self, name: &'static str, index: usize) -> Result<bool> {
        Ok(self.read(name, Role::Plain, index as i16, 1)? != 0)
    }

    /// Keeps the next `width` bits as one element.
    ///
    /// # Errors
    /// With 1 where they would pass the limit.
    pub fn span(&mut self, name: &'static str, role: Role, width: usize) -> Result<()> {
        let (mut log, mut place) = ([0; WORDS], self.place(0));
        match core::span(self.data, &mut log, &mut place, GIVEN, role, width) {
            Ok(()) => {
                self.fields.push(Field::of(name, &log));
                self.pos = place.pos;
                Ok(())
            }
            Err(refusal) => Err(refused(name, self.told(refusal))),
        }
    }

    /// Keeps the bits from `start` to the cursor as one element.
    ///
    /// # Panics
    /// With 6 where `start` is past the cursor, or the cursor past its limit, or past what is sound of it.
    #[track_caller]
    pub fn close_span(&mut self, name: &'static str, role: Role, start: usize) {
        let (mut log, mut place) = ([0; WORDS], self.place(0));
        let done = core::close_span(self.data, &mut log, &mut place, GIVEN, role, start);
        taken(name, done);
        self.fields.push(Field::of(name, &log));
    }

    /// Reads bits that are no element of their own.
    ///
    /// # Errors
    /// As [`Cursor::get_role`].
    #[inline]
    pub fn raw(&mut self, width: usize, what: &str) -> Result<u32> {
        self.moving(what, |frame, pos, limit| {
            core::read_raw(frame, pos, limit, width)
        })
    }
}

/// The elements as the core's log, with room for `more`. Of each the position and the width are handed
/// over, which are what tiling looks at.
pub(crate) fn log_of(
    fields: &[Field],
    more: usize,
) -> std::result::Result<Vec<[u32; WORDS]>, Refusal> {
    let mut log = Vec::with_capacity(fields.len() + more);
    let mut bits = 0;
    log.extend(fields.iter().map(|field| {
        bits |= field.pos | field.width;
        let mut words = [0; WORDS];
        (words[POS], words[WIDTH]) = (field.pos as u32, field.width as u32);
        words
    }));
    log.resize(fields.len() + more, [0; WORDS]);
    // One test for all: a bit above the 32nd in any number is one in their union.
    match u32::try_from(bits) {
        Ok(_) => Ok(log),
        Err(_) => Err(unfit(Why::BadArgument, 0)),
    }
}

/// Whether the elements tile the bits below `total`.
///
/// # Errors
/// With 6 where there are more than 4,096 or one's position or width is past 32 bits, then with 18 where
/// they don't.
pub fn check_contiguous(fields: &[Field], total: usize) -> Result<()> {
    let tiled = log_of(fields, 0)
        .and_then(|log| core::check_tiling(log.as_flattened(), fields.len(), total));
    tiled.map_err(|refusal| refused("check_contiguous", refusal))
}
