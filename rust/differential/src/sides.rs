//! The two sides of a recorded answer: what a call is lent and asked, and what it leaves and answers.
//! Every function has them in one form; what its numbers are stands here alone.

mod channel;
mod frames;
mod slots;

use crate::answers::Answer;
use crate::call::{hex, word16, words_hex, Call, Standing};
use std::fmt;
use zelamodurk::frame::Codec;
use zelamodurk::syntax::{Ask, Element, Place, Role};
use zelamodurk::walks::Groups;

/// At most so many bytes, words and numbers stand in a side.
const BYTES: usize = 2304;
const WORDS: usize = 256;
const NUMBERS: usize = 48;

/// Bytes and words that a call is lent, and numbers that it is asked or answers.
#[derive(Clone, Debug, Default, PartialEq, Eq)]
pub struct Side {
    /// The bytes, or the first of two lists of them.
    pub first: Vec<u8>,
    /// The second list of bytes.
    pub second: Vec<u8>,
    /// The words of a log, or of a table.
    pub words: Vec<u32>,
    /// The numbers.
    pub numbers: Vec<u64>,
}

/// What a call is lent and asked.
pub fn lent(call: &Call) -> Side {
    match call {
        Call::Get { bytes, pos, n } => over(bytes, [*pos, *n]),
        Call::Set {
            bytes,
            pos,
            n,
            value,
        } => over(bytes, [*pos, *n, *value as usize]),
        Call::RangeEq { x, a, y, b, n } => Side {
            second: y.to_vec(),
            ..over(x, [*a, *b, *n])
        },
        Call::RangeZero { x, a, n } => over(x, [*a, *n]),
        Call::Crc16 { init, bytes } => over(bytes, [usize::from(*init)]),
        Call::Zeros { init, n } => over(&[], [usize::from(*init), *n]),
        Call::Allocate(given) => channel::lent(given),
        Call::Probe { frame } => over(frame, []),
        Call::CrcStatus { frame, codec } | Call::Repair { frame, codec } => {
            over(frame, [usize::from(*codec == Codec::Eac3)])
        }
        _ => lent_to_syntax(call),
    }
}

fn lent_to_syntax(call: &Call) -> Side {
    match call {
        Call::ReadElement { from, ask } => {
            let Ask { name, index, .. } = *ask;
            let more = [
                u64::from(name),
                u64::from(ask.role.word()),
                u64::from(word16(index)),
                ask.width as u64,
            ];
            standing(from, more)
        }
        Call::ReadRaw {
            frame,
            place,
            width,
        } => standing(&Standing::new(&**frame, &[][..], *place), [*width as u64]),
        Call::Span {
            from,
            name,
            role,
            width: bits,
        }
        | Call::CloseSpan {
            from,
            name,
            role,
            start: bits,
        } => standing(
            from,
            [u64::from(*name), u64::from(role.word()), *bits as u64],
        ),
        Call::ReadTail { from, total, codec } => {
            standing(from, [*total as u64, u64::from(*codec == Codec::Eac3)])
        }
        Call::CheckTiling { log, count, total } => logged(log, [*count, *total]),
        Call::ElementAt { log, count, k } => logged(log, [*count, *k]),
        _ => slots::lent(call),
    }
}

/// Bytes and numbers.
fn over<const N: usize>(bytes: &[u8], numbers: [usize; N]) -> Side {
    Side {
        first: bytes.to_vec(),
        numbers: numbers.map(|number| number as u64).to_vec(),
        ..Side::default()
    }
}

/// A log and numbers.
fn logged<const N: usize>(log: &[u32], numbers: [usize; N]) -> Side {
    Side {
        words: log.to_vec(),
        ..over(&[], numbers)
    }
}

/// A frame, a log, the cursor's position, limit, block and count, and more numbers.
fn standing<const N: usize>(from: &Standing, more: [u64; N]) -> Side {
    let Place {
        pos,
        limit,
        block,
        count,
    } = from.place;
    let mut side = Side {
        words: from.log.to_vec(),
        ..over(&from.frame, [pos, limit, usize::from(word16(block)), count])
    };
    side.numbers.extend(more);
    side
}

/// What a call leaves and answers. Bytes and words that are as before are left out.
pub fn after(call: &Call, answer: &Answer) -> Side {
    let lent = lent(call);
    let mut after = Side::default();
    let (first, second) = slots::left(call, answer);
    if first != lent.first {
        after.first = first;
    }
    if second != lent.second {
        after.second = second;
    }
    if answer.log != lent.words {
        after.words.clone_from(&answer.log);
    }
    after.numbers = vec![answer.number.into(), answer.bit as u64, answer.value.into()];
    if let Some(place) = answer.place {
        after.numbers.extend([place.pos as u64, place.count as u64]);
    }
    if let Some(element) = answer.element {
        after.numbers.extend(told(element));
    }
    if let Some((start, end)) = answer.range {
        after.numbers.extend([start as u64, end as u64]);
    }
    if let Some(Groups { g1, g2, g4 }) = answer.groups {
        after.numbers.extend([g1, g2, g4].map(u64::from));
    }
    after.numbers.extend(frames::told(call, answer));
    after
}

fn told(element: Element) -> [u64; 7] {
    let Element {
        name,
        role,
        block,
        index,
        pos,
        width,
        value,
    } = element;
    let (block, index) = (word16(block).into(), word16(index).into());
    [name, role.word(), block, index, pos, width, value].map(u64::from)
}

/// The call of a name with what it is lent and asked.
pub fn call(name: &str, lent: Side) -> Result<Call<'static>, String> {
    let again = lent.clone();
    let call = named(name, lent)?;
    if self::lent(&call) == again {
        return Ok(call);
    }
    Err(format!("not what {name} takes: {again}"))
}

fn named(name: &str, lent: Side) -> Result<Call<'static>, String> {
    let Side {
        first,
        second,
        words,
        numbers,
    } = lent;
    let mut args = Numbers(numbers.into_iter());
    Ok(match name {
        "get" => Call::get(first, args.next()?, args.next()?),
        "set" => Call::set(first, args.next()?, args.next()?, args.next()?),
        "range_eq" => {
            let (a, b) = (args.next()?, args.next()?);
            Call::range_eq((first, a), (second, b), args.next()?)
        }
        "range_zero" => Call::range_zero(first, args.next()?, args.next()?),
        "crc16" => Call::crc16(args.next()?, first),
        "zeros" => Call::zeros(args.next()?, args.next()?),
        "read_element" => {
            let from = Standing::new(first, words, args.place()?);
            Call::read_element(from, args.ask()?)
        }
        "read_raw" => Call::read_raw(first, args.place()?, args.next()?),
        "span" => {
            let from = Standing::new(first, words, args.place()?);
            Call::span(from, args.title()?, args.next()?)
        }
        "close_span" => {
            let from = Standing::new(first, words, args.place()?);
            Call::close_span(from, args.title()?, args.next()?)
        }
        "check_tiling" => Call::check_tiling(words, args.next()?, args.next()?),
        "element_at" => Call::element_at(words, args.next()?, args.next()?),
        "allocate" => Call::allocate(channel::given(first, second, &words, &mut args)?),
        "probe" | "read_tail" | "crc_status" | "repair" => {
            frames::named(name, first, words, &mut args)?
        }
        _ => return slots::named(name, (first, second, words), &mut args),
    })
}

/// The numbers of a side that are left.
struct Numbers(std::vec::IntoIter<u64>);

impl Numbers {
    fn next<T: TryFrom<u64>>(&mut self) -> Result<T, String> {
        let number = self.0.next().ok_or("a number is missing")?;
        number
            .try_into()
            .map_err(|_| format!("no fit number: {number}"))
    }

    /// So many bytes.
    fn row<const N: usize>(&mut self) -> Result<[u8; N], String> {
        let mut row = [0; N];
        for byte in &mut row {
            *byte = self.next()?;
        }
        Ok(row)
    }

    /// A block or an index: two's complement in 16 bits.
    fn signed(&mut self) -> Result<i16, String> {
        Ok(self.next::<u16>()? as i16)
    }

    fn place(&mut self) -> Result<Place, String> {
        let (pos, limit, block) = (self.next()?, self.next()?, self.signed()?);
        Ok(Place {
            pos,
            limit,
            block: i8::try_from(block).map_err(|_| format!("no block: {block}"))?,
            count: self.next()?,
        })
    }

    /// A name and a role.
    fn title(&mut self) -> Result<(u32, Role), String> {
        Ok((self.next()?, Role::of_word(self.next()?)))
    }

    fn ask(&mut self) -> Result<Ask, String> {
        let (name, role) = self.title()?;
        Ok(Ask {
            name,
            role,
            index: self.signed()?,
            width: self.next()?,
        })
    }
}

impl Side {
    /// How many digits its bytes and words have.
    pub fn digits(&self) -> usize {
        2 * (self.first.len() + self.second.len()) + 8 * self.words.len()
    }

    /// Whether a side is not too long for a line.
    pub fn fits(&self) -> bool {
        let bytes = self.first.len().max(self.second.len());
        bytes <= BYTES && self.words.len() <= WORDS && self.numbers.len() <= NUMBERS
    }

    /// The side whose words in a line these are.
    pub fn of_words(words: &[&str]) -> Result<Self, String> {
        let [first, second, words, numbers @ ..] = words else {
            return Err("a field is missing".to_string());
        };
        let number = |word: &&str| word.parse().map_err(|_| format!("no number: {word:?}"));
        Ok(Side {
            first: bytes(first)?,
            second: bytes(second)?,
            words: words32(words)?,
            numbers: numbers.iter().map(number).collect::<Result<_, _>>()?,
        })
    }
}

/// The fields of a line, with one space between.
impl fmt::Display for Side {
    fn fmt(&self, f: &mut fmt::Formatter<'_>) -> fmt::Result {
        let (first, second) = (hex(&self.first), hex(&self.second));
        write!(f, "{first} {second} {}", words_hex(&self.words))?;
        self.numbers
            .iter()
            .try_for_each(|number| write!(f, " {number}"))
    }
}

/// The bytes of a field, with `-` for none.
fn bytes(word: &str) -> Result<Vec<u8>, String> {
    if word == "-" {
        return Ok(Vec::new());
    }
    let bad = || format!("no bytes: {word:?}");
    let digit = |c: &u8| (*c as char).to_digit(16).ok_or_else(bad);
    let pair = |pair: &[u8]| match pair {
        [high, low] => Ok((digit(high)? << 4 | digit(low)?) as u8),
        _ => Err(bad()),
    };
    word.as_bytes().chunks(2).map(pair).collect()
}

/// Words of 32 bits, four bytes each.
fn words32(word: &str) -> Result<Vec<u32>, String> {
    let bytes = bytes(word)?;
    let (words, rest) = bytes.as_chunks();
    if rest.is_empty() {
        return Ok(words.iter().map(|word| u32::from_be_bytes(*word)).collect());
    }
    Err(format!("{} bytes are no words", bytes.len()))
}
