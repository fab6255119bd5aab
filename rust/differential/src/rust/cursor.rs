//! The Rust's cursor, put where the core's stands, and its fields in the form of the log.

use super::{quiet, Asked, LOGGED, NAMES};
use crate::answers::Answer;
use crate::call::{word16, Call, Standing};
use oracle::error::{Error, Result};
use oracle::syntax::{check_contiguous, Cursor, Field, Role};
use zelamodurk::syntax::{Element, Place, POS, WIDTH, WORDS};

/// The roles by their numbers, each made of its programme.
const ROLES: [fn(u8) -> Role; 21] = [
    |_| Role::Plain,
    |_| Role::Sync,
    |_| Role::Crc1,
    |_| Role::Crc2,
    |_| Role::CrcRsv,
    |_| Role::FrameSize,
    Role::Dialnorm,
    Role::ComprExists,
    Role::Compr,
    Role::DynrngExists,
    Role::Dynrng,
    |_| Role::Skiple,
    |_| Role::Skipl,
    |_| Role::Skipfld,
    |_| Role::Addbsi,
    |_| Role::Mantissas,
    |_| Role::AuxBits,
    |_| Role::AuxDataL,
    |_| Role::AuxDataE,
    |_| Role::BlkStrtInfoE,
    |_| Role::BlkStrtInfo,
];

/// The Rust's role of a role's word.
fn role(word: u32) -> Role {
    let of = ROLES.get(word as usize % 32).unwrap_or(&ROLES[0]);
    of((word / 32) as u8)
}

pub fn role_word(role: Role) -> u32 {
    let programme = match role {
        Role::Dialnorm(p)
        | Role::ComprExists(p)
        | Role::Compr(p)
        | Role::DynrngExists(p)
        | Role::Dynrng(p) => p,
        _ => 0,
    };
    let number = ROLES.iter().position(|of| of(programme) == role);
    number.map_or(u32::MAX, |number| number as u32 + 32 * u32::from(programme))
}

/// The text of a name's number. One that is not listed gets the first's, and shows as a difference.
fn text(name: u32) -> &'static str {
    let mut names = NAMES.iter().chain(&LOGGED);
    names
        .find(|(number, _)| *number == name)
        .unwrap_or(&NAMES[0])
        .1
}

/// The number of a name's text.
fn name(text: &str) -> u32 {
    let mut names = NAMES.iter().chain(&LOGGED);
    names
        .find(|(_, other)| *other == text)
        .unwrap_or(&NAMES[0])
        .0
}

/// The field of an element's words.
fn field(words: &[u32]) -> Field {
    Field {
        name: text(words[0]),
        role: role(words[1]),
        block: words[2] as i8,
        index: words[3] as i16,
        pos: words[POS] as usize,
        width: words[WIDTH] as usize,
        value: words[6],
    }
}

/// The words of a field; of a number that is too large, its low bits.
fn words(field: &Field) -> [u32; WORDS] {
    [
        name(field.name),
        role_word(field.role),
        word16(field.block).into(),
        word16(field.index).into(),
        field.pos as u32,
        field.width as u32,
        field.value,
        0,
    ]
}

/// The first fields of a log; no more than there are.
fn fields(log: &[u32], count: usize) -> Vec<Field> {
    log.chunks_exact(WORDS).take(count).map(field).collect()
}

/// The log with the words of every field that is new or is not as it was. The Rust's own log may grow
/// past the room that is lent.
fn log(before: &[u32], had: &[Field], fields: &[Field]) -> Vec<u32> {
    let mut log = before.to_vec();
    for (k, field) in fields.iter().enumerate() {
        let (at, end) = (WORDS * k, WORDS * (k + 1));
        if had.get(k) != Some(field) {
            log.resize(log.len().max(end), 0);
            log[at..end].copy_from_slice(&words(field));
        }
    }
    log
}

/// What the Rust does with a call of syntax, and none for another call.
pub fn ask(call: &Call) -> Option<Asked> {
    match call {
        Call::ReadRaw { frame, place, .. } => {
            let from = Standing::new(&**frame, &[][..], *place);
            Some(moved(&from, |cursor| step(cursor, call)))
        }
        Call::CheckTiling { log, count, total } => {
            let spans = fields(log, *count)
                .iter()
                .map(|f| (f.pos, f.width))
                .collect::<Vec<_>>();
            tiles(&spans, *total)
        }
        Call::ElementAt { log, count, k } => Some(looked(&fields(log, *count), *k)),
        _ => {
            let from = call.standing()?;
            Some(moved(from, |cursor| step(cursor, call)))
        }
    }
}

/// A step of the cursor, from where it stands.
pub fn moved(from: &Standing, step: impl FnOnce(&mut Cursor) -> Result<u32>) -> Asked {
    let place = from.place;
    let mut cursor = Cursor {
        data: &from.frame,
        pos: place.pos,
        limit: place.limit,
        fields: fields(&from.log, place.count),
        block: place.block,
    };
    let had = cursor.fields.clone();
    let done = quiet::caught(|| step(&mut cursor));
    let mut asked = told(done, cursor.pos);
    asked.answer.place = Some(Place {
        pos: cursor.pos,
        limit: cursor.limit,
        block: cursor.block,
        count: place.count.saturating_add(cursor.fields.len() - had.len()),
    });
    asked.answer.log = log(&from.log, &had, &cursor.fields);
    asked.last = cursor.fields.last().map(|field| (field.pos, field.width));
    asked
}

/// The cursor's function of a call.
fn step(cursor: &mut Cursor, call: &Call) -> Result<u32> {
    match call {
        Call::ReadElement { ask, .. } => {
            cursor.get_role(text(ask.name), role(ask.role.word()), ask.index, ask.width)
        }
        Call::ReadRaw { width, .. } => cursor.raw(*width, "raw bits"),
        Call::Span {
            name,
            role: of,
            width,
            ..
        } => {
            cursor.span(text(*name), role(of.word()), *width)?;
            Ok(0)
        }
        Call::CloseSpan {
            name,
            role: of,
            start,
            ..
        } => {
            cursor.close_span(text(*name), role(of.word()), *start);
            Ok(0)
        }
        _ => Ok(0),
    }
}

/// The Rust's refusals have no number: what each says, and the number that document 01 gives it.
const TEXTS: [(&str, u8); 17] = [
    ("no sync word", 2),
    ("short frame header", 3),
    ("AC-3 fscod", 4),
    ("exponent reuse where new", 6),
    ("exponent range", 6),
    ("grouped exponent", 7),
    ("outside 0..24", 8),
    ("shorter than its mantissa range", 9),
    ("before transmission", 10),
    ("do not cover", 12),
    ("bap above", 13),
    ("composite GAQ gain", 14),
    ("deltbae", 15),
    ("leaving no room for auxdatae", 16),
    ("auxdatal", 17),
    ("does not follow bit", 18),
    ("elements end at bit", 18),
];

/// The number of a refusal; one that is not listed shows as a difference.
pub fn number(error: &Error) -> u8 {
    let said = match error {
        Error::Truncated(_) => return 1,
        Error::Invalid(said) => said,
        Error::Unsupported(_) => return 5,
        _ => return u8::MAX,
    };
    let listed = TEXTS.iter().find(|(text, _)| said.contains(text));
    listed.map_or(u8::MAX, |(_, number)| *number)
}

/// What the Rust told, or none where it panicked. The cursor's bit goes with a refusal.
pub fn told(done: Option<Result<u32>>, bit: usize) -> Asked {
    let mut answer = Answer::default();
    match &done {
        Some(Ok(value)) => answer.value = *value,
        Some(Err(error)) => {
            answer.number = number(error);
            answer.bit = bit;
        }
        None => {}
    }
    Asked {
        panicked: done.is_none(),
        answer,
        last: None,
    }
}

/// What the Rust says of elements with these positions and widths, or none where it is not there.
pub fn tiles(spans: &[(usize, usize)], total: usize) -> Option<Asked> {
    let field = |&(pos, width)| Field {
        pos,
        width,
        ..field(&[0; WORDS])
    };
    let fields: Vec<Field> = spans.iter().map(field).collect();
    let done = quiet::caught(|| check_contiguous(&fields, total));
    Some(told(done.map(|tiled| tiled.map(|()| 0)), 0))
}

/// The Rust has no function that looks at an element: it is the field itself.
fn looked(fields: &[Field], k: usize) -> Asked {
    let mut asked = told(Some(Ok(0)), 0);
    asked.answer.element = fields.get(k).map(|field| Element {
        name: name(field.name),
        role: zelamodurk::syntax::Role::of_word(role_word(field.role)),
        block: field.block,
        index: field.index,
        pos: field.pos as u32,
        width: field.width as u32,
        value: field.value,
    });
    asked
}

/// The index that the Rust logs for one that is handed in, or none where it is not there.
pub fn index(index: usize) -> Option<i16> {
    let mut cursor = Cursor::new(&[0], 8);
    cursor.geti(text(0), index, 1).ok()?;
    cursor.fields.last().map(|field| field.index)
}

/// Whether a role is of dynamic range control, a checksum, a span; none where the Rust is not there.
pub fn kinds(of: zelamodurk::syntax::Role) -> Option<[bool; 3]> {
    let role = role(of.word());
    Some([role.is_drc(), role.is_checksum(), role.is_span()])
}
