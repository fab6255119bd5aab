//! Whole frames, parsed by the Rust's own parser over its own modules and over the drop-in core.

use super::cursor::{number, role_word};
use super::quiet;
use crate::whole::{Element, Frame, Refusal, Told};
use zelamodurk::syntax::Role;

/// Everything that a parser answers for a frame. Both sides' structs have the same fields, and none is left
/// out here.
macro_rules! frame {
    ($side:ident, $frame:expr, $role:expr) => {{
        let $side::frame::Frame {
            codec,
            bytes,
            fields,
            bsid,
            acmod,
            lfeon,
            fscod,
            strmtyp,
            substreamid,
            numblks,
            block_starts,
            mantissa_starts,
            audio_end,
            aht_tags,
            aht_slots,
            spx_blocks,
            cpl_blocks,
        } = $frame;
        let element = |field: $side::syntax::Field| {
            let $side::syntax::Field {
                name,
                role,
                block,
                index,
                pos,
                width,
                value,
            } = field;
            Element {
                name,
                role: $role(role),
                block,
                index,
                pos,
                width,
                value,
            }
        };
        Frame {
            is_eac3: codec == $side::frame::Codec::Eac3,
            lfeon,
            codes: [bsid, acmod, fscod, strmtyp, substreamid],
            numbers: [bytes, numblks, audio_end, aht_tags, spx_blocks, cpl_blocks],
            block_starts,
            mantissa_starts,
            aht_slots,
            elements: fields.into_iter().map(element).collect(),
        }
    }};
}

/// What the Rust's parser tells over its own modules.
pub fn original(bytes: &[u8]) -> Told {
    use oracle::error::Error;
    let Some(done) = quiet::caught(|| oracle::eac3::parse(bytes)) else {
        return Told::Panicked;
    };
    let error = match done {
        Ok(frame) => return Told::Frame(Box::new(frame!(oracle, frame, role_word))),
        Err(error) => error,
    };
    let number = number(&error);
    match error {
        Error::Truncated(said) => refused("truncated", number, said),
        Error::Unsupported(said) => refused("unsupported", number, said),
        Error::Invalid(said) => refused("invalid", number, said),
        _ => refused("another", number, error.to_string()),
    }
}

/// What it tells over the drop-in core. The number is the one that the text carries, and 255 where the parser
/// itself refuses.
pub fn drop_in(bytes: &[u8]) -> Told {
    use parser::error::Error;
    let Some(done) = quiet::caught(|| parser::eac3::parse(bytes)) else {
        return Told::Panicked;
    };
    let error = match done {
        Ok(frame) => return Told::Frame(Box::new(frame!(parser, frame, Role::word))),
        Err(error) => error,
    };
    let (kind, said) = match error {
        Error::Truncated(said) => ("truncated", said),
        Error::Unsupported(said) => ("unsupported", said),
        Error::Invalid(said) => ("invalid", said),
        _ => ("another", error.to_string()),
    };
    let carried = said.split_once("refused with ").and_then(|(_, rest)| {
        let number = rest.split(' ').next()?;
        number.parse().ok()
    });
    refused(kind, carried.unwrap_or(u8::MAX), said)
}

fn refused(kind: &'static str, number: u8, said: String) -> Told {
    Told::Refused(Refusal { kind, number, said })
}

/// Lends the Rust's tables to the drop-in core.
pub fn lend() -> Result<(), String> {
    use parser::bitalloc_tables::{HEARING, LOG_ADD};
    parser::lent::lend(&HEARING, &LOG_ADD).map_err(|error| error.to_string())
}
