//! What the Rust says of whole frames: headers, tails and checksums.

use super::cursor::{moved, number};
use super::{quiet, Asked};
use crate::answers::Answer;
use crate::call::{Call, Standing};
use oracle::frame::{self, CrcStatus};
use oracle::syntax::{Field, Role};
use zelamodurk::frame::{Codec, Header, Status, UserBits};

fn codec(of: Codec) -> frame::Codec {
    match of {
        Codec::Ac3 => frame::Codec::Ac3,
        Codec::Eac3 => frame::Codec::Eac3,
    }
}

/// What the Rust does with a frame, and none for another call.
pub fn ask(call: &Call) -> Option<Asked> {
    let mut answer = Answer::default();
    let done = match call {
        Call::Probe { frame } => quiet::caught(|| probe(frame, &mut answer)),
        Call::CrcStatus { frame, codec } => {
            let status = quiet::caught(|| status(frame, *codec));
            answer.status = status;
            status.map(|_| ())
        }
        Call::Repair { frame, codec: of } => {
            answer.after = frame.to_vec();
            quiet::caught(|| frame::fix_crcs(codec(*of), &mut answer.after))
        }
        Call::ReadTail { from, total, codec } => return Some(tail(from, *total, *codec)),
        _ => return None,
    };
    Some(Asked {
        panicked: done.is_none(),
        answer,
        last: None,
    })
}

fn probe(frame: &[u8], answer: &mut Answer) {
    match frame::probe(frame) {
        Ok((of, bytes)) => {
            let codec = match of {
                frame::Codec::Ac3 => Codec::Ac3,
                frame::Codec::Eac3 => Codec::Eac3,
            };
            answer.header = Some(Header { codec, bytes });
        }
        Err(error) => answer.number = number(&error),
    }
}

fn status(frame: &[u8], of: Codec) -> Status {
    let CrcStatus { crc1, crc2 } = frame::crc_status(codec(of), frame);
    Status { crc1, crc2 }
}

fn tail(from: &Standing, total: usize, of: Codec) -> Asked {
    let mut user = None;
    let mut asked = moved(from, |cursor| {
        let before = cursor.fields.len();
        frame::read_tail(cursor, total, codec(of))?;
        user = user_bits(&cursor.fields[before..]);
        Ok(0)
    });
    asked.answer.user = user;
    asked
}

/// "Where the user bits stand, the first auxdatal bits of auxbits (none if auxdatae is 0)", by the elements of
/// a tail.
fn user_bits(fields: &[Field]) -> Option<UserBits> {
    let of = |role| fields.iter().find(|field| field.role == role);
    let width = match of(Role::AuxDataE)?.value {
        0 => 0,
        _ => of(Role::AuxDataL)?.value as usize,
    };
    let start = of(Role::AuxBits)?.pos;
    Some(UserBits { start, width })
}
