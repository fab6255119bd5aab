//! The sides of the calls of frames: the frame is the first bytes, a tail's log the words.

use super::Numbers;
use crate::answers::Answer;
use crate::call::{word16, Call, Standing};
use zelamodurk::frame::{Codec, Header, Status, UserBits};

/// What such a call answers besides: whether a frame is E-AC-3 and its length, the block and the user bits
/// of a tail, or which checksums are good.
pub fn told(call: &Call, answer: &Answer) -> Vec<u64> {
    let mut numbers = Vec::new();
    if let Some(Header { codec, bytes }) = answer.header {
        numbers.extend([(codec == Codec::Eac3).into(), bytes as u64]);
    }
    if let (Call::ReadTail { .. }, Some(place)) = (call, answer.place) {
        numbers.push(word16(place.block).into());
    }
    if let Some(UserBits { start, width }) = answer.user {
        numbers.extend([start as u64, width as u64]);
    }
    if let Some(Status { crc1, crc2 }) = answer.status {
        numbers.extend([crc1 == Some(true), crc2].map(u64::from));
    }
    numbers
}

/// The call of a name with the bytes, words and numbers that it is lent and asked.
pub(super) fn named(
    name: &str,
    first: Vec<u8>,
    words: Vec<u32>,
    args: &mut Numbers,
) -> Result<Call<'static>, String> {
    Ok(match name {
        "probe" => Call::probe(first),
        "read_tail" => {
            let from = Standing::new(first, words, args.place()?);
            Call::read_tail(from, args.next()?, codec(args)?)
        }
        "crc_status" => Call::crc_status(first, codec(args)?),
        _ => Call::repair(first, codec(args)?),
    })
}

/// 1 for E-AC-3.
fn codec(args: &mut Numbers) -> Result<Codec, String> {
    Ok([Codec::Ac3, Codec::Eac3][usize::from(args.next::<u8>()? == 1)])
}
