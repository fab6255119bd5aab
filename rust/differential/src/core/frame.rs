//! What the functions of frame answer.

use super::{logged, slots, told, Room};
use crate::answers::Answer;
use crate::call::{Call, Standing};
use zelamodurk::frame::{self, Codec};

/// What the core answers to a call of frame, or of the functions that are left.
pub fn answer(call: &Call) -> Result<Answer, String> {
    match call {
        Call::Probe { frame } => probed(frame),
        Call::ReadTail { from, total, codec } => tail(from, *total, *codec),
        Call::CrcStatus { frame, codec } => checked(frame, *codec),
        Call::Repair { frame, codec } => repaired(frame, *codec),
        _ => slots::answer(call),
    }
}

fn tail(from: &Standing, total: usize, codec: Codec) -> Result<Answer, String> {
    let mut user = None;
    let mut answer = logged(from, |frame, log, place| {
        let read = frame::read_tail(frame, log, place, total, codec);
        user = read.ok();
        read.map(|_| 0)
    })?;
    answer.user = user;
    Ok(answer)
}

fn probed(frame: &[u8]) -> Result<Answer, String> {
    let room = Room::of(frame);
    let found = frame::probe(room.lent());
    room.untouched(frame)?;
    let mut answer = told(found.map(|_| 0));
    answer.header = found.ok();
    Ok(answer)
}

fn checked(frame: &[u8], codec: Codec) -> Result<Answer, String> {
    let room = Room::of(frame);
    let found = frame::crc_status(room.lent(), codec);
    room.untouched(frame)?;
    let mut answer = told(found.map(|_| 0));
    answer.status = found.ok();
    Ok(answer)
}

fn repaired(frame: &[u8], codec: Codec) -> Result<Answer, String> {
    let mut room = Room::of(frame);
    let done = frame::repair(room.lent_mut(), codec);
    let mut answer = told(done.map(|()| 0));
    answer.after = room.now()?.to_vec();
    Ok(answer)
}
