//! The sides of an allocation: the exponents are the first bytes, LOG_ADD the second, HEARING the words.
//! The pointers are left where the exponents stood.

use super::{Numbers, Side};
use crate::call::Allocation;
use zelamodurk::alloc::{Codes, Pointers, Segment, BINS, SEGMENTS};

/// A segment of no band.
const NONE: Segment = Segment {
    offset: 0,
    len: 0,
    ba: 0,
};

/// START END, the nine codes, whether there are leaks and both, how many segments there are, the offsets,
/// lengths and adjustments of eight, and whether the pointers are hebap.
pub fn lent(given: &Allocation) -> Side {
    let leak = given.leak.unwrap_or_default();
    let mut segments = given.delta.clone();
    segments.resize(SEGMENTS, NONE);
    let mut numbers = vec![given.start as u64, given.end as u64];
    numbers.extend(given.codes.bytes().map(u64::from));
    numbers.extend([u8::from(given.leak.is_some()), leak.0, leak.1].map(u64::from));
    numbers.push(given.delta.len() as u64);
    numbers.extend(segments.iter().map(|segment| u64::from(segment.offset)));
    numbers.extend(segments.iter().map(|segment| u64::from(segment.len)));
    numbers.extend(segments.iter().map(|segment| u64::from(segment.ba)));
    numbers.push((given.pointers == Pointers::Hebap).into());
    Side {
        first: given.exponents.to_vec(),
        second: given.log_add.to_vec(),
        words: given.hearing.iter().copied().map(u32::from).collect(),
        numbers,
    }
}

/// The way back.
pub(super) fn given(
    first: Vec<u8>,
    second: Vec<u8>,
    words: &[u32],
    args: &mut Numbers,
) -> Result<Allocation<'static>, String> {
    let exponents: [u8; BINS] = first.try_into().map_err(|_| "no 256 exponents")?;
    let hearing: Result<Vec<u16>, _> = words.iter().copied().map(u16::try_from).collect();
    let (start, end, codes) = (args.next()?, args.next()?, Codes::of_bytes(args.row()?));
    let (has_leak, leak) = (args.next::<u8>()?, (args.next()?, args.next()?));
    Ok(Allocation {
        exponents,
        start,
        end,
        codes,
        leak: (has_leak == 1).then_some(leak),
        delta: delta(args)?,
        pointers: [Pointers::Bap, Pointers::Hebap][usize::from(args.next::<u8>()? == 1)],
        hearing: hearing.map_err(|e| e.to_string())?.into(),
        log_add: second.into(),
    })
}

fn delta(args: &mut Numbers) -> Result<Vec<Segment>, String> {
    let count = args.next()?;
    let rows: [[u8; SEGMENTS]; 3] = [args.row()?, args.row()?, args.row()?];
    let mut delta: Vec<Segment> = (0..SEGMENTS)
        .map(|n| Segment {
            offset: rows[0][n],
            len: rows[1][n],
            ba: rows[2][n],
        })
        .collect();
    delta.resize(count, NONE);
    Ok(delta)
}
