//! Bits over byte buffers, most significant first.

use crate::error::{taken, unfit};
use zelamodurk::{bits as core, Why};

/// The widest number that is read or written at once.
const WIDEST: usize = u32::BITS as usize;

/// The `n` bits from bit `pos` on.
///
/// # Panics
/// With 6 where `n` is above 32, then with 1 where the range passes the buffer, also where `n` is 0.
#[track_caller]
pub fn get(data: &[u8], pos: usize, n: usize) -> u32 {
    taken("get", core::get(data, pos, n))
}

/// Makes the `n` bits from bit `pos` on the low bits of `value`.
///
/// # Panics
/// As [`get`]; nothing is changed then.
#[track_caller]
pub fn set(data: &mut [u8], pos: usize, n: usize, value: u32) {
    taken("set", core::set(data, pos, n, value));
}

/// Whether `n` bits of `x` from `a` on are those of `y` from `b` on.
///
/// # Panics
/// With 1 where a range passes its buffer, also where `n` is 0.
#[track_caller]
pub fn range_eq(x: &[u8], a: usize, y: &[u8], b: usize, n: usize) -> bool {
    taken("range_eq", core::range_eq(x, a, y, b, n))
}

/// Whether `n` bits of `x` from `a` on are all 0.
///
/// # Panics
/// With 1 where the range passes the buffer, also where `n` is 0.
#[track_caller]
pub fn range_zero(x: &[u8], a: usize, n: usize) -> bool {
    taken("range_zero", core::range_zero(x, a, n))
}

/// Bits written one after another into bytes that grow.
#[derive(Default, Clone, Debug)]
pub struct Writer {
    buf: Vec<u8>,
    len: usize,
}

impl Writer {
    /// A writer with no bits.
    pub fn new() -> Self {
        Self::default()
    }

    /// How many bits are written.
    pub fn len(&self) -> usize {
        self.len
    }

    /// Whether none is.
    pub fn is_empty(&self) -> bool {
        self.len == 0
    }

    /// Writes the low `n` bits of `value`.
    ///
    /// # Panics
    /// With 6 where `n` is above 32; nothing is changed then.
    #[track_caller]
    pub fn put(&mut self, n: usize, value: u32) {
        // The width comes first: the bytes must not grow for one that is refused.
        let fit = (n <= WIDEST).then(|| self.len + n);
        let end = taken("put", fit.ok_or(unfit(Why::BadArgument, 0)));
        self.buf.resize(end.div_ceil(8), 0);
        set(&mut self.buf, self.len, n, value);
        self.len = end;
    }

    /// Writes `n` zeros.
    ///
    /// # Panics
    /// With 6 where the length would pass every number; nothing is changed then.
    #[track_caller]
    pub fn zeros(&mut self, n: usize) {
        let end = self.len.checked_add(n);
        self.len = taken("zeros", end.ok_or(unfit(Why::BadArgument, 0)));
        self.buf.resize(self.len.div_ceil(8), 0);
    }

    /// Writes the `n` bits of `src` from bit `pos` on.
    ///
    /// # Panics
    /// With 1 where they pass `src`, also where `n` is 0; nothing is changed then.
    #[track_caller]
    pub fn copy(&mut self, src: &[u8], pos: usize, n: usize) {
        // No bits at the range's end pass `src` where the range does.
        let end = pos.checked_add(n).ok_or(unfit(Why::PastLimit, 0));
        taken("copy", end.and_then(|end| core::get(src, end, 0)));
        for at in (0..n).step_by(WIDEST) {
            let width = (n - at).min(WIDEST);
            self.put(width, get(src, pos + at, width));
        }
    }

    /// The bytes; the last is filled up with zeros.
    pub fn into_bytes(self) -> Vec<u8> {
        self.buf
    }
}
