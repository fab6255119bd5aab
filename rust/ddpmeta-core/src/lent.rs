//! HEARING and LOG_ADD, the tables of TS that allocation needs. They stay with the parser, whose own
//! `tables` has them, and are lent once, before the first frame.

use crate::error::{refused, unfit, Result};
use std::sync::OnceLock;
use zelamodurk::alloc::Tables;
use zelamodurk::Why;

static LENT: OnceLock<([u16; 150], [u8; 256])> = OnceLock::new();

/// Lends the tables to every allocation of the program. The first tables lent stay.
///
/// # Errors
/// With 21 where an entry can't be handed over, or other tables were lent before. What the core asks of the
/// entries it tests in each allocation.
pub fn lend(hearing: &[i16; 150], log_add: &[i32; 256]) -> Result<()> {
    match entries(hearing).zip(entries(log_add)) {
        Some(tables) if *LENT.get_or_init(|| tables) == tables => Ok(()),
        _ => Err(refused("lend", unfit(Why::BadTables, 0))),
    }
}

/// A table's entries in the core's form; none where one can't be handed over.
fn entries<F: Copy, T: Copy + Default + TryFrom<F>, const N: usize>(
    table: &[F; N],
) -> Option<[T; N]> {
    let mut entries = [T::default(); N];
    for (to, from) in entries.iter_mut().zip(table) {
        *to = T::try_from(*from).ok()?;
    }
    Some(entries)
}

/// The tables that were lent; until then empty ones, which the core refuses with 21.
pub(crate) fn tables() -> Tables<'static> {
    let (hearing, log_add): (&[u16], &[u8]) = match LENT.get() {
        Some((hearing, log_add)) => (hearing, log_add),
        None => (&[], &[]),
    };
    Tables { hearing, log_add }
}
