//! The Rust's parser over both cores.

#[cfg(oracle)]
mod called {
    /// Lends the Rust's tables to the drop-in core; false where there is no parser.
    pub fn lend() -> bool {
        use parser::bitalloc_tables::{HEARING, LOG_ADD};
        parser::lent::lend(&HEARING, &LOG_ADD).is_ok()
    }

    #[inline(never)]
    pub fn drop_in(frame: &[u8]) -> Option<parser::frame::Frame> {
        parser::eac3::parse(frame).ok()
    }

    #[inline(never)]
    pub fn original(frame: &[u8]) -> Option<oracle::frame::Frame> {
        oracle::eac3::parse(frame).ok()
    }
}

#[cfg(not(oracle))]
mod called {
    pub fn lend() -> bool {
        false
    }

    pub fn drop_in(_: &[u8]) -> bool {
        false
    }

    pub fn original(_: &[u8]) -> bool {
        false
    }
}

pub use called::{drop_in, lend, original};
