//! What the command line takes from the core, and all of it: bits, probe, checksums, their repair.

pub use zelamodurk::bits::get;
#[cfg(not(test))]
pub use zelamodurk::frame::{crc_status, probe};
pub use zelamodurk::frame::{repair, Codec, Header, Status};
pub use zelamodurk::{Refusal, Why};

#[cfg(test)]
pub use counted::{crc_status, probe};

/// The longest frame, in bytes.
pub const LONGEST: usize = 4096;
/// How many bytes probe looks at.
pub const HEADER: usize = 6;

/// The same two, with a count of how often a test asked them.
#[cfg(test)]
pub mod counted {
    use super::{Codec, Header, Refusal, Status};
    use std::cell::Cell;
    use zelamodurk::frame;

    /// How often each was asked.
    #[derive(Clone, Copy, Debug, Default, PartialEq, Eq)]
    pub struct Calls {
        pub probe: usize,
        pub crc_status: usize,
    }

    thread_local! {
        static CALLS: Cell<Calls> = Cell::default();
    }

    pub fn probe(frame: &[u8]) -> Result<Header, Refusal> {
        let calls = CALLS.get();
        let probe = calls.probe + 1;
        CALLS.set(Calls { probe, ..calls });
        frame::probe(frame)
    }

    pub fn crc_status(bytes: &[u8], codec: Codec) -> Result<Status, Refusal> {
        let calls = CALLS.get();
        let crc_status = calls.crc_status + 1;
        CALLS.set(Calls {
            crc_status,
            ..calls
        });
        frame::crc_status(bytes, codec)
    }

    /// The calls of this thread since this was last asked.
    pub fn take() -> Calls {
        CALLS.take()
    }
}
