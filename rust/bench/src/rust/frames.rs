//! The Rust's functions of whole frames.

#[cfg(oracle)]
mod called {
    use oracle::frame::{self, CrcStatus};
    use oracle::syntax::{Cursor, Role};
    use zelamodurk::frame::Codec;

    fn codec(of: Codec) -> frame::Codec {
        match of {
            Codec::Ac3 => frame::Codec::Ac3,
            Codec::Eac3 => frame::Codec::Eac3,
        }
    }

    #[inline(never)]
    pub fn probe(frame: &[u8]) -> Option<(frame::Codec, usize)> {
        frame::probe(frame).ok()
    }

    #[inline(never)]
    pub fn crc_status(frame: &[u8], of: Codec) -> CrcStatus {
        frame::crc_status(codec(of), frame)
    }

    #[inline(never)]
    pub fn repair(frame: &mut [u8], of: Codec) {
        frame::fix_crcs(codec(of), frame);
    }

    /// The Rust's cursor behind elements of one width.
    pub struct Tail<'a> {
        cursor: Cursor<'a>,
        elements: usize,
        pos: usize,
    }

    impl<'a> Tail<'a> {
        pub fn new(frame: &'a [u8], elements: usize, width: usize) -> Self {
            let mut cursor = Cursor::new(frame, 8 * frame.len());
            for _ in 0..elements {
                let _ = cursor.get_role("exps", Role::Plain, 0, width);
            }
            let pos = cursor.pos;
            Tail {
                cursor,
                elements,
                pos,
            }
        }

        /// The tail, and then back to where it begins, with the room kept.
        #[inline(never)]
        pub fn read(&mut self, total: usize) -> bool {
            let read = frame::read_tail(&mut self.cursor, total, frame::Codec::Ac3).is_ok();
            self.cursor.fields.truncate(self.elements);
            self.cursor.pos = self.pos;
            read
        }
    }
}

#[cfg(not(oracle))]
mod called {
    use zelamodurk::frame::Codec;

    pub fn probe(_: &[u8]) -> Option<usize> {
        None
    }

    pub fn crc_status(_: &[u8], _: Codec) -> bool {
        true
    }

    pub fn repair(_: &mut [u8], _: Codec) {}

    pub struct Tail;

    impl Tail {
        pub fn new(_: &[u8], _: usize, _: usize) -> Self {
            Tail
        }

        pub fn read(&mut self, _: usize) -> bool {
            true
        }
    }
}

pub use called::{crc_status, probe, repair, Tail};
