//! The Rust's cursor, what it reads and walks, and its roles.

#[cfg(oracle)]
mod called {
    use oracle::blocks::{self, ExpSet, Groups};
    use oracle::syntax::{check_contiguous, Cursor};
    use zelamodurk::alloc::BINS;
    use zelamodurk::exponents::Ask;

    pub use oracle::syntax::Role;

    /// A role that is nothing, and one of each kind.
    pub const ROLES: [Role; 4] = [Role::Plain, Role::Compr(0), Role::Crc2, Role::Mantissas];

    /// The Rust's cursor over a frame, with room for more fields than are logged.
    pub struct Reader<'a>(Cursor<'a>);

    impl<'a> Reader<'a> {
        pub fn new(frame: &'a [u8]) -> Self {
            Reader(Cursor::new(frame, 8 * frame.len()))
        }

        /// Back to the frame's start, with nothing logged and the room kept.
        pub fn rewind(&mut self) {
            self.rewind_to(0);
        }

        /// The same at another bit.
        pub fn rewind_to(&mut self, pos: usize) {
            self.0.fields.clear();
            self.0.pos = pos;
        }

        #[inline(never)]
        pub fn read(&mut self, index: i16, width: usize) -> Option<u32> {
            self.0.get_role("exps", Role::Plain, index, width).ok()
        }

        #[inline(never)]
        pub fn raw(&mut self, width: usize) -> Option<u32> {
            self.0.raw(width, "exps").ok()
        }

        #[inline(never)]
        pub fn span(&mut self, width: usize) -> bool {
            self.0.span("auxbits", Role::AuxBits, width).is_ok()
        }

        #[inline(never)]
        pub fn close_span(&mut self, start: usize) {
            self.0.close_span("auxbits", Role::AuxBits, start);
        }

        #[inline(never)]
        pub fn tiles(&self, total: usize) -> bool {
            check_contiguous(&self.0.fields, total).is_ok()
        }

        /// The exponents at the frame's start.
        #[inline(never)]
        pub fn exponents(&mut self, ask: &Ask) -> Option<ExpSet> {
            self.rewind();
            let (start, end) = (ask.start.0, ask.end.0);
            blocks::read_exponents(&mut self.0, ask.slot.into(), ask.strategy, start, end).ok()
        }

        /// A walk from the frame's start over the bins below `end`.
        #[inline(never)]
        pub fn conventional(&mut self, bap: &[u8; BINS], end: usize) -> bool {
            self.rewind();
            blocks::conventional(&mut self.0, bap, 0, end, &mut Groups::default()).is_ok()
        }

        /// An AHT walk from the frame's start over the bins below `end`.
        #[inline(never)]
        pub fn aht(&mut self, hebap: &[u8; BINS], end: usize) -> Option<usize> {
            self.rewind();
            blocks::aht(&mut self.0, hebap, 0, end).ok()
        }
    }

    #[inline(never)]
    pub fn is_drc(role: Role) -> bool {
        role.is_drc()
    }

    #[inline(never)]
    pub fn is_checksum(role: Role) -> bool {
        role.is_checksum()
    }

    #[inline(never)]
    pub fn is_span(role: Role) -> bool {
        role.is_span()
    }
}

#[cfg(not(oracle))]
mod called {
    use zelamodurk::alloc::BINS;
    use zelamodurk::exponents::{Ask, ExpSet};

    #[derive(Clone, Copy)]
    pub struct Role;

    pub const ROLES: [Role; 4] = [Role; 4];

    pub struct Reader;

    impl Reader {
        pub fn new(_: &[u8]) -> Self {
            Reader
        }

        pub fn rewind(&mut self) {}

        pub fn rewind_to(&mut self, _: usize) {}

        pub fn read(&mut self, _: i16, _: usize) -> Option<u32> {
            None
        }

        pub fn raw(&mut self, _: usize) -> Option<u32> {
            None
        }

        pub fn span(&mut self, _: usize) -> bool {
            true
        }

        pub fn close_span(&mut self, _: usize) {}

        pub fn tiles(&self, _: usize) -> bool {
            true
        }

        pub fn exponents(&mut self, _: &Ask) -> Option<ExpSet> {
            None
        }

        pub fn conventional(&mut self, _: &[u8; BINS], _: usize) -> bool {
            true
        }

        pub fn aht(&mut self, _: &[u8; BINS], _: usize) -> Option<usize> {
            None
        }
    }

    pub fn is_drc(_: Role) -> bool {
        false
    }

    pub fn is_checksum(_: Role) -> bool {
        false
    }

    pub fn is_span(_: Role) -> bool {
        false
    }
}

pub use called::{is_checksum, is_drc, is_span, Reader, Role, ROLES};
