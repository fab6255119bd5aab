//! The Rust's delta segments.

#[cfg(oracle)]
mod called {
    use oracle::blocks::AllocState;
    use oracle::syntax::Cursor;

    /// The Rust's state, and its cursor over a frame.
    pub struct Deltas<'a> {
        state: AllocState,
        cursor: Cursor<'a>,
    }

    impl<'a> Deltas<'a> {
        pub fn new(frame: &'a [u8]) -> Self {
            Deltas {
                state: AllocState::default(),
                cursor: Cursor::new(frame, 8 * frame.len()),
            }
        }

        #[inline(never)]
        pub fn code(&mut self, slot: usize, code: u32) -> bool {
            self.state.delta_code(slot, code, false).is_ok()
        }

        /// The segments at the frame's start, with the room of the log kept.
        #[inline(never)]
        pub fn read(&mut self, slot: usize) -> bool {
            self.cursor.fields.clear();
            self.cursor.pos = 0;
            self.state.read_delta(&mut self.cursor, slot).is_ok()
        }
    }
}

#[cfg(not(oracle))]
mod called {
    pub struct Deltas;

    impl Deltas {
        pub fn new(_: &[u8]) -> Self {
            Deltas
        }

        pub fn code(&mut self, _: usize, _: u32) -> bool {
            true
        }

        pub fn read(&mut self, _: usize) -> bool {
            true
        }
    }
}

pub use called::Deltas;
