//! A window that moves over an input: at most a fixed number of bytes is held, however long the input is.

use std::io::{self, ErrorKind, Read};

/// How many bytes the window holds.
const ROOM: usize = 1 << 16;

/// The bytes of an input from one place on.
pub struct Window<R> {
    input: R,
    room: Box<[u8]>,
    start: usize,
    end: usize,
    offset: u64,
    ended: bool,
}

impl<R: Read> Window<R> {
    pub fn new(input: R) -> Self {
        Window {
            input,
            room: vec![0; ROOM].into_boxed_slice(),
            start: 0,
            end: 0,
            offset: 0,
            ended: false,
        }
    }

    /// Where the window begins, in bytes from the start of the input.
    pub fn offset(&self) -> u64 {
        self.offset
    }

    /// Whether the input ends where the window does.
    pub fn is_last(&self) -> bool {
        self.ended
    }

    /// The bytes that are held now.
    pub fn held(&self) -> &[u8] {
        self.room.get(self.start..self.end).unwrap_or_default()
    }

    /// Reads on until the window holds `least` bytes, or all that the input has.
    pub fn fill(&mut self, least: usize) -> io::Result<()> {
        if self.held().len() >= least || self.ended {
            return Ok(());
        }
        self.room.copy_within(self.start..self.end, 0);
        self.end -= self.start;
        self.start = 0;
        while self.end < least.min(ROOM) && !self.ended {
            let free = self.room.get_mut(self.end..).unwrap_or_default();
            match self.input.read(free) {
                Ok(0) => self.ended = true,
                Ok(more) => self.end += more,
                Err(e) if e.kind() == ErrorKind::Interrupted => {}
                Err(e) => return Err(e),
            }
        }
        Ok(())
    }

    /// Hands out the first bytes, as many as are held of the number asked for, and moves past them.
    pub fn take(&mut self, bytes: usize) -> &[u8] {
        let from = self.start;
        let bytes = bytes.min(self.held().len());
        self.start += bytes;
        self.offset += bytes as u64;
        self.room.get(from..self.start).unwrap_or_default()
    }
}

#[cfg(test)]
mod tests {
    use super::*;

    /// An input that gives one byte at a time, and is interrupted before each.
    struct Slow<'a>(&'a [u8], bool);

    impl Read for Slow<'_> {
        fn read(&mut self, room: &mut [u8]) -> io::Result<usize> {
            self.1 = !self.1;
            if self.1 {
                return Err(ErrorKind::Interrupted.into());
            }
            let one = room.len().min(1);
            self.0.read(&mut room[..one])
        }
    }

    #[test]
    fn a_slow_input_fills_the_window() {
        let mut window = Window::new(Slow(&[1, 2, 3, 4], false));
        window.fill(3).unwrap();
        assert_eq!(window.held(), [1, 2, 3]);
        assert_eq!(window.take(2), [1, 2]);
        window.fill(3).unwrap();
        assert_eq!((window.held(), window.offset()), (&[3, 4][..], 2));
        assert!(window.is_last());
        assert_eq!(window.take(9), [3, 4]);
        assert_eq!((window.held(), window.offset()), (&[][..], 4));
    }

    #[test]
    fn a_long_input_is_held_in_pieces() {
        let mut window = Window::new(io::repeat(7));
        for _ in 0..1000 {
            window.fill(10_000).unwrap();
            assert!((10_000..=ROOM).contains(&window.held().len()));
            window.take(9_999);
        }
        assert_eq!(window.offset(), 9_999_000);
    }
}
