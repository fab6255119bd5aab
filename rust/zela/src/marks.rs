//! Where in a file the bad places lie, as a line of signs.

/// How finely places are kept, whatever the file's length is.
const CELLS: usize = 1024;
/// Signs of the line.
const SIGNS: usize = 60;

/// Which parts of a file are marked. The parts grow with the file, so that their number stays.
pub struct Marks {
    cells: [bool; CELLS],
    /// Bytes of a part.
    part: u64,
}

impl Default for Marks {
    fn default() -> Marks {
        Marks {
            cells: [false; CELLS],
            part: 1,
        }
    }
}

impl Marks {
    /// Marks so many bytes from an offset on, at least one.
    pub fn add(&mut self, offset: u64, bytes: u64) {
        let last = offset.saturating_add(bytes.max(1) - 1);
        while last / self.part >= CELLS as u64 {
            self.widen();
        }
        let cells = (offset / self.part) as usize..=(last / self.part) as usize;
        self.cells.get_mut(cells).unwrap_or_default().fill(true);
    }

    /// Parts of twice the length.
    fn widen(&mut self) {
        for at in 0..CELLS {
            let pair = self.cells.get(2 * at..2 * at + 2).unwrap_or_default();
            self.cells[at] = pair.contains(&true);
        }
        self.part *= 2;
    }

    /// The line for a file of so many bytes.
    pub fn line(&self, bytes: u64) -> String {
        let mut signs = [b'.'; SIGNS];
        let bytes = u128::from(bytes.max(1));
        let sign_at = |offset: u128| (offset * SIGNS as u128 / bytes) as usize;
        for (at, _) in self
            .cells
            .iter()
            .enumerate()
            .filter(|(_, is_marked)| **is_marked)
        {
            let first = at as u128 * u128::from(self.part);
            let end = (first + u128::from(self.part)).min(bytes);
            // A part of a long file is less than a sign, and one of a short file several.
            let from = sign_at(first).min(SIGNS - 1);
            let to = sign_at(end.saturating_sub(1)).max(sign_at(end).saturating_sub(1));
            signs[from..=to.clamp(from, SIGNS - 1)].fill(b'x');
        }
        String::from_utf8_lossy(&signs).into_owned()
    }
}

#[cfg(test)]
mod tests {
    use super::*;

    fn marked(marks: &Marks, bytes: u64) -> Vec<usize> {
        let line = marks.line(bytes);
        assert_eq!(line.len(), SIGNS);
        let signs = line.bytes().enumerate();
        signs
            .filter(|(_, sign)| *sign == b'x')
            .map(|(at, _)| at)
            .collect()
    }

    #[test]
    fn places_are_where_they_are() {
        let mut marks = Marks::default();
        assert_eq!(marked(&marks, 6000), []);
        marks.add(0, 1);
        marks.add(3000, 100);
        marks.add(5999, 1);
        // The parts are of 8 bytes, so that a mark may reach a sign too far.
        assert_eq!(marked(&marks, 6000), [0, 30, 31, 59]);
    }

    #[test]
    fn a_short_file_and_a_long_one() {
        let mut marks = Marks::default();
        marks.add(0, 0);
        assert_eq!(marked(&marks, 0).len(), SIGNS);
        assert_eq!(marked(&marks, 1).len(), SIGNS);
        assert_eq!(marked(&marks, 6), (0..10).collect::<Vec<_>>());
        let huge = 1 << 50;
        marks.add(huge / 2, huge / 4);
        marks.add(u64::MAX, u64::MAX);
        let signs = marked(&marks, u64::MAX);
        assert_eq!((signs.first(), signs.last()), (Some(&0), Some(&59)));
    }

    #[test]
    fn a_long_gap_is_a_long_mark() {
        let mut marks = Marks::default();
        marks.add(1_000_000, 1_000_000);
        assert_eq!(marked(&marks, 4_000_000), (14..=30).collect::<Vec<_>>());
    }
}
