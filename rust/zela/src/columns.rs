//! How many columns of a terminal a text takes, and rows of a table.

/// Ranges of signs that take two columns: East Asian wide and full-width ones, and pictures (Unicode 15, in
/// whole blocks).
const WIDE: [(u32, u32); 16] = [
    (0x1100, 0x115F),
    (0x231A, 0x231B),
    (0x23E9, 0x23EC),
    (0x2E80, 0x303E),
    (0x3041, 0x33FF),
    (0x3400, 0x4DBF),
    (0x4E00, 0xA4CF),
    (0xA960, 0xA97C),
    (0xAC00, 0xD7A3),
    (0xF900, 0xFAFF),
    (0xFE30, 0xFE6F),
    (0xFF00, 0xFF60),
    (0xFFE0, 0xFFE6),
    (0x1F300, 0x1F64F),
    (0x1F680, 0x1FAFF),
    (0x20000, 0x3FFFD),
];

/// Ranges of signs that take none: marks that stand on the sign before them, joiners and variation selectors.
const NONE: [(u32, u32); 12] = [
    (0x0300, 0x036F),
    (0x0483, 0x0489),
    (0x0591, 0x05BD),
    (0x0610, 0x061A),
    (0x064B, 0x065F),
    (0x0E34, 0x0E3A),
    (0x0E47, 0x0E4E),
    (0x1AB0, 0x1AFF),
    (0x200B, 0x200D),
    (0x20D0, 0x20FF),
    (0xFE00, 0xFE0F),
    (0xFE20, 0xFE2F),
];

fn columns_of(sign: char) -> usize {
    let code = u32::from(sign);
    let is_in = |ranges: &[(u32, u32)]| {
        ranges
            .iter()
            .any(|(low, high)| (*low..=*high).contains(&code))
    };
    match () {
        () if code < 0x300 => 1,
        () if is_in(&NONE) => 0,
        () if is_in(&WIDE) => 2,
        () => 1,
    }
}

/// The columns that a text takes.
pub fn columns(text: &str) -> usize {
    text.chars().map(columns_of).sum()
}

/// A text of at most so many columns, with its middle cut out where it is wider: a name's start and its
/// extension both tell.
pub fn cut(text: &str, most: usize) -> String {
    if columns(text) <= most {
        return text.to_string();
    }
    let room = most.saturating_sub(DOTS.len());
    let head = taken(text.chars(), room - room / 2);
    let tail = taken(text.chars().rev(), room - columns(&head));
    let tail: String = tail.chars().rev().collect();
    let dots: String = DOTS.chars().take(most).collect();
    head + &dots + &tail
}

/// What stands for the part that is cut out.
const DOTS: &str = "..";

/// The first signs, as many as keep within the columns.
fn taken(signs: impl Iterator<Item = char>, room: usize) -> String {
    let mut used = 0;
    signs
        .take_while(|sign| {
            used += columns_of(*sign);
            used <= room
        })
        .collect()
}

/// On which side of its column a cell stands.
#[derive(Clone, Copy, PartialEq, Eq)]
pub enum Side {
    Left,
    Right,
}

/// A column of a table: its title, its least width, and the side of its cells.
pub type Column = (&'static str, usize, Side);

/// A row of a table, whose last cell is as wide as it is.
pub fn row(columns: &[Column], cells: &[String]) -> String {
    let cells = columns.iter().zip(cells);
    let padded: Vec<String> = cells
        .map(|((_, width, side), cell)| padded(cell, *width, *side))
        .collect();
    format!("{}\n", padded.join("  ").trim_end())
}

/// The titles of a table.
pub fn titles(columns: &[Column]) -> String {
    let titles: Vec<String> = columns
        .iter()
        .map(|(title, ..)| title.to_string())
        .collect();
    row(columns, &titles)
}

fn padded(cell: &str, width: usize, side: Side) -> String {
    let space = " ".repeat(width.saturating_sub(columns(cell)));
    match side {
        Side::Left => cell.to_string() + &space,
        Side::Right => space + cell,
    }
}

#[cfg(test)]
mod tests {
    use super::*;

    #[test]
    fn wide_signs_take_two_columns_and_marks_none() {
        assert_eq!(columns("abc.ac3"), 7);
        assert_eq!(columns("音声.ac3"), 8);
        assert_eq!(columns("한국어"), 6);
        assert_eq!(columns("e\u{301}"), 1);
        assert_eq!(columns("🎬"), 2);
        assert_eq!(columns("é–…"), 3);
    }

    #[test]
    fn a_long_text_loses_its_middle() {
        assert_eq!(cut("short.ac3", 9), "short.ac3");
        assert_eq!(cut("a_long_name_of_a_film.eac3", 14), "a_long..m.eac3");
        assert_eq!(cut("音声音声音声音声.ac3", 12), "音声..声.ac3");
        for most in 0..30 {
            assert!(columns(&cut("音声音声a音声音声b.ac3", most)) <= most);
        }
    }

    #[test]
    fn a_row_holds_its_columns() {
        const COLUMNS: [Column; 3] = [
            ("a", 4, Side::Left),
            ("b", 3, Side::Right),
            ("c", 0, Side::Left),
        ];
        assert_eq!(titles(&COLUMNS), "a       b  c\n");
        let cells = ["音", "12", "name"].map(str::to_string);
        assert_eq!(row(&COLUMNS, &cells), "音     12  name\n");
    }
}
