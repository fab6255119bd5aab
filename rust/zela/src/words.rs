//! Numbers and words as people read them.

/// A number with a comma before every three digits.
pub fn grouped(number: u64) -> String {
    let digits = number.to_string();
    let mut text = String::new();
    for (at, digit) in digits.chars().enumerate() {
        if at > 0 && (digits.len() - at).is_multiple_of(3) {
            text.push(',');
        }
        text.push(digit);
    }
    text
}

/// So many of a thing, by its words for one and for many.
pub fn counted(number: u64, one: &str, many: &str) -> String {
    let word = if number == 1 { one } else { many };
    format!("{} {word}", grouped(number))
}

/// How many steps lead from one word to another: a letter put in, left out, or changed, or two neighbours
/// exchanged.
fn steps(from: &str, to: &str) -> usize {
    let (from, to): (Vec<char>, Vec<char>) = (from.chars().collect(), to.chars().collect());
    let mut rows = vec![(0..=to.len()).collect::<Vec<usize>>()];
    for (i, a) in from.iter().enumerate() {
        let mut row = vec![i + 1];
        for (j, b) in to.iter().enumerate() {
            let changed = rows[i][j] + usize::from(a != b);
            let mut least = changed.min(rows[i][j + 1] + 1).min(row[j] + 1);
            if i > 0 && j > 0 && *a == to[j - 1] && from[i - 1] == *b {
                least = least.min(rows[i - 1][j - 1] + 1);
            }
            row.push(least);
        }
        rows.push(row);
    }
    rows[from.len()][to.len()]
}

/// The one of the words that this one likely was meant to be, if one is near.
pub fn nearest<'a>(word: &str, words: &[&'a str]) -> Option<&'a str> {
    // A long word is near to none, and would take long to compare.
    if word.chars().count() > 2 * FAR_WORD {
        return None;
    }
    let word = word.to_lowercase();
    let near = |known: &&str| steps(&word, known) <= NEAR.min(known.len() / 2);
    let found = words.iter().filter(|known| near(known));
    found.min_by_key(|known| steps(&word, known)).copied()
}

/// How many steps a word may be away.
const NEAR: usize = 2;
/// Signs of a word that is longer than all that there are.
const FAR_WORD: usize = 20;

#[cfg(test)]
mod tests {
    use super::*;

    #[test]
    fn digits_are_grouped_by_three() {
        let told = [0, 999, 1000, 23_296, 1_000_000, u64::MAX].map(grouped);
        let text = told.join(" ");
        assert_eq!(
            text,
            "0 999 1,000 23,296 1,000,000 18,446,744,073,709,551,615"
        );
    }

    #[test]
    fn one_is_one() {
        assert_eq!(counted(1, "frame", "frames"), "1 frame");
        assert_eq!(counted(0, "frame", "frames"), "0 frames");
        assert_eq!(counted(1234, "frame", "frames"), "1,234 frames");
    }

    #[test]
    fn the_nearest_word_is_found() {
        let words = ["check", "fix", "reseal", "bits", "help"];
        let near = |word| nearest(word, &words);
        assert_eq!(near("chek"), Some("check"));
        assert_eq!(near("CHECK"), Some("check"));
        assert_eq!(near("cehck"), Some("check"));
        assert_eq!(near("reseel"), Some("reseal"));
        assert_eq!(near("bit"), Some("bits"));
        assert_eq!(near("fxi"), Some("fix"));
        assert_eq!(near("info"), None);
        assert_eq!(near("a.ac3"), None);
        assert_eq!(near(""), None);
        assert_eq!(near(&"check".repeat(1000)), None);
    }
}
