//! Errors of a parser, and whether two tell the same.

use crate::rule::frame::AUXDATAL;
use zelamodurk::{bits, Why};

/// What the drop-in says of a call that reads more than one element, and how the Rust's names of these begin.
const PARTS: [(&str, &[&str]); 3] = [
    (
        "exponents",
        &["exps[ch]", "cplabsexp", "cplexps", "lfeexps"],
    ),
    ("delta", &["delt", "cpldelt"]),
    ("aht", &["gaqmod", "gaqgain", "gaq ", "vector index"]),
];

/// The bits of a group of exponents, and of a composite gain.
pub(super) const GROUP: usize = 7;
pub(super) const GAIN: usize = 5;

/// An error that a parser answers.
#[derive(Clone, Debug, PartialEq, Eq)]
pub struct Refusal {
    /// Its kind.
    pub kind: &'static str,
    /// The number of document 01, or 255 where it has none.
    pub number: u8,
    /// Its text.
    pub said: String,
}

impl Refusal {
    /// The bit that the drop-in's text carries; none where the parser itself refuses.
    pub(super) fn bit(&self) -> Option<usize> {
        let (_, rest) = self.said.split_once(" at bit ")?;
        rest.split(':').next()?.parse().ok()
    }

    /// Whether the drop-in's error of a frame is the same. What the parser itself refuses has the same text.
    /// What the core refuses has the same kind, the number of the Rust's text, and what that text tells.
    pub(super) fn is_as(&self, ours: &Refusal, frame: &[u8]) -> bool {
        if self.kind != ours.kind {
            return false;
        }
        let (Some((name, _)), Some(bit)) = (ours.said.split_once(": refused with "), ours.bit())
        else {
            return self.said == ours.said;
        };
        self.number == ours.number && self.is_at(name, bit, frame)
    }

    /// Whether the Rust's text tells of this bit. The texts of refusals 1 and 16 have the bit; those of 7 and
    /// 17 have the value that was read, and that of 14 says how large it is: it stands before the bit. The
    /// other texts have nothing that stands in the frame (6 a range, 8 an exponent that is a sum, and 9, 10, 12,
    /// 13, 15 and the other 17 words alone), and the Rust's cursor is gone with the error: the calls one by one
    /// compare the bit there. 18 does not come: the elements that a cursor reads tile.
    fn is_at(&self, name: &str, bit: usize, frame: &[u8]) -> bool {
        let says = |text: String| self.said.starts_with(&text);
        let read = |n: usize| bits::get(frame, bit.checked_sub(n)?, n).ok();
        match Why::of_number(self.number) {
            Why::PastLimit => {
                self.is_of(name) && self.said.contains(&format!(" at bit {bit} beyond "))
            }
            Why::GroupAbove => {
                read(GROUP).is_some_and(|group| says(format!("grouped exponent {group} > ")))
            }
            Why::GainAbove => read(GAIN).is_some_and(|gain| gain > 26),
            Why::NoRoomForTail => says(format!("audio data ends at bit {bit}, ")),
            Why::BadAux if self.said.contains(" exceeds ") => {
                read(AUXDATAL).is_some_and(|user| says(format!("auxdatal {user} exceeds ")))
            }
            _ => true,
        }
    }

    /// Whether the Rust's text begins with the name of an element that was asked for.
    fn is_of(&self, name: &str) -> bool {
        match PARTS.iter().find(|(call, _)| *call == name) {
            Some((_, parts)) => parts.iter().any(|part| self.said.starts_with(part)),
            None => self.said.starts_with(&format!("{name} (")),
        }
    }
}

#[cfg(test)]
mod tests {
    use super::*;

    /// The Rust's text and the drop-in's, with the refusal's number and whether they tell the same of a frame
    /// of ones.
    const TEXTS: [(&str, &str, u8, bool); 12] = [
        ("bsid (5 bits) at bit 9 beyond 9", "bsid", 1, true),
        ("bsid (5 bits) at bit 8 beyond 9", "bsid", 1, false),
        ("acmod (3 bits) at bit 9 beyond 9", "bsid", 1, false),
        ("exps[ch] (7 bits) at bit 9 beyond 9", "exponents", 1, true),
        ("gaqmod (2 bits) at bit 9 beyond 9", "exponents", 1, false),
        ("grouped exponent 127 > 124", "exponents", 7, true),
        ("grouped exponent 126 > 124", "exponents", 7, false),
        ("composite GAQ gain above 26", "aht", 14, true),
        ("audio data ends at bit 9, leaving no", "tail", 16, true),
        ("audio data ends at bit 8, leaving no", "tail", 16, false),
        ("auxdatal 3 exceeds 2 auxbits", "tail", 17, false),
        ("auxdatal overlaps audio data", "tail", 17, true),
    ];

    fn refusal(number: u8, said: String) -> Refusal {
        let kind = "any";
        Refusal { kind, number, said }
    }

    #[test]
    fn another_element_bit_or_value_is_not_the_same() {
        for (rusts, name, number, same) in TEXTS {
            let ours = refusal(
                number,
                format!("{name}: refused with {number} at bit 9: .."),
            );
            let rusts = refusal(number, rusts.to_string());
            assert_eq!(rusts.is_as(&ours, &[0xFF; 2]), same, "{rusts:?}");
        }
    }

    #[test]
    fn a_gain_that_is_not_above_is_not_the_same() {
        let rusts = refusal(14, "composite GAQ gain above 26".to_string());
        let ours = refusal(14, "aht: refused with 14 at bit 9: ..".to_string());
        assert!(!rusts.is_as(&ours, &[0x00; 2]));
    }
}
