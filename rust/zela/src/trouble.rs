//! What is told of a file, and where.

use crate::clock::Time;
use crate::core::{Refusal, Status, Why};
use crate::report::{Record, Value};
use crate::words::{counted, grouped};
use std::fmt;

/// Where something stands: in bytes, in frames, and in the time of the frames before it, each from 0.
#[derive(Clone, Copy, Debug, Default, PartialEq, Eq)]
pub struct Place {
    pub offset: u64,
    pub frame: u64,
    pub time: Time,
}

/// What there is to tell of a place.
#[derive(Clone, Debug, PartialEq, Eq)]
pub enum Trouble {
    /// The core refuses what stands there.
    Refused(Refusal),
    /// A frame breaks off: another begins inside it, or the input ends.
    Cut { have: u64, whole: u64 },
    /// The checksums of a whole frame are bad.
    Checksum(Status),
    /// So they are, and nothing shows that it ends where its header says.
    Lone { status: Status, whole: u64 },
    /// From here on the sound has another format.
    Changed { was: Box<str>, is: Box<str> },
}

impl Trouble {
    /// The refusal's number; a bad checksum is no refusal. That of a frame that breaks off is not the core's,
    /// which is never asked about part of a frame.
    pub fn number(&self) -> Option<u8> {
        match self {
            Trouble::Refused(refusal) => Some(refusal.why.number()),
            Trouble::Cut { .. } => Some(Why::PastLimit.number()),
            _ => None,
        }
    }

    /// What the trouble is once it is known after how many bytes the next frame begins.
    pub fn before_next(self, have: u64) -> Trouble {
        match self {
            Trouble::Lone { whole, .. } | Trouble::Cut { whole, .. } if have < whole => {
                Trouble::Cut { have, whole }
            }
            known => known,
        }
    }

    /// One word for programs.
    fn what(&self) -> &'static str {
        match self {
            Trouble::Refused(_) | Trouble::Lone { .. } => "gap",
            Trouble::Cut { .. } => "cut",
            Trouble::Checksum(_) => "checksum",
            Trouble::Changed { .. } => "change",
        }
    }
}

impl fmt::Display for Trouble {
    fn fmt(&self, f: &mut fmt::Formatter<'_>) -> fmt::Result {
        match self {
            Trouble::Refused(refusal) => write!(f, "{}", refusal.why),
            Trouble::Cut { have, whole } => {
                let short = grouped(whole.saturating_sub(*have));
                let (have, whole) = (grouped(*have), counted(*whole, "byte", "bytes"));
                write!(
                    f,
                    "the frame breaks off after {have} of {whole}, {short} short"
                )
            }
            Trouble::Checksum(status) => f.write_str(bad_sums(*status)),
            Trouble::Lone { status, .. } => {
                let bad = bad_sums(*status);
                write!(f, "{bad}, and no header stands where the frame would end")
            }
            Trouble::Changed { was, is } => write!(f, "the format changes from {was} to {is}"),
        }
    }
}

fn bad_sums(status: Status) -> &'static str {
    match (status.crc1, status.crc2) {
        (Some(false), false) => "crc1 and crc2 are bad",
        (Some(false), true) => "crc1 is bad",
        _ => "crc2 is bad",
    }
}

/// A place that is told.
#[derive(Clone, Debug, PartialEq, Eq)]
pub struct Bad {
    pub place: Place,
    /// How many bytes it is about.
    pub bytes: u64,
    pub trouble: Trouble,
}

/// The keys of a bad place in the record of a file.
const BAD_KEYS: [&str; 4] = ["bad_offset", "bad_seconds", "bad_refusal", "bad_words"];

impl Bad {
    pub fn new(place: Place, bytes: u64, trouble: Trouble) -> Bad {
        Bad {
            place,
            bytes,
            trouble,
        }
    }

    /// What the core says of a file's first bytes.
    pub fn refused(refusal: Refusal) -> Bad {
        Bad::new(Place::default(), 0, Trouble::Refused(refusal))
    }

    /// The first bad place in the record of a file, if there is one.
    pub fn add_first(record: &mut Record, bad: Option<&Bad>) {
        let values = match bad {
            None => [const { Value::None }; BAD_KEYS.len()],
            Some(Bad { place, trouble, .. }) => [
                Value::Number(place.offset),
                Value::Decimal(place.time.seconds()),
                trouble.number().map(u64::from).into(),
                Value::Text(trouble.to_string()),
            ],
        };
        for (key, value) in BAD_KEYS.into_iter().zip(values) {
            record.add(key, value);
        }
    }

    /// The place as a record of its own.
    pub fn record(&self) -> Record {
        let Bad {
            place,
            bytes,
            trouble,
        } = self;
        let mut record = Record::default();
        record.add("byte", Value::Number(place.offset));
        record.add("frame", Value::Number(place.frame));
        record.add("seconds", Value::Decimal(place.time.seconds()));
        record.add("bytes", Value::Number(*bytes));
        record.add("what", Value::Text(trouble.what().to_string()));
        record.add("refusal", trouble.number().map(u64::from).into());
        record.add("words", Value::Text(trouble.to_string()));
        record
    }

    pub fn is_change(&self) -> bool {
        matches!(self.trouble, Trouble::Changed { .. })
    }
}

impl fmt::Display for Bad {
    fn fmt(&self, f: &mut fmt::Formatter<'_>) -> fmt::Result {
        let Place {
            offset,
            frame,
            time,
        } = self.place;
        write!(
            f,
            "byte {}, frame {}, {time}: ",
            grouped(offset),
            grouped(frame)
        )?;
        if matches!(self.trouble, Trouble::Refused(_) | Trouble::Lone { .. }) {
            write!(f, "{} in no frame: ", counted(self.bytes, "byte", "bytes"))?;
        }
        if let Some(number) = self.trouble.number() {
            write!(f, "refusal {number}, ")?;
        }
        write!(f, "{}", self.trouble)
    }
}
