//! What each command is, with an example.

/// A command's name and its help.
pub struct Topic {
    pub name: &'static str,
    pub text: &'static str,
}

/// The commands.
pub const TOPICS: [Topic; 5] = [
    Topic {
        name: "check",
        text: CHECK,
    },
    Topic {
        name: "fix",
        text: FIX,
    },
    Topic {
        name: "reseal",
        text: RESEAL,
    },
    Topic {
        name: "bits",
        text: BITS,
    },
    Topic {
        name: "help",
        text: HELP,
    },
];

pub const HELP: &str = "\
usage: zela COMMAND [OPTIONS] FILE..

Reads AC-3 and E-AC-3 (ETSI TS 102 366) with the proved core of Zelamodurk.

  check    are its frames whole? tells every bad place of each file
  fix      for damage: leaves bad frames out, or repeats the last good one
  reseal   for your own edits: new checksums over the bytes as they are
  bits     shows some bits of a file
  help     this text, or that of a command: zela help check

  zela check film.ac3
  zela check -r recordings
  zela fix damaged.ac3 fixed.ac3

  -h, --help     this text, or that of the command
  -V, --version  the version

A FILE that is - is standard input.

Status: 0 good; 1 damage found, or refused; 2 bad usage; 3 input or output
failed; 4 no AC-3 there. Of several the greatest counts.
";

const CHECK: &str = "\
usage: zela check [-q] [-a] [-r] [-j N] [--allow-changes] [--format FORMAT]
                  FILE..

Tells of each file whether it is good, its codec, channels, sample rate, bit
rate, frames and length. Below that stands every bad place by byte, frame and
time, each counted from 0: bad checksums, frames that break off, bytes in no
frame, and changes of the format.

  zela check film.ac3
  zela check -r --format jsonl recordings > report.jsonl
  cat part1.ac3 part2.ac3 | zela check -

  -a, --all            every place, and not the first ten of a file
      --allow-changes  a change of the format is told, and is not bad
  -r, --recursive      the files in folders that end in .ac3, .eac3 or .ec3
  -j, --jobs N         so many files at once; else as many as there are
                       processors
      --format FORMAT  text, a table; json, an array; jsonl, an object a line,
                       written as things are found; or csv
  -q, --quiet          no report and no progress bar: the status tells
  -h, --help           this text

Status: 0 every file is good; 1 something is bad; 2 bad usage; 3 input or
output failed; 4 no AC-3 there.
";

const FIX: &str = "\
usage: zela fix [-q] [-a] [-n] [--bad drop|repeat] [--format FORMAT] IN OUT

For damage. Writes the good frames of IN to OUT. Frames with bad checksums and
bytes in no frame are left out, and each such place is told.

  zela fix damaged.ac3 fixed.ac3
  zela fix --bad repeat damaged.ac3 fixed.ac3

      --bad drop       leave them out, which is the default: what follows comes
                       earlier
      --bad repeat     the last good frame of the same length and header stands
                       in for each lost one, so that the time stays
  -n, --dry-run        tell what would be done, and write nothing
  -a, --all            tell every place, and not the first ten
      --format FORMAT  text, json, jsonl or csv
  -q, --quiet          no report and no progress bar: the status tells
  -h, --help           this text

OUT takes its place when all is written. A file that was there is replaced, and
stays as it was where that fails. An OUT that is - is standard output.

Status: 0 nothing was bad; 1 something was, and OUT is without it, or the
format changes inside IN; 2 bad usage; 3 input or output failed; 4 no AC-3
there, or no good frame of it, and nothing is written.
";

const RESEAL: &str = "\
usage: zela reseal [-q] [-a] [-n] [--format FORMAT] IN OUT
       zela reseal [-q] [-a] [-n] [--format FORMAT] --in-place FILE

For frames that you edited. Writes the whole frames of IN to OUT, and gives new
checksums, over the bytes as they are, to those whose checksums are bad.

A checksum is the only witness of most damage. Where a frame was damaged and
not edited, a reseal hides that for good: zela fix is for damage.

  zela check edited.ac3
  zela reseal edited.ac3 sealed.ac3

  -i, --in-place       reseal FILE itself; where anything in it is no whole
                       frame it stays as it is
  -n, --dry-run        tell what would be done, and write nothing
  -a, --all            tell every place, and not the first ten
      --format FORMAT  text, json, jsonl or csv
  -q, --quiet          no report and no progress bar: the status tells
  -h, --help           this text

OUT takes its place when all is written. A file that was there is replaced, and
stays as it was where that fails. An OUT that is - is standard output.

Status: 0 all is resealed, or nothing was to; 1 something was left out; 2 bad
usage; 3 input or output failed; 4 no AC-3 there, and nothing is written.
";

const BITS: &str = "\
usage: zela bits [--format FORMAT] FILE POS WIDTH

Shows WIDTH bits of a file, at most 32, from bit POS on. Bit 0 is the top bit
of the first byte.

  zela bits film.ac3 40 5

      --format FORMAT  text, json, jsonl or csv
  -h, --help           this text

Status: 0 good; 1 refused; 2 bad usage; 3 input failed.
";

/// The help of a command, or of all of them.
pub fn of(name: Option<&str>) -> &'static str {
    let topic = TOPICS.iter().find(|topic| Some(topic.name) == name);
    topic.map_or(HELP, |topic| topic.text)
}
