//! What `zela fix` and `zela reseal` share: an input that is read frame by frame, and an output that is
//! written anew, in another file or in its place.

use crate::args::{Format, Rewrite};
use crate::check::TOLD;
use crate::frames::{Frames, Item};
use crate::input::{spoken, Input};
use crate::kinds::Kind;
use crate::outcome::{name, print, print_aside, said, Failure, Outcome};
use crate::output::{self, Output};
use crate::progress::Progress;
use crate::report::{alone, Record, Value};
use crate::same::{are_same, is_standard_output};
use crate::summary::kind_of;
use crate::table::without_ac3;
use crate::trouble::{Bad, Place};
use crate::words::{counted, grouped};
use std::ffi::{OsStr, OsString};
use std::fs;
use std::io::{self, IsTerminal};

/// Where frames go.
pub type Put<'a> = dyn FnMut(&[u8]) -> Result<(), Failure> + 'a;

/// What is done with frames and with what is none.
pub trait Way: Clone {
    /// Takes what stands next, and writes what comes of it.
    fn take(&mut self, place: Place, item: Item<'_>, put: &mut Put<'_>) -> Result<(), Failure>;
    /// Writes what is still held at the end.
    fn end(&mut self, _: &mut Put<'_>) -> Result<(), Failure> {
        Ok(())
    }
    /// How many frames were written.
    fn frames(&self) -> u64;
    /// What to do where IN is to be OUT.
    fn in_place(&self) -> &'static str {
        ""
    }
    /// Whether a file itself is to be replaced by what was written.
    fn is_worth_it(&self) -> bool;
    fn outcome(&self) -> Outcome;
    /// The lines below the first.
    fn lines(&self, done: &Done) -> Vec<String>;
    /// What a record has behind the names and whether something was written.
    fn record(&self, record: &mut Record);
}

/// What became of the output.
#[derive(Clone, Copy, PartialEq, Eq)]
pub enum Fate {
    Written,
    /// It is written, and a file that was there is gone.
    Replaced,
    /// It would be written, were this no trial.
    Tried,
    /// The old file, or none, is there.
    Left,
}

impl Fate {
    pub fn is_written(self) -> bool {
        matches!(self, Fate::Written | Fate::Replaced)
    }
}

/// What a run did.
pub struct Done {
    pub file: OsString,
    /// The name of the output, which is that of the file itself where it is replaced.
    pub out: OsString,
    pub fate: Fate,
}

/// Rewrites a file by a way.
pub fn run(asked: &Rewrite, mut way: impl Way) -> Result<Outcome, Failure> {
    let (fate, is_stream) = match &asked.to {
        Some(to) => to_another(asked, to, &mut way)?,
        None => (in_place(asked, &mut way)?, false),
    };
    let done = Done {
        fate,
        file: asked.from.clone(),
        out: asked.to.clone().unwrap_or_else(|| asked.from.clone()),
    };
    let text = report(&way, &done, asked);
    // Where the frames go to a stream, the report goes to standard error, so that it never is in it.
    match (asked.shown.quiet, is_stream) {
        (true, _) => {}
        (false, true) => print_aside(&text)?,
        (false, false) => print(&text)?,
    }
    Ok(match (fate, &asked.to) {
        // A script must not take an old file for what was written.
        (Fate::Left, Some(_)) => Outcome::NoAc3,
        _ => way.outcome(),
    })
}

/// Writes to another file; it is left as it is where there is no frame to write.
fn to_another(asked: &Rewrite, to: &OsStr, way: &mut impl Way) -> Result<(Fate, bool), Failure> {
    if are_same(&asked.from, to) {
        let words = format!("IN and OUT are the same file{}", way.in_place());
        return Err(Failure::of(Outcome::Usage, output::spoken(to), words));
    }
    if is_standard_output(to) && io::stdout().is_terminal() && !asked.is_dry {
        let words = "is the terminal, which shows no frames";
        return Err(Failure::of(Outcome::Usage, "standard output", words));
    }
    let walk = Walk::begin(asked)?;
    if asked.is_dry {
        walk.go(asked, way, &mut |_| Ok(()))?;
        let fate = if way.frames() == 0 {
            Fate::Left
        } else {
            Fate::Tried
        };
        return Ok((fate, false));
    }
    let mut output = Output::begin(to)?;
    let is_stream = output.is_stream();
    walk.go(asked, way, &mut |frame| output.write(frame))?;
    if way.frames() == 0 {
        return Ok((Fate::Left, is_stream));
    }
    let fate = if output.replaces() {
        Fate::Replaced
    } else {
        Fate::Written
    };
    output.finish()?;
    Ok((fate, is_stream))
}

/// Replaces the file itself, where that is worth it. To know that it is read before anything is begun, so that
/// a file that stays may stand where nothing can be written.
fn in_place(asked: &Rewrite, way: &mut impl Way) -> Result<Fate, Failure> {
    let file = &asked.from;
    let known = fs::metadata(file).map_err(|e| Failure::io(said(file), &e))?;
    if !known.is_file() {
        return Err(Failure::of(Outcome::Io, said(file), "is not a plain file"));
    }
    let anew = way.clone();
    Walk::begin(asked)?.go(asked, way, &mut |_| Ok(()))?;
    if !way.is_worth_it() {
        return Ok(Fate::Left);
    }
    if asked.is_dry {
        return Ok(Fate::Tried);
    }
    *way = anew;
    let mut output = Output::replace(file)?;
    Walk::begin(asked)?.go(asked, way, &mut |frame| output.write(frame))?;
    // It may have changed since it was read first.
    if !way.is_worth_it() {
        return Ok(Fate::Left);
    }
    output.finish()?;
    Ok(Fate::Replaced)
}

/// An input that is open and may well be AC-3.
struct Walk {
    frames: Frames<Input>,
    size: Option<u64>,
    kind: Option<&'static Kind>,
    has_header: bool,
}

impl Walk {
    fn begin(asked: &Rewrite) -> Result<Walk, Failure> {
        let input = Input::open(&asked.from)?;
        let size = input.size();
        let mut frames = Frames::new(input);
        let failed = |e| Failure::io(spoken(&asked.from), &e);
        let (kind, refused) = kind_of(&mut frames).map_err(failed)?;
        let has_header = refused.is_none();
        if kind.is_some_and(|kind| kind.is_sure) {
            return Err(no_ac3(&asked.from, kind, false));
        }
        Ok(Walk {
            frames,
            size,
            kind,
            has_header,
        })
    }

    /// Hands everything in the input to the way.
    fn go(mut self, asked: &Rewrite, way: &mut impl Way, put: &mut Put<'_>) -> Result<(), Failure> {
        let progress = Progress::new(spoken(&asked.from), self.size, asked.shown.quiet);
        let failed = |e| Failure::io(spoken(&asked.from), &e);
        let mut has_frame = false;
        let mut read = 0;
        while let Some((place, item)) = self.frames.next().map_err(failed)? {
            has_frame |= matches!(item, Item::Frame(_));
            progress.add(place.offset - read);
            read = place.offset;
            way.take(place, item, put)?;
        }
        way.end(put)?;
        match has_frame || self.has_header {
            true => Ok(()),
            false => {
                let is_empty = self.frames.place().offset == 0;
                Err(no_ac3(&asked.from, self.kind, is_empty))
            }
        }
    }
}

/// There is no AC-3 in a file, and nothing is written.
fn no_ac3(file: &OsStr, kind: Option<&Kind>, is_empty: bool) -> Failure {
    let [what, advice @ ..] = &without_ac3(file, kind, is_empty)[..] else {
        return Failure::new(Outcome::NoAc3, "");
    };
    let advice: String = advice.iter().map(|line| format!("\n{line}")).collect();
    let words = format!("{what}; nothing is written{advice}");
    Failure::of(Outcome::NoAc3, spoken(file), words)
}

/// The report of a run.
fn report(way: &impl Way, done: &Done, asked: &Rewrite) -> String {
    if asked.shown.format != Format::Text {
        let mut record = Record::default();
        record.add("file", Value::Text(name(&done.file)));
        record.add("out", Value::Text(name(&done.out)));
        record.add("written", Value::Flag(done.fate.is_written()));
        way.record(&mut record);
        return alone(&record, asked.shown.format);
    }
    let frames = counted(way.frames(), "frame", "frames");
    let out = output::spoken(&done.out);
    let first = match done.fate {
        Fate::Written => format!("{out}: written, {frames}"),
        Fate::Replaced => format!("{out}: replaced, {frames}"),
        Fate::Tried => format!("{out}: would be written, {frames}"),
        Fate::Left if asked.to.is_some() => {
            format!("{out}: not written, since no good frame is there")
        }
        Fate::Left => format!("{out}: left as it is"),
    };
    let lines = [first].into_iter().chain(way.lines(done));
    lines.map(|line| line + "\n").collect()
}

/// Places that are told when all is done.
#[derive(Clone)]
pub struct Places {
    /// Those that are told, and how many frames stand in there.
    kept: Vec<(Bad, u64)>,
    most: usize,
    pub count: u64,
    pub bytes: u64,
}

impl Places {
    /// All of them are kept where they are asked for.
    pub fn new(asked: &Rewrite) -> Places {
        Places {
            kept: Vec::new(),
            most: if asked.all { usize::MAX } else { TOLD },
            count: 0,
            bytes: 0,
        }
    }

    pub fn add(&mut self, bad: Bad) {
        self.count += 1;
        self.bytes += bad.bytes;
        if self.kept.len() < self.most {
            self.kept.push((bad, 0));
        }
    }

    /// One frame more stands in at a place, by its number.
    pub fn stands_in(&mut self, place: u64) {
        let at = usize::try_from(place).ok();
        if let Some((_, stand_ins)) = at.and_then(|at| self.kept.get_mut(at)) {
            *stand_ins += 1;
        }
    }

    pub fn first(&self) -> Option<&Bad> {
        self.kept.first().map(|(bad, _)| bad)
    }

    /// A line for each place that is told, and one for the others.
    pub fn lines(&self, line: impl Fn(&Bad, u64) -> String) -> Vec<String> {
        let lines = self.kept.iter().map(|(bad, count)| line(bad, *count));
        let mut lines: Vec<String> = lines.map(|line| format!("    {line}")).collect();
        let more = self.count - self.kept.len() as u64;
        if more > 0 {
            lines.push(format!("    and {} more, which --all shows", grouped(more)));
        }
        lines
    }

    pub fn records(&self, record: impl Fn(&Bad, u64) -> Record) -> Value {
        let records = self.kept.iter().map(|(bad, count)| record(bad, *count));
        Value::Many(records.collect())
    }
}
