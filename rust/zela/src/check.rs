//! `zela check`: what files hold, and every bad place in them.
//!
//! Several files are read at once, and told in the order in which they were named. What is found goes to the
//! writer by a channel of few places for each file, so that a file whose turn has not come waits, and memory
//! stays flat.

use crate::args::{Check, Format};
use crate::input::{size_of, spoken, Input};
use crate::listing::{Entry, Listing};
use crate::outcome::{name, print, Failure, Outcome};
use crate::progress::Progress;
use crate::report::{Record, Records, Value};
use crate::summary::{State, Summary};
use crate::table::Table;
use crate::terminal::Terminal;
use crate::trouble::Bad;
use crate::words::{counted, grouped};
use std::collections::VecDeque;
use std::ffi::OsStr;
use std::io::{self, IsTerminal};
use std::sync::mpsc::{channel, sync_channel, Receiver, Sender, SyncSender};
use std::sync::{Mutex, PoisonError};
use std::{process, thread};

/// How many places of a file are told, unless all are asked for.
pub const TOLD: usize = 10;
/// How many places wait for the writer.
const WAITING: usize = 16;
/// How many files are begun before the one that is told is done.
const AHEAD: usize = 256;

/// What a reader sends to the writer.
enum Event {
    Place(Bad),
    /// Further places are not sent.
    Enough,
    Done(Box<Summary>),
}

/// A file to be read, and where its events go.
type Job<'a> = (&'a Entry, SyncSender<Event>);

/// Checks each file that can be read, and tells why others can't be.
pub fn run(asked: &Check) -> Result<Outcome, Failure> {
    let listing = Listing::of(&asked.files, asked.is_recursive);
    let progress = progress_of(&listing, asked.shown.quiet);
    let (jobs, taken) = channel::<Job<'_>>();
    let taken = Mutex::new(taken);
    let workers = asked.jobs.min(listing.entries.len());
    thread::scope(|scope| {
        for _ in 0..workers {
            scope.spawn(|| work(&taken, asked, &progress));
        }
        let told = Writer::new(asked, &progress).write_all(&listing, jobs);
        match told {
            Ok(outcome) => Ok(outcome),
            // Readers may wait for an input that never comes, and nobody would hear of it.
            Err(failure) => process::exit(failure.tell() as i32),
        }
    })
}

/// One bar for all files; their sizes are known where each is a plain file.
fn progress_of(listing: &Listing, is_quiet: bool) -> Progress {
    let files = listing
        .entries
        .iter()
        .filter(|entry| entry.failure.is_none());
    let size = files.map(|entry| size_of(&entry.file)).sum::<Option<u64>>();
    let name = match listing.entries.as_slice() {
        [entry] => spoken(&entry.file),
        entries => counted(entries.len() as u64, "file", "files"),
    };
    Progress::new(name, size.filter(|size| *size > 0), is_quiet)
}

/// Reads files as long as there are any.
fn work(taken: &Mutex<Receiver<Job<'_>>>, asked: &Check, progress: &Progress) {
    loop {
        let next = taken.lock().unwrap_or_else(PoisonError::into_inner).recv();
        let Ok((entry, events)) = next else {
            return;
        };
        let mut summary = Summary::of(entry, asked);
        if summary.failure.is_none() {
            let read = read(&mut summary, asked, progress, &events);
            summary.failure = read.err();
        }
        // A writer that is gone needs no summary.
        let _ = events.send(Event::Done(Box::new(summary)));
    }
}

fn read(
    summary: &mut Summary,
    asked: &Check,
    progress: &Progress,
    events: &SyncSender<Event>,
) -> Result<(), Failure> {
    let file = summary.file.clone();
    let input = Input::open(&file)?;
    let (size, most) = (input.size(), asked.told_at_once(input.has_size()));
    let mut found = 0;
    let mut tell = |bad: &Bad| {
        found += 1;
        // A writer that is gone hears nothing.
        let _ = match () {
            () if found <= most => events.send(Event::Place(bad.clone())),
            () if found == most + 1 && most > 0 => events.send(Event::Enough),
            () => Ok(()),
        };
    };
    let read = summary.read(input.watched(progress), &mut tell);
    summary.bytes = summary.bytes.or(size);
    read.map_err(|e| Failure::io(spoken(&file), &e))
}

impl Summary {
    fn of(entry: &Entry, asked: &Check) -> Summary {
        let holds_all = asked.holds_all();
        Summary {
            file: entry.file.clone(),
            changes_are_allowed: asked.allows_changes,
            keep: if holds_all { usize::MAX } else { TOLD },
            all_are_told: asked.all,
            is_wrong: entry.is_empty_folder(),
            failure: entry.failure.clone(),
            ..Summary::default()
        }
    }

    fn record(&self) -> Record {
        let mut record = Record::default();
        record.add("file", Value::Text(name(&self.file)));
        let good = match self.state() {
            State::Unread => Value::None,
            state => Value::Flag(state == State::Good),
        };
        record.add("good", good);
        record.add("codec", self.codec().into());
        record.add("bytes", self.bytes.into());
        record.add("frames", Value::Number(self.frames()));
        record.add("seconds", Value::Decimal(self.length.seconds()));
        record.add("bit_rate", self.bit_rate().into());
        record.add("crc1_good", Value::Number(self.crc1.good));
        record.add("crc1_bad", Value::Number(self.crc1.bad));
        record.add("crc2_good", Value::Number(self.crc2.good));
        record.add("crc2_bad", Value::Number(self.crc2.bad));
        record.add("skipped_bytes", Value::Number(self.skipped));
        Bad::add_first(&mut record, self.first_bad.as_ref());
        let words = self.failure.as_ref().map(|failure| failure.words.as_str());
        record.add("error", words.filter(|_| !self.is_wrong).into());
        let kind = self.kind.map(|kind| kind.name);
        record.add("kind", kind.or(words.filter(|_| self.is_wrong)).into());
        record.add("layout", self.formats.layout().as_deref().into());
        record.add("sample_rate", self.formats.rate().into());
        let varies = self.formats.bit_rate_varies();
        record.add("bit_rate_varies", Value::Flag(varies));
        record.add("bad_places", Value::Number(self.bad()));
        record.add("format_changes", Value::Number(self.changes));
        record.add("state", Value::Text(self.state().word().to_string()));
        let places = self.places.iter().map(Bad::record).collect();
        record.add("places", Value::Many(places));
        record
    }
}

/// How many files came to what.
#[derive(Default)]
struct Totals {
    good: u64,
    bad: u64,
    wrong: u64,
    unread: u64,
}

impl Totals {
    fn add(&mut self, state: State) {
        let which = match state {
            State::Good => &mut self.good,
            State::Bad => &mut self.bad,
            State::Wrong => &mut self.wrong,
            State::Unread => &mut self.unread,
        };
        *which += 1;
    }

    /// The line below a table of many files.
    fn line(&self, passed_over: u64) -> String {
        let files = self.good + self.bad + self.wrong + self.unread;
        if files < 2 && passed_over == 0 {
            return String::new();
        }
        let told = counted(files, "file", "files");
        let (good, bad) = (grouped(self.good), grouped(self.bad));
        let mut line = format!("\n{told}: {good} good, {bad} bad");
        for (count, words) in [(self.wrong, "without AC-3"), (self.unread, "not read")] {
            if count > 0 {
                line += &format!(", {} {words}", grouped(count));
            }
        }
        if passed_over > 0 {
            let other = counted(passed_over, "other file", "other files");
            line += &format!("; {other} passed over");
        }
        line + "\n"
    }
}

/// Tells of files in their order.
struct Writer<'a> {
    asked: &'a Check,
    progress: &'a Progress,
    table: Table,
    records: Records,
    totals: Totals,
    outcome: Outcome,
    is_terminal: bool,
}

impl Writer<'_> {
    fn new<'a>(asked: &'a Check, progress: &'a Progress) -> Writer<'a> {
        Writer {
            asked,
            progress,
            table: Table::new(Terminal::of_output()),
            records: Records::new(asked.shown.format),
            totals: Totals::default(),
            outcome: Outcome::Good,
            is_terminal: io::stdout().is_terminal(),
        }
    }

    fn write_all<'b>(
        mut self,
        listing: &'b Listing,
        jobs: Sender<Job<'b>>,
    ) -> Result<Outcome, Failure> {
        let mut entries = listing.entries.iter();
        let mut begun = VecDeque::new();
        // What is held of a file that waits for its turn is small, or else few wait.
        let ahead = if self.asked.holds_all() {
            self.asked.jobs
        } else {
            AHEAD
        };
        loop {
            for entry in entries.by_ref().take(ahead - begun.len()) {
                let (sender, events) = sync_channel(WAITING);
                // The readers are there until this ends.
                let _ = jobs.send((entry, sender));
                begun.push_back((entry, events));
            }
            let Some((entry, events)) = begun.pop_front() else {
                break;
            };
            self.write_file(&entry.file, &events)?;
        }
        let end = match self.asked.shown.format {
            Format::Text => self.totals.line(listing.passed_over),
            _ => self.records.end().to_string(),
        };
        self.put(&end)?;
        Ok(self.outcome)
    }

    fn write_file(&mut self, file: &OsStr, events: &Receiver<Event>) -> Result<(), Failure> {
        let mut told_at_once = 0;
        for event in events {
            let text = match event {
                Event::Place(bad) => {
                    told_at_once += 1;
                    self.place(file, &bad, told_at_once == 1)
                }
                Event::Enough => self.enough(),
                Event::Done(summary) => self.file(&summary, told_at_once > 0),
            };
            self.put(&text)?;
        }
        Ok(())
    }

    fn place(&mut self, file: &OsStr, bad: &Bad, is_first: bool) -> String {
        match self.asked.shown.format {
            Format::Text => self.table.place(&spoken(file), bad, is_first),
            _ => {
                let mut record = Record::default();
                record.add("file", Value::Text(name(file)));
                record.add("place", Value::One(bad.record()));
                self.records.next(&record)
            }
        }
    }

    fn enough(&self) -> String {
        match self.asked.shown.format {
            Format::Text => Table::enough(),
            _ => String::new(),
        }
    }

    fn file(&mut self, summary: &Summary, places_are_told: bool) -> String {
        if !summary.is_folder() {
            self.totals.add(summary.state());
        }
        self.outcome = self.outcome.max(summary.outcome());
        self.tell_failure(summary);
        match self.asked.shown.format {
            Format::Text => self.table.file(summary, places_are_told),
            _ => self.records.next(&summary.record()),
        }
    }

    /// A failure is told on standard error too, unless a row on the same terminal tells it.
    fn tell_failure(&self, summary: &Summary) {
        let is_seen =
            self.is_terminal && !self.asked.shown.quiet && self.asked.shown.format == Format::Text;
        if let (Some(failure), false) = (&summary.failure, is_seen) {
            self.progress.around(|| failure.tell());
        }
    }

    fn put(&self, text: &str) -> Result<(), Failure> {
        match self.asked.shown.quiet {
            true => Ok(()),
            false => self.progress.around(|| print(text)),
        }
    }
}
