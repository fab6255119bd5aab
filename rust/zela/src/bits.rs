//! `zela bits`: some bits of a file, for support calls.

use crate::args::{Format, Span};
use crate::columns::{columns, row, titles, Column, Side};
use crate::core;
use crate::input::{spoken, Input};
use crate::outcome::{name, print, Failure, Outcome};
use crate::report::{alone, printable, Record, Value};
use crate::words::grouped;
use std::io::{self, Read};

/// Bytes that hold any 32 bits.
const ENOUGH: u64 = 5;

pub fn run(span: &Span, format: Format) -> Result<Outcome, Failure> {
    let input = Input::open(&span.file)?;
    let (bytes, at) = window(input, span.at).map_err(|e| Failure::io(spoken(&span.file), &e))?;
    let value = core::get(&bytes, at, span.width).map_err(|refusal| {
        let (number, why) = (refusal.why.number(), refusal.why);
        let (at, width) = (grouped(span.at), grouped(span.width as u64));
        let words = format!("bit {at}, width {width}: refusal {number}, {why}");
        Failure::of(Outcome::Damage, spoken(&span.file), words)
    })?;
    let found = Found { span, value };
    print(&match format {
        Format::Text => found.table(),
        _ => alone(&found.record(), format),
    })?;
    Ok(Outcome::Good)
}

/// The bytes around a bit, as far as the input has them, and where it stands in them.
fn window(mut input: Input, at: u64) -> io::Result<(Vec<u8>, usize)> {
    let passed = input.pass(at / 8)?;
    let mut bytes = Vec::new();
    input.take(ENOUGH).read_to_end(&mut bytes)?;
    let at = at.saturating_sub(passed.saturating_mul(8));
    Ok((bytes, usize::try_from(at).unwrap_or(usize::MAX)))
}

struct Found<'a> {
    span: &'a Span,
    value: u32,
}

impl Found<'_> {
    /// As many signs as the width has bits.
    fn binary(&self) -> String {
        match self.span.width {
            0 => String::new(),
            width => format!("{:0width$b}", self.value),
        }
    }

    fn hex(&self) -> String {
        let digits = self.span.width.div_ceil(4);
        format!("0x{:0digits$X}", self.value)
    }

    fn record(&self) -> Record {
        let mut record = Record::default();
        record.add("file", Value::Text(name(&self.span.file)));
        record.add("bit", Value::Number(self.span.at));
        record.add("width", Value::Number(self.span.width as u64));
        record.add("value", Value::Number(self.value.into()));
        record.add("hex", Value::Text(self.hex()));
        record.add("binary", Value::Text(self.binary()));
        record
    }

    fn table(&self) -> String {
        let cells = [
            ("bit", grouped(self.span.at), Side::Right),
            ("width", self.span.width.to_string(), Side::Right),
            ("value", grouped(self.value.into()), Side::Right),
            ("hex", self.hex(), Side::Left),
            ("binary", self.binary(), Side::Left),
            ("file", printable(&name(&self.span.file)), Side::Left),
        ];
        let column = |(title, cell, side): &(&'static str, String, Side)| -> Column {
            (title, columns(cell).max(title.len()), *side)
        };
        let columns: Vec<Column> = cells.iter().map(column).collect();
        titles(&columns) + &row(&columns, &cells.map(|(_, cell, _)| cell))
    }
}
