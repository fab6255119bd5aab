//! Records for programs: JSON, a line of JSON for each, or CSV, with keys that stay.

use crate::args::Format;

/// A value of a record.
#[derive(Clone, Debug, PartialEq, Eq)]
pub enum Value {
    Text(String),
    Number(u64),
    /// A number with decimals, written out.
    Decimal(String),
    Flag(bool),
    /// Nothing to tell: null in JSON, empty in CSV.
    None,
    One(Record),
    Many(Vec<Record>),
}

impl From<Option<u64>> for Value {
    fn from(number: Option<u64>) -> Value {
        number.map_or(Value::None, Value::Number)
    }
}

impl From<Option<&str>> for Value {
    fn from(text: Option<&str>) -> Value {
        text.map_or(Value::None, |text| Value::Text(text.to_string()))
    }
}

impl Value {
    /// Whether a cell of CSV can hold it.
    fn is_flat(&self) -> bool {
        !matches!(self, Value::One(_) | Value::Many(_))
    }
}

/// What a report tells of one thing, by keys.
#[derive(Clone, Debug, Default, PartialEq, Eq)]
pub struct Record(Vec<(&'static str, Value)>);

impl Record {
    pub fn add(&mut self, key: &'static str, value: Value) {
        self.0.push((key, value));
    }

    fn json(&self) -> String {
        let pair = |(key, value): &(&str, Value)| format!("\"{key}\": {}", json_value(value));
        let pairs: Vec<String> = self.0.iter().map(pair).collect();
        format!("{{{}}}", pairs.join(", "))
    }

    /// What CSV has of it: the records inside it are left out.
    fn flat(&self) -> impl Iterator<Item = &(&'static str, Value)> {
        self.0.iter().filter(|(_, value)| value.is_flat())
    }

    fn csv_keys(&self) -> String {
        let keys: Vec<&str> = self.flat().map(|(key, _)| *key).collect();
        keys.join(",") + "\n"
    }

    fn csv_line(&self) -> String {
        let cells: Vec<String> = self.flat().map(|(_, value)| csv_value(value)).collect();
        cells.join(",") + "\n"
    }
}

/// Records that are written as they come.
pub struct Records {
    format: Format,
    is_begun: bool,
}

impl Records {
    pub fn new(format: Format) -> Records {
        let is_begun = false;
        Records { format, is_begun }
    }

    /// What is written for the next record.
    pub fn next(&mut self, record: &Record) -> String {
        let is_first = !std::mem::replace(&mut self.is_begun, true);
        match self.format {
            Format::Json if is_first => format!("[\n  {}", record.json()),
            Format::Json => format!(",\n  {}", record.json()),
            Format::Jsonl => record.json() + "\n",
            Format::Csv if is_first => record.csv_keys() + &record.csv_line(),
            Format::Csv => record.csv_line(),
            Format::Text => String::new(),
        }
    }

    /// What is written behind the last record.
    pub fn end(&self) -> &'static str {
        match (self.format, self.is_begun) {
            (Format::Json, true) => "\n]\n",
            (Format::Json, false) => "[]\n",
            _ => "",
        }
    }
}

/// A report of one record.
pub fn alone(record: &Record, format: Format) -> String {
    let mut records = Records::new(format);
    records.next(record) + records.end()
}

/// A text that keeps to its line, and moves nothing on a terminal.
pub fn printable(text: &str) -> String {
    text.replace(moves, "?")
}

/// Whether a sign moves others: a control sign, the end of a line or a paragraph, or one that turns the
/// direction of writing.
pub fn moves(sign: char) -> bool {
    sign.is_control()
        || matches!(sign, '\u{61c}' | '\u{200e}' | '\u{200f}')
        || matches!(sign, '\u{2028}'..='\u{202e}' | '\u{2066}'..='\u{2069}')
}

fn json_value(value: &Value) -> String {
    match value {
        Value::Text(text) => json_string(text),
        Value::Number(number) => number.to_string(),
        Value::Decimal(number) => number.clone(),
        Value::Flag(flag) => flag.to_string(),
        Value::None => "null".to_string(),
        Value::One(record) => record.json(),
        Value::Many(records) => {
            let records: Vec<String> = records.iter().map(Record::json).collect();
            format!("[{}]", records.join(", "))
        }
    }
}

fn json_string(text: &str) -> String {
    let mut quoted = String::from("\"");
    for sign in text.chars() {
        match sign {
            '"' | '\\' => quoted.extend(['\\', sign]),
            sign if moves(sign) => quoted += &format!("\\u{:04x}", u32::from(sign)),
            sign => quoted.push(sign),
        }
    }
    quoted + "\""
}

fn csv_value(value: &Value) -> String {
    match value {
        Value::Text(text) if text.contains([',', '"', '\n', '\r']) => {
            format!("\"{}\"", text.replace('"', "\"\""))
        }
        Value::Text(text) => text.clone(),
        Value::None => String::new(),
        other => json_value(other),
    }
}

#[cfg(test)]
mod tests {
    use super::*;

    fn record(name: &str) -> Record {
        let mut inner = Record::default();
        inner.add("byte", Value::Number(7));
        let mut record = Record::default();
        record.add("file", Value::Text(name.to_string()));
        record.add("places", Value::Many(vec![inner.clone(), inner]));
        record.add("good", Value::Flag(true));
        record
    }

    #[test]
    fn records_are_written_as_they_come() {
        let written = |format| {
            let mut records = Records::new(format);
            records.next(&record("a")) + &records.next(&record("b")) + records.end()
        };
        let [a, b] = ["a", "b"].map(|name| {
            format!("{{\"file\": \"{name}\", \"places\": [{{\"byte\": 7}}, {{\"byte\": 7}}], \"good\": true}}")
        });
        assert_eq!(written(Format::Json), format!("[\n  {a},\n  {b}\n]\n"));
        assert_eq!(written(Format::Jsonl), format!("{a}\n{b}\n"));
        assert_eq!(written(Format::Csv), "file,good\na,true\nb,true\n");
        assert_eq!(Records::new(Format::Json).end(), "[]\n");
    }

    #[test]
    fn json_text_is_escaped() {
        let text = "a\"b\\c\n\u{7f}\u{202e}é";
        assert_eq!(json_string(text), r#""a\"b\\c\u000a\u007f\u202eé""#);
    }

    #[test]
    fn csv_text_is_quoted_where_it_must_be() {
        let quoted = |text: &str| csv_value(&Value::Text(text.to_string()));
        assert_eq!(quoted("a b"), "a b");
        assert_eq!(quoted("a,b"), "\"a,b\"");
        assert_eq!(quoted("a\"b"), "\"a\"\"b\"");
        assert_eq!(quoted("a\nb"), "\"a\nb\"");
    }

    #[test]
    fn a_text_shows_no_sign_that_moves_others() {
        assert_eq!(printable("a\n\u{1b}b"), "a??b");
        assert_eq!(printable("\u{202e}gnp.3ca\u{202c}"), "?gnp.3ca?");
        assert_eq!(printable("\u{61c}\u{200e}\u{200f}"), "???");
        assert_eq!(printable("\u{2028}\u{2066}\u{2069}"), "???");
        assert_eq!(printable("é\u{5d0}\u{2010}"), "é\u{5d0}\u{2010}");
    }
}
