//! A small reader of JSON, which takes what RFC 8259 has and nothing else.

use std::str::Chars;

/// A value of a flat document.
#[derive(Clone, Debug, PartialEq)]
pub enum Json {
    Null,
    Flag(bool),
    Number(f64),
    Text(String),
    List(Vec<Json>),
    Object(Vec<(String, Json)>),
}

impl Json {
    pub fn of(text: &str) -> Json {
        let mut reader = Reader(text.chars());
        let value = reader.value();
        assert_eq!(reader.peek(), None, "something follows the document");
        value
    }

    pub fn at(&self, key: &str) -> &Json {
        let Json::Object(pairs) = self else {
            panic!("no object: {self:?}")
        };
        let mut found = pairs.iter().filter(|(name, _)| name == key);
        let (_, value) = found.next().unwrap_or_else(|| panic!("no {key}"));
        assert!(found.next().is_none(), "{key} stands twice");
        value
    }

    pub fn list(&self) -> &[Json] {
        let Json::List(items) = self else {
            panic!("no list: {self:?}")
        };
        items
    }
}

struct Reader<'a>(Chars<'a>);

impl Reader<'_> {
    /// The next sign that is no space.
    fn peek(&mut self) -> Option<char> {
        let rest = self.0.as_str().trim_start_matches([' ', '\n', '\r', '\t']);
        self.0 = rest.chars();
        rest.chars().next()
    }

    fn take(&mut self, sign: char) {
        assert_eq!(self.peek(), Some(sign));
        self.0.next();
    }

    fn takes(&mut self, sign: char) -> bool {
        let is_next = self.peek() == Some(sign);
        if is_next {
            self.0.next();
        }
        is_next
    }

    fn value(&mut self) -> Json {
        match self.peek() {
            Some('[') => Json::List(self.items('[', ']', Reader::value)),
            Some('{') => Json::Object(self.items('{', '}', Reader::pair)),
            Some('"') => Json::Text(self.text()),
            _ => self.word(),
        }
    }

    fn items<T>(&mut self, open: char, close: char, item: fn(&mut Self) -> T) -> Vec<T> {
        self.take(open);
        let mut items = Vec::new();
        if self.takes(close) {
            return items;
        }
        loop {
            items.push(item(self));
            if !self.takes(',') {
                self.take(close);
                return items;
            }
        }
    }

    fn pair(&mut self) -> (String, Json) {
        assert_eq!(self.peek(), Some('"'));
        let key = self.text();
        self.take(':');
        (key, self.value())
    }

    fn text(&mut self) -> String {
        self.take('"');
        let mut text = String::new();
        loop {
            match self.0.next().expect("the text ends") {
                '"' => return text,
                '\\' => text.push(self.escaped()),
                sign => {
                    assert!(sign >= ' ', "a control sign");
                    text.push(sign);
                }
            }
        }
    }

    fn escaped(&mut self) -> char {
        match self.0.next() {
            Some(sign @ ('"' | '\\' | '/')) => sign,
            Some('u') => {
                let digits: String = self.0.by_ref().take(4).collect();
                let code = u32::from_str_radix(&digits, 16).unwrap();
                char::from_u32(code).unwrap()
            }
            other => panic!("\\ before {other:?}"),
        }
    }

    fn word(&mut self) -> Json {
        let rest = self.0.as_str();
        let end = rest.find([',', ']', '}', ' ', '\n']).unwrap_or(rest.len());
        let (word, rest) = rest.split_at(end);
        self.0 = rest.chars();
        match word {
            "null" => Json::Null,
            "true" => Json::Flag(true),
            "false" => Json::Flag(false),
            number => {
                let digits = number.trim_start_matches('-');
                let zero = digits.starts_with('0') && !digits.starts_with("0.");
                assert!(!zero || digits == "0", "a number that begins with 0");
                Json::Number(number.parse().unwrap())
            }
        }
    }
}
