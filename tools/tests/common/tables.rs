//! Small readers of CSV and JSON, for tests of what is written.

/// The fields of each line: RFC 4180 with LF.
pub fn csv_rows(text: &str) -> Vec<Vec<String>> {
    let mut rows = vec![vec![String::new()]];
    let mut in_quotes = false;
    let mut letters = text.chars().peekable();
    while let Some(letter) = letters.next() {
        match letter {
            '"' if in_quotes && letters.peek() == Some(&'"') => {
                letters.next();
                push(&mut rows, '"');
            }
            '"' => in_quotes = !in_quotes,
            ',' if !in_quotes => rows.last_mut().unwrap().push(String::new()),
            '\n' if !in_quotes => rows.push(vec![String::new()]),
            _ => push(&mut rows, letter),
        }
    }
    assert!(!in_quotes, "a quote is left open");
    assert_eq!(rows.pop().unwrap(), [""], "the last line is not closed");
    rows
}

fn push(rows: &mut [Vec<String>], letter: char) {
    rows.last_mut().unwrap().last_mut().unwrap().push(letter);
}

#[derive(Clone, Debug, PartialEq)]
pub enum Json {
    Null,
    Number(u64),
    Text(String),
    List(Vec<Json>),
    Object(Vec<(String, Json)>),
}

impl Json {
    pub fn field(&self, key: &str) -> &Json {
        let Json::Object(fields) = self else { panic!("no object: {self:?}") };
        let found: Vec<_> = fields.iter().filter(|field| field.0 == key).collect();
        assert_eq!(found.len(), 1, "{key}");
        &found[0].1
    }

    pub fn list(&self) -> &[Json] {
        let Json::List(values) = self else { panic!("no list: {self:?}") };
        values
    }

    pub fn text(&self) -> &str {
        let Json::Text(text) = self else { panic!("no text: {self:?}") };
        text
    }

    /// As the CSV writes a number: null is empty.
    pub fn shown(&self) -> String {
        match self {
            Json::Null => String::new(),
            Json::Number(value) => value.to_string(),
            other => panic!("no number: {other:?}"),
        }
    }
}

/// The value that the text is; panics if it is none, or if something follows it.
pub fn json(text: &str) -> Json {
    let mut reader = Reader { rest: text };
    let value = reader.value();
    assert_eq!(reader.rest.trim(), "");
    value
}

struct Reader<'a> {
    rest: &'a str,
}

impl Reader<'_> {
    fn take(&mut self, start: &str) -> bool {
        let rest = self.rest.trim_start();
        match rest.strip_prefix(start) {
            Some(left) => self.rest = left,
            None => self.rest = rest,
        }
        rest.starts_with(start)
    }

    fn value(&mut self) -> Json {
        if self.take("null") {
            Json::Null
        } else if self.take("\"") {
            Json::Text(self.text())
        } else if self.take("[") {
            Json::List(self.items("]", Reader::value))
        } else if self.take("{") {
            Json::Object(self.items("}", Reader::named))
        } else {
            let digits =
                self.rest.len() - self.rest.trim_start_matches(|c: char| c.is_ascii_digit()).len();
            let (number, rest) = self.rest.split_at(digits);
            self.rest = rest;
            Json::Number(number.parse().unwrap())
        }
    }

    fn items<T>(&mut self, end: &str, item: impl Fn(&mut Self) -> T) -> Vec<T> {
        let mut items = Vec::new();
        while !self.take(end) {
            assert!(items.is_empty() || self.take(","), "no comma before {:.20}", self.rest);
            items.push(item(self));
        }
        items
    }

    fn named(&mut self) -> (String, Json) {
        assert!(self.take("\""));
        let key = self.text();
        assert!(self.take(":"));
        (key, self.value())
    }

    /// The rest of a text whose quote is taken.
    fn text(&mut self) -> String {
        let mut text = String::new();
        let mut letters = self.rest.chars();
        loop {
            match letters.next().unwrap() {
                '"' => break,
                '\\' => match letters.next().unwrap() {
                    'n' => text.push('\n'),
                    'u' => {
                        let digits: String = letters.by_ref().take(4).collect();
                        let code = u32::from_str_radix(&digits, 16).unwrap();
                        text.push(char::from_u32(code).unwrap());
                    }
                    letter @ ('"' | '\\') => text.push(letter),
                    letter => panic!("\\{letter}"),
                },
                letter => {
                    assert!(letter >= ' ', "a bare control character");
                    text.push(letter);
                }
            }
        }
        self.rest = letters.as_str();
        text
    }
}
