//! A reader of JSON, as far as the vectors use it: no fractions, no escapes in texts.

use std::iter::Peekable;
use std::str::Chars;

#[derive(Clone, Debug, PartialEq)]
pub enum Json {
    Null,
    Bool(bool),
    Number(i64),
    Text(String),
    List(Vec<Json>),
    Object(Vec<(String, Json)>),
}

/// Deeper lists are refused, so that no input can exhaust the stack.
const DEPTH: usize = 32;

pub fn parse(text: &str) -> Result<Json, String> {
    let mut reader = Reader { rest: text.chars().peekable() };
    let value = reader.value(DEPTH)?;
    reader.spaces();
    match reader.rest.next() {
        None => Ok(value),
        Some(c) => Err(format!("`{c}` behind the end of the value")),
    }
}

impl Json {
    pub fn field(&self, name: &str) -> Result<&Json, String> {
        match self {
            Json::Object(fields) => {
                fields.iter().find(|(key, _)| key == name).map(|(_, value)| value).ok_or_else(|| format!("no field `{name}`"))
            }
            _ => Err(format!("no object with a field `{name}`")),
        }
    }

    pub fn text(&self) -> Result<&str, String> {
        match self {
            Json::Text(text) => Ok(text),
            other => Err(format!("{other:?} is no text")),
        }
    }

    pub fn list(&self) -> Result<&[Json], String> {
        match self {
            Json::List(items) => Ok(items),
            other => Err(format!("{other:?} is no list")),
        }
    }

    pub fn number(&self) -> Result<i64, String> {
        match self {
            Json::Number(number) => Ok(*number),
            Json::Bool(value) => Ok(i64::from(*value)),
            other => Err(format!("{other:?} is no number")),
        }
    }
}

struct Reader<'a> {
    rest: Peekable<Chars<'a>>,
}

impl Reader<'_> {
    fn spaces(&mut self) {
        while self.rest.next_if(|c| c.is_ascii_whitespace()).is_some() {}
    }

    fn expect(&mut self, wanted: char) -> Result<(), String> {
        self.spaces();
        match self.rest.next() {
            Some(c) if c == wanted => Ok(()),
            Some(c) => Err(format!("`{c}` where `{wanted}` should stand")),
            None => Err(format!("cut off where `{wanted}` should stand")),
        }
    }

    /// Whether `wanted` stands next; it is then read.
    fn skip(&mut self, wanted: char) -> bool {
        self.spaces();
        self.rest.next_if_eq(&wanted).is_some()
    }

    fn value(&mut self, depth: usize) -> Result<Json, String> {
        if depth == 0 {
            return Err("lists lie too deep in each other".to_string());
        }
        self.spaces();
        match self.rest.peek() {
            None => Err("cut off where a value should stand".to_string()),
            Some('"') => self.string().map(Json::Text),
            Some('[') => self.items(depth),
            Some('{') => self.fields(depth),
            Some(_) => self.word(),
        }
    }

    fn string(&mut self) -> Result<String, String> {
        self.expect('"')?;
        let mut text = String::new();
        loop {
            match self.rest.next() {
                None => return Err("cut off within a text".to_string()),
                Some('"') => return Ok(text),
                Some('\\') => return Err("an escape in a text".to_string()),
                Some(c) => text.push(c),
            }
        }
    }

    fn items(&mut self, depth: usize) -> Result<Json, String> {
        self.expect('[')?;
        let mut items = Vec::new();
        if self.skip(']') {
            return Ok(Json::List(items));
        }
        loop {
            items.push(self.value(depth - 1)?);
            if self.skip(']') {
                return Ok(Json::List(items));
            }
            self.expect(',')?;
        }
    }

    fn fields(&mut self, depth: usize) -> Result<Json, String> {
        self.expect('{')?;
        let mut fields = Vec::new();
        if self.skip('}') {
            return Ok(Json::Object(fields));
        }
        loop {
            let name = self.string()?;
            self.expect(':')?;
            fields.push((name, self.value(depth - 1)?));
            if self.skip('}') {
                return Ok(Json::Object(fields));
            }
            self.expect(',')?;
        }
    }

    fn word(&mut self) -> Result<Json, String> {
        let mut word = String::new();
        while let Some(c) = self.rest.next_if(|c| c.is_ascii_alphanumeric() || "+-.".contains(*c)) {
            word.push(c);
        }
        match word.as_str() {
            "null" => Ok(Json::Null),
            "true" => Ok(Json::Bool(true)),
            "false" => Ok(Json::Bool(false)),
            number => number.parse().map(Json::Number).map_err(|_| format!("`{number}` is no number")),
        }
    }
}
