//! The words of one line, read one after the other. Every problem is told and none panics.

use std::str::SplitAsciiWhitespace;

pub struct Words<'a> {
    rest: SplitAsciiWhitespace<'a>,
    read: usize,
}

impl<'a> Words<'a> {
    pub fn new(line: &'a str) -> Words<'a> {
        Words { rest: line.split_ascii_whitespace(), read: 0 }
    }

    pub fn word(&mut self, what: &str) -> Result<&'a str, String> {
        self.read += 1;
        self.rest.next().ok_or_else(|| format!("the case is cut off: word {} should be {what}", self.read))
    }

    /// No word may be left over.
    pub fn end(&mut self) -> Result<(), String> {
        self.read += 1;
        match self.rest.next() {
            None => Ok(()),
            Some(word) => Err(format!("word {} `{word}` is one too many", self.read)),
        }
    }

    fn whole(&mut self, what: &str, most: u64) -> Result<u64, String> {
        let word = self.word(what)?;
        whole(word, most).ok_or_else(|| format!("word {}, {what}: `{word}` is no whole number from 0 to {most}", self.read))
    }

    pub fn number(&mut self, what: &str) -> Result<u32, String> {
        self.whole(what, u32::MAX.into()).map(|n| n as u32)
    }

    /// A search limit, or `none` where none is stated.
    pub fn limit(&mut self) -> Result<Option<u32>, String> {
        let most = u32::MAX.into();
        match self.word("the limit")? {
            "none" => Ok(None),
            word => match whole(word, most) {
                Some(limit) => Ok(Some(limit as u32)),
                None => Err(format!("word {}, the limit: `{word}` is neither `none` nor a whole number from 0 to {most}", self.read)),
            },
        }
    }

    fn place(&mut self, what: &str) -> Result<u16, String> {
        self.whole(what, u16::MAX.into()).map(|n| n as u16)
    }

    pub fn sign(&mut self) -> Result<i32, String> {
        match self.word("a sign")? {
            "+1" | "1" => Ok(1),
            "-1" => Ok(-1),
            word => Err(format!("word {}: `{word}` is no sign, +1 or -1", self.read)),
        }
    }

    pub fn float(&mut self, what: &str) -> Result<f64, String> {
        let word = self.word(what)?;
        bits(word).ok_or_else(|| format!("word {}, {what}: `{word}` is not the 16 hexadecimal digits of an f64", self.read))
    }

    fn list<T>(&mut self, what: &str, read: impl Fn(&mut Self, &str) -> Result<T, String>) -> Result<Vec<T>, String> {
        let length = self.whole(&format!("the number of {what}"), u32::MAX.into())?;
        (0..length).map(|index| read(self, &format!("number {index} of {length} {what}"))).collect()
    }

    pub fn places(&mut self, what: &str) -> Result<Vec<u16>, String> {
        self.list(what, Words::place)
    }

    pub fn numbers(&mut self, what: &str) -> Result<Vec<u32>, String> {
        self.list(what, Words::number)
    }

    pub fn floats(&mut self, what: &str) -> Result<Vec<f64>, String> {
        self.list(what, Words::float)
    }
}

/// The whole number of decimal digits, if it is not above `most`.
fn whole(word: &str, most: u64) -> Option<u64> {
    let digits = word.bytes().all(|b| b.is_ascii_digit());
    word.parse().ok().filter(|&number| digits && number <= most)
}

/// The f64 of 16 hexadecimal digits.
pub fn bits(word: &str) -> Option<f64> {
    let digits = word.len() == 16 && word.bytes().all(|b| b.is_ascii_hexdigit());
    if !digits {
        return None;
    }
    u64::from_str_radix(word, 16).ok().map(f64::from_bits)
}

/// The digits of an f64. Which NaN an operation gives is left open by IEEE 754, so it has no digits.
pub fn hex(x: f64) -> String {
    if x.is_nan() {
        return "nan".to_string();
    }
    format!("{:016x}", x.to_bits())
}
