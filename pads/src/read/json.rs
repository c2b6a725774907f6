//! JSON, read into a tree with a bounded count of values.

use crate::ask::archive::{lines_told, MOST_LINES};
use crate::show::cost::grouped;
use std::borrow::Cow;

#[derive(Clone, Debug, PartialEq)]
pub enum Value<'a> {
    Null,
    Bool(bool),
    /// As it is written.
    Number(&'a str),
    Text(Cow<'a, str>),
    List(Vec<Value<'a>>),
    /// In the file's order.
    Object(Vec<(Cow<'a, str>, Value<'a>)>),
}

/// Far above what a netlist of as many lines as the analyser takes has.
const MOST_VALUES: usize = 500 * MOST_LINES;
const MOST_DEPTH: usize = 64;

/// The byte where it went wrong, and why.
pub type Wrong = (usize, String);

impl<'a> Value<'a> {
    pub fn get(&self, key: &str) -> Option<&Value<'a>> {
        self.members().iter().find(|(name, _)| name == key).map(|(_, value)| value)
    }

    pub fn members(&self) -> &[(Cow<'a, str>, Value<'a>)] {
        match self {
            Value::Object(members) => members,
            _ => &[],
        }
    }

    pub fn items(&self) -> &[Value<'a>] {
        match self {
            Value::List(items) => items,
            _ => &[],
        }
    }

    pub fn text(&self) -> Option<&str> {
        match self {
            Value::Text(text) => Some(text),
            _ => None,
        }
    }

    /// A whole number, also where Yosys writes it as a string of bits.
    pub fn whole(&self) -> Option<i64> {
        match self {
            Value::Number(digits) => digits.parse().ok(),
            Value::Text(bits) if !bits.is_empty() && bits.bytes().all(|b| b == b'0' || b == b'1') => {
                i64::from_str_radix(bits.trim_start_matches('0'), 2).ok().or(Some(0))
            }
            _ => None,
        }
    }

    pub fn is_true(&self) -> bool {
        match self {
            Value::Bool(value) => *value,
            other => other.whole().is_some_and(|whole| whole != 0),
        }
    }
}

pub fn parse(text: &str) -> Result<Value<'_>, Wrong> {
    parse_more(text, &mut 0)
}

/// The same, where so many values were kept before.
pub fn parse_more<'a>(text: &'a str, values: &mut usize) -> Result<Value<'a>, Wrong> {
    let mut reader = Reader { text, at: 0, values: *values, keep: true };
    let value = reader.value(0)?;
    reader.end()?;
    *values = reader.values;
    Ok(value)
}

pub struct Reader<'a> {
    text: &'a str,
    at: usize,
    values: usize,
    /// Lists and objects are kept, not only gone over.
    keep: bool,
}

/// A text that is gone over, whatever its length.
impl<'a> Reader<'a> {
    pub fn over(text: &'a str) -> Reader<'a> {
        Reader { text, at: 0, values: 0, keep: false }
    }

    pub fn at(&self) -> usize {
        self.at
    }

    pub fn end(&mut self) -> Result<(), Wrong> {
        self.blanks();
        if self.at < self.text.len() {
            return Err(self.wrong("something stands behind the end"));
        }
        Ok(())
    }

    /// Hands on the name of each member of an object, whose value must be gone over; another value is passed over, and
    /// the answer is false.
    pub fn each(
        &mut self,
        depth: usize,
        take: &mut dyn FnMut(&mut Self, Cow<'a, str>) -> Result<(), Wrong>,
    ) -> Result<bool, Wrong> {
        self.blanks();
        if self.peek() != Some(b'{') {
            return self.value(depth).map(|_| false);
        }
        self.members(depth, take).map(|()| true)
    }

    /// How many values a list has.
    pub fn count(&mut self, depth: usize) -> Result<u64, Wrong> {
        self.blanks();
        if self.peek() != Some(b'[') {
            return self.value(depth).map(|_| 0);
        }
        let mut count = 0;
        self.items(&mut |reader| {
            count += 1;
            reader.value(depth + 1).map(drop)
        })?;
        Ok(count)
    }
}

impl<'a> Reader<'a> {
    fn wrong(&self, words: &str) -> Wrong {
        (self.at, words.to_string())
    }

    fn peek(&self) -> Option<u8> {
        self.text.as_bytes().get(self.at).copied()
    }

    fn blanks(&mut self) {
        while self.peek().is_some_and(|b| b.is_ascii_whitespace()) {
            self.at += 1;
        }
    }

    /// Passes over blanks and the byte, if it stands here.
    fn takes(&mut self, byte: u8) -> bool {
        self.blanks();
        let here = self.peek() == Some(byte);
        self.at += usize::from(here);
        here
    }

    /// The value that stands here; a list or an object is empty where it is only gone over.
    pub fn value(&mut self, depth: usize) -> Result<Value<'a>, Wrong> {
        self.values += usize::from(self.keep);
        if self.values > MOST_VALUES {
            let most = grouped(MOST_VALUES as u64);
            return Err(self.wrong(&format!("more than {most} values, which is far above what {} take", lines_told())));
        }
        if depth > MOST_DEPTH {
            return Err(self.wrong("more than 64 brackets within each other"));
        }
        self.blanks();
        match self.peek() {
            Some(b'{') => self.object(depth),
            Some(b'[') => self.list(depth),
            Some(b'"') => Ok(Value::Text(self.string()?)),
            Some(b'-' | b'0'..=b'9') => {
                let start = self.at;
                while self.peek().is_some_and(|b| b.is_ascii_alphanumeric() || b"+-.".contains(&b)) {
                    self.at += 1;
                }
                Ok(Value::Number(&self.text[start..self.at]))
            }
            Some(_) => {
                for (word, value) in [("true", Value::Bool(true)), ("false", Value::Bool(false)), ("null", Value::Null)]
                {
                    if self.text[self.at..].starts_with(word) {
                        self.at += word.len();
                        return Ok(value);
                    }
                }
                Err(self.wrong("no JSON value begins so"))
            }
            None => Err(self.wrong("the file ends inside a value")),
        }
    }

    fn object(&mut self, depth: usize) -> Result<Value<'a>, Wrong> {
        let mut members = Vec::new();
        self.members(depth, &mut |reader, name| {
            let value = reader.value(depth + 1)?;
            if reader.keep {
                members.push((name, value));
            }
            Ok(())
        })?;
        members.shrink_to_fit();
        Ok(Value::Object(members))
    }

    fn members(
        &mut self,
        depth: usize,
        take: &mut dyn FnMut(&mut Self, Cow<'a, str>) -> Result<(), Wrong>,
    ) -> Result<(), Wrong> {
        if depth > MOST_DEPTH {
            return Err(self.wrong("more than 64 brackets within each other"));
        }
        self.at += 1;
        if self.takes(b'}') {
            return Ok(());
        }
        loop {
            self.blanks();
            if self.peek() != Some(b'"') {
                return Err(self.wrong("a name in quotes is missing"));
            }
            let name = self.string()?;
            if !self.takes(b':') {
                return Err(self.wrong("a ':' is missing"));
            }
            take(self, name)?;
            if self.takes(b'}') {
                return Ok(());
            }
            if !self.takes(b',') {
                return Err(self.wrong("a ',' or '}' is missing"));
            }
        }
    }

    fn list(&mut self, depth: usize) -> Result<Value<'a>, Wrong> {
        let mut items = Vec::new();
        self.items(&mut |reader| {
            let value = reader.value(depth + 1)?;
            if reader.keep {
                items.push(value);
            }
            Ok(())
        })?;
        items.shrink_to_fit();
        Ok(Value::List(items))
    }

    fn items(&mut self, take: &mut dyn FnMut(&mut Self) -> Result<(), Wrong>) -> Result<(), Wrong> {
        self.at += 1;
        if self.takes(b']') {
            return Ok(());
        }
        loop {
            take(self)?;
            if self.takes(b']') {
                return Ok(());
            }
            if !self.takes(b',') {
                return Err(self.wrong("a ',' or ']' is missing"));
            }
        }
    }

    fn string(&mut self) -> Result<Cow<'a, str>, Wrong> {
        self.at += 1;
        let start = self.at;
        let mut owned: Option<String> = None;
        loop {
            match self.peek() {
                None | Some(b'\n') => return Err(self.wrong("a string without its end")),
                Some(b'"') => {
                    let rest = &self.text[start..self.at];
                    self.at += 1;
                    return Ok(match owned {
                        Some(text) => Cow::Owned(text),
                        None => Cow::Borrowed(rest),
                    });
                }
                Some(b'\\') => {
                    let text = owned.get_or_insert_with(|| self.text[start..self.at].to_string());
                    let escape = self.text.as_bytes().get(self.at + 1).copied();
                    self.at += 2;
                    match escape {
                        Some(b'n') => text.push('\n'),
                        Some(b't') => text.push('\t'),
                        Some(b'r') => text.push('\r'),
                        Some(b'b' | b'f') => text.push(' '),
                        Some(b @ (b'"' | b'\\' | b'/')) => text.push(char::from(b)),
                        Some(b'u') => {
                            let unit = |from: usize| {
                                self.text.get(from..from + 4).and_then(|hex| u16::from_str_radix(hex, 16).ok())
                            };
                            let Some(first) = unit(self.at) else {
                                self.at -= 2;
                                return Err(self.wrong("a bad escape in a string"));
                            };
                            // A character above U+FFFF is two of them.
                            let behind = self.text.get(self.at + 4..self.at + 6) == Some("\\u");
                            let second = if behind { unit(self.at + 6) } else { None };
                            let pair = second.and_then(|second| char::decode_utf16([first, second]).next()?.ok());
                            match pair.filter(|c| c.len_utf16() == 2) {
                                Some(c) => {
                                    text.push(c);
                                    self.at += 10;
                                }
                                None => {
                                    text.push(char::from_u32(u32::from(first)).unwrap_or('\u{fffd}'));
                                    self.at += 4;
                                }
                            }
                        }
                        _ => {
                            self.at -= 2;
                            return Err(self.wrong("a bad escape in a string"));
                        }
                    }
                }
                Some(_) => {
                    let rest = &self.text[self.at..];
                    let c = rest.chars().next().expect("a character");
                    if let Some(text) = owned.as_mut() {
                        text.push(c);
                    }
                    self.at += c.len_utf8();
                }
            }
        }
    }
}

#[cfg(test)]
mod tests {
    use super::*;

    #[test]
    fn values() {
        let value = parse(" {\"a\\u0041\\n\": [1, \"0101\", true, null, -2.5e3], \"ä\": {}} ").unwrap();
        let list = value.get("aA\n").unwrap().items();
        assert_eq!(list[0].whole(), Some(1));
        assert_eq!(list[1].whole(), Some(5));
        assert!(list[2].is_true());
        assert_eq!(list[4], Value::Number("-2.5e3"));
        assert!(value.get("ä").unwrap().members().is_empty());
        assert_eq!(parse("\"000\"").unwrap().whole(), Some(0));
    }

    #[test]
    fn bad_texts() {
        for text in ["", "{", "[1,", "{\"a\"}", "\"\\q\"", "\"\\u12", "[1] 2", "nul", "\"a\nb\"", "{1:2}"] {
            assert!(parse(text).is_err(), "{text}");
        }
        let deep = "[".repeat(10_000);
        assert!(parse(&deep).unwrap_err().1.contains("64"));
    }
}
