//! JSON as `--json` prints it, by one small writer. The reader is `read/json.rs`.

use crate::show::cost::Cost;
use crate::show::messages::is_hidden;
use std::fmt::Write;

#[derive(Clone, Debug, PartialEq, Eq)]
pub enum Json {
    Null,
    Bool(bool),
    Number(u64),
    Text(String),
    List(Vec<Json>),
    Object(Vec<(&'static str, Json)>),
}

impl From<&str> for Json {
    fn from(text: &str) -> Json {
        Json::Text(text.to_string())
    }
}

impl From<String> for Json {
    fn from(text: String) -> Json {
        Json::Text(text)
    }
}

impl From<usize> for Json {
    fn from(number: usize) -> Json {
        Json::Number(number as u64)
    }
}

impl From<u64> for Json {
    fn from(number: u64) -> Json {
        Json::Number(number)
    }
}

impl From<bool> for Json {
    fn from(is: bool) -> Json {
        Json::Bool(is)
    }
}

/// A figure is a number, the other two are their words.
impl From<Cost> for Json {
    fn from(cost: Cost) -> Json {
        match cost {
            Cost::Figure(figure) => Json::Number(u64::from(figure)),
            other => Json::Text(other.plain()),
        }
    }
}

impl<T: Into<Json>> From<Option<T>> for Json {
    fn from(of: Option<T>) -> Json {
        of.map_or(Json::Null, Into::into)
    }
}

impl<T: Into<Json>> From<Vec<T>> for Json {
    fn from(items: Vec<T>) -> Json {
        Json::List(items.into_iter().map(Into::into).collect())
    }
}

/// Lists and objects that stand this deep have each part on a line of its own.
const OPEN_DEPTH: usize = 1;

impl Json {
    /// As it is printed, with the last line's end.
    pub fn text(&self) -> String {
        let mut out = String::new();
        self.put(&mut out, 0);
        out.push('\n');
        out
    }

    fn put(&self, out: &mut String, depth: usize) {
        match self {
            Json::Null => out.push_str("null"),
            Json::Bool(is) => out.push_str(if *is { "true" } else { "false" }),
            Json::Number(number) => out.push_str(&number.to_string()),
            Json::Text(text) => put_string(out, text),
            Json::List(items) => put_all(out, depth, ['[', ']'], items, |out, item| item.put(out, depth + 1)),
            Json::Object(members) => put_all(out, depth, ['{', '}'], members, |out, (name, value)| {
                put_string(out, name);
                out.push_str(": ");
                value.put(out, depth + 1);
            }),
        }
    }
}

fn put_all<T>(out: &mut String, depth: usize, brackets: [char; 2], parts: &[T], put: impl Fn(&mut String, &T)) {
    let open = depth <= OPEN_DEPTH && !parts.is_empty();
    let line_end = |out: &mut String, depth: usize| {
        out.push('\n');
        out.push_str(&" ".repeat(2 * depth));
    };
    out.push(brackets[0]);
    for (at, part) in parts.iter().enumerate() {
        if at > 0 {
            out.push_str(if open { "," } else { ", " });
        }
        if open {
            line_end(out, depth + 1);
        }
        put(out, part);
    }
    if open {
        line_end(out, depth);
    }
    out.push(brackets[1]);
}

/// A string with its quotes: what acts on a terminal or is not seen is written out.
pub fn put_string(out: &mut String, text: &str) {
    out.push('"');
    for c in text.chars() {
        match c {
            '"' => out.push_str("\\\""),
            '\\' => out.push_str("\\\\"),
            '\n' => out.push_str("\\n"),
            c if is_hidden(c) => {
                for unit in c.encode_utf16(&mut [0; 2]) {
                    let _ = write!(out, "\\u{unit:04x}");
                }
            }
            c => out.push(c),
        }
    }
    out.push('"');
}

#[cfg(test)]
mod tests {
    use super::*;
    use crate::read::json;

    #[test]
    fn strings_there_and_back() {
        for text in
            ["", "a\"b\\c", "\u{1b}[2J\r\n\t\u{202e}\u{2066}\u{200b}\u{feff}\u{7f}\u{9b}", "größe ω …", "\u{e0041}x"]
        {
            let mut out = String::new();
            put_string(&mut out, text);
            assert!(!out.chars().any(is_hidden), "{out}");
            assert_eq!(json::parse(&out).unwrap().text(), Some(text), "{out}");
        }
    }

    #[test]
    fn values() {
        let value = Json::Object(vec![
            ("a", Json::Null),
            ("b", vec![Cost::Never, Cost::Over, Cost::Figure(7)].into()),
            ("c", Json::List(Vec::new())),
            ("d", vec![Json::Object(vec![("e", true.into()), ("f", vec![1usize, 2].into())])].into()),
        ]);
        let text = value.text();
        assert_eq!(
            text,
            "{\n  \"a\": null,\n  \"b\": [\n    \"never\",\n    \"over\",\n    7\n  ],\n  \"c\": [],\n  \"d\": [\n    {\"e\": true, \"f\": [1, 2]}\n  ]\n}\n"
        );
        assert!(json::parse(&text).is_ok());
    }
}
