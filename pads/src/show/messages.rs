//! What is said of an input: errors, warnings and notes, all of a file at once, on standard error.

use std::io::Write;

/// Errors told; the rest is counted.
const MOST_TOLD: usize = 50;
/// Bytes shown of a bad line.
const MOST_SHOWN: usize = 120;

/// One thing that was said.
#[derive(Clone, Debug, PartialEq, Eq)]
pub struct Said {
    /// `error`, `warning` or `note`.
    pub kind: &'static str,
    /// The file of an error.
    pub file: String,
    /// Its line in that file, 0 where it is of the whole.
    pub line: usize,
    pub words: String,
    /// The text of that line, cut.
    pub shown: String,
}

impl Said {
    fn text(&self) -> String {
        let Said { kind, file, line, words, shown } = self;
        let mut text = match (file.as_str(), line) {
            ("", _) => format!("{kind}: {words}"),
            (_, 0) => format!("{file}: {kind}: {words}"),
            _ => format!("{file}:{line}: {kind}: {words}"),
        };
        if !shown.is_empty() {
            text.push_str("\n    ");
            text.push_str(shown);
        }
        printable(&text)
    }
}

#[derive(Default)]
pub struct Messages {
    told: Vec<Said>,
    /// How many of them are printed.
    printed: usize,
    errors: usize,
    others: usize,
}

impl Messages {
    pub fn new() -> Self {
        Self::default()
    }

    pub fn errors(&self) -> usize {
        self.errors
    }

    /// Whether another error would be told, and not only counted.
    pub fn shows_more(&self) -> bool {
        self.errors < MOST_TOLD
    }

    /// So many errors that there is no point in looking for more.
    pub fn full(&self) -> bool {
        self.errors >= 10 * MOST_TOLD
    }

    /// `FILE: error: words`.
    pub fn error(&mut self, file: &str, words: impl AsRef<str>) {
        self.error_at(file, 0, "", words);
    }

    /// `FILE:LINE: error: words`, then the text of that line.
    pub fn error_at(&mut self, file: &str, line: usize, text: &str, words: impl AsRef<str>) {
        self.errors += 1;
        if self.errors <= MOST_TOLD {
            let words = words.as_ref().to_string();
            self.told.push(Said { kind: "error", file: file.to_string(), line, words, shown: shown(text) });
        }
    }

    pub fn warn(&mut self, words: impl AsRef<str>) {
        self.other("warning", words.as_ref());
    }

    pub fn note(&mut self, words: impl AsRef<str>) {
        self.other("note", words.as_ref());
    }

    fn other(&mut self, kind: &'static str, words: &str) {
        self.others += 1;
        if self.others <= MOST_TOLD {
            let (file, shown) = (String::new(), String::new());
            self.told.push(Said { kind, file, line: 0, words: words.to_string(), shown });
        }
    }

    /// What was said, printed or not.
    pub fn said(&self) -> &[Said] {
        &self.told
    }

    /// What was said and is not printed yet, as it is printed.
    pub fn text(&self) -> String {
        let mut text = String::new();
        for said in &self.told[self.printed..] {
            text.push_str(&said.text());
            text.push('\n');
        }
        if self.errors > MOST_TOLD {
            text.push_str(&format!("and {} more errors\n", self.errors - MOST_TOLD));
        }
        if self.others > MOST_TOLD {
            text.push_str(&format!("and {} more warnings and notes\n", self.others - MOST_TOLD));
        }
        text
    }

    /// Prints what was said, each once.
    pub fn print(&mut self) {
        let _ = std::io::stderr().write_all(self.text().as_bytes());
        self.printed = self.told.len();
        self.others = 0;
    }
}

/// The text of a line, cut.
fn shown(text: &str) -> String {
    let text = text.trim();
    if text.len() <= MOST_SHOWN {
        return text.to_string();
    }
    let mut end = MOST_SHOWN;
    while !text.is_char_boundary(end) {
        end -= 1;
    }
    format!("{}…", &text[..end])
}

/// Whether a character acts on a terminal or a page and is not seen: control characters, marks of direction, what has no
/// width.
pub fn is_hidden(c: char) -> bool {
    let marks = matches!(c, '\u{61c}' | '\u{200b}'..='\u{200f}' | '\u{2028}'..='\u{202e}' | '\u{2060}'..='\u{206f}');
    let unseen = matches!(c, '\u{ad}' | '\u{34f}' | '\u{180e}' | '\u{feff}' | '\u{fff9}'..='\u{fffb}');
    c.is_control() || marks || unseen || ('\u{e0000}'..='\u{e007f}').contains(&c)
}

/// A text as it reaches a terminal: hidden characters other than line ends are written out, as `\u{1b}`.
pub fn printable(text: &str) -> String {
    shown_but(text, "\n")
}

/// A name as it reaches a terminal or the page, on one line. A model's names are all of this form.
pub fn shown_name(name: &str) -> String {
    shown_but(name, "")
}

fn shown_but(text: &str, kept: &str) -> String {
    let mut out = String::with_capacity(text.len());
    for c in text.chars() {
        if is_hidden(c) && !kept.contains(c) {
            out.extend(c.escape_unicode());
        } else {
            out.push(c);
        }
    }
    out
}

#[cfg(test)]
mod tests {
    use super::*;

    #[test]
    fn at_most_fifty_are_told() {
        let mut messages = Messages::new();
        for line in 1..=60 {
            messages.error_at("a.blif", line, "  text ", "words");
        }
        let text = messages.text();
        assert!(text.starts_with("a.blif:1: error: words\n    text\n"));
        assert!(text.ends_with("and 10 more errors\n"));
        assert_eq!(text.lines().count(), 101);
    }

    #[test]
    fn long_lines_are_cut_and_control_bytes_hidden() {
        let mut messages = Messages::new();
        messages.error_at("a", 1, &"ä".repeat(200), "w\u{1b}[1m");
        let text = messages.text();
        assert!(text.lines().nth(1).unwrap().chars().count() < 80);
        assert!(!text.contains('\u{1b}') && text.contains("w\\u{1b}[1m"));
    }

    #[test]
    fn nothing_hidden_is_left() {
        let hostile = "a\u{1b}[2J\u{9b}1m\r\u{7}\u{202e}b\u{2066}\u{200e}\u{200f}\u{61c}\u{200b}\u{feff}\u{2028}\n";
        assert!(printable(hostile).chars().all(|c| c == '\n' || !is_hidden(c)));
        assert!(!shown_name(hostile).chars().any(is_hidden));
        assert_eq!(shown_name("\u{202e}"), "\\u{202e}");
        // What is shown already stays, and other scripts do.
        assert_eq!(printable(&printable(hostile)), printable(hostile));
        assert_eq!(shown_name("größe_ω[3]"), "größe_ω[3]");
    }
}
