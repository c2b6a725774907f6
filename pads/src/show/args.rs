//! The command line.

use crate::read::load::Source;
use crate::show::text::Stop;

/// What a command takes besides its source's options.
pub struct Takes {
    /// Options with a value, and without.
    pub values: &'static [&'static str],
    pub flags: &'static [&'static str],
    /// The fewest and the most words besides the source.
    pub words: (usize, usize),
}

/// Options of every source.
const SOURCE_VALUES: [&str; 6] = ["-l", "--top", "--clock", "--format", "--box", "--price"];
const SOURCE_FLAGS: [&str; 2] = ["--open", "--json"];

#[derive(Debug, Default)]
pub struct Args {
    pub source: Source,
    /// The words behind the source.
    pub words: Vec<String>,
    options: Vec<(String, String)>,
}

impl Args {
    pub fn parse(given: &[String], takes: &Takes) -> Result<Args, Stop> {
        let mut args = Args::default();
        let mut words: Vec<String> = Vec::new();
        let mut only_words = false;
        let mut at = 0;
        while at < given.len() {
            let word = given[at].as_str();
            at += 1;
            if only_words || !word.starts_with('-') || word == "-" {
                words.push(word.to_string());
                continue;
            }
            if word == "--" {
                only_words = true;
                continue;
            }
            let (name, own) = match word.split_once('=') {
                Some((name, value)) if name.starts_with("--") => (name, Some(value.to_string())),
                _ => (word, None),
            };
            if SOURCE_FLAGS.contains(&name) || takes.flags.contains(&name) {
                args.take(name, String::new());
            } else if SOURCE_VALUES.contains(&name) || takes.values.contains(&name) {
                let value = own.or_else(|| {
                    at += 1;
                    given.get(at - 1).cloned()
                });
                let value = value.ok_or_else(|| Stop::Usage(format!("{name} wants a value")))?;
                args.take(name, value);
            } else {
                return Err(Stop::Usage(format!("there is no option {name} here")));
            }
        }
        if words.is_empty() {
            return Err(Stop::Usage("a SOURCE is missing: a netlist or a folder".to_string()));
        }
        args.source.path = words.remove(0);
        let (fewest, most) = takes.words;
        if words.len() < fewest {
            return Err(Stop::Usage("a NET is missing".to_string()));
        }
        if words.len() > most {
            return Err(Stop::Usage(format!("'{}' is one word too many", words[most])));
        }
        args.words = words;
        Ok(args)
    }

    fn take(&mut self, name: &str, value: String) {
        match name {
            "-l" => self.source.libraries.push(value),
            "--top" => self.source.top = Some(value),
            "--clock" => self.source.clock = Some(value),
            "--format" => self.source.format = Some(value.trim_start_matches('.').to_ascii_lowercase()),
            "--open" => self.source.open = true,
            "--box" => self.source.boxes.push(value),
            "--price" => self.source.price = Some(value),
            _ => self.options.push((name.to_string(), value)),
        }
    }

    pub fn has(&self, name: &str) -> bool {
        self.options.iter().any(|(other, _)| other == name)
    }

    pub fn value(&self, name: &str) -> Option<&str> {
        self.options.iter().rev().find(|(other, _)| other == name).map(|(_, value)| value.as_str())
    }

    pub fn values(&self, name: &str) -> Vec<&str> {
        self.options.iter().filter(|(other, _)| other == name).map(|(_, value)| value.as_str()).collect()
    }

    /// A whole number; digits may be grouped by commas.
    pub fn number(&self, name: &str, otherwise: usize) -> Result<usize, Stop> {
        match self.value(name) {
            None => Ok(otherwise),
            Some(text) => text
                .replace(',', "")
                .parse()
                .map_err(|_| Stop::Usage(format!("{name} wants a whole number, not '{text}'"))),
        }
    }
}

#[cfg(test)]
mod tests {
    use super::*;

    const TAKES: Takes = Takes { values: &["--worst"], flags: &["--registers"], words: (0, 1) };

    fn parse(text: &str) -> Result<Args, Stop> {
        let words: Vec<String> = text.split_whitespace().map(str::to_string).collect();
        Args::parse(&words, &TAKES)
    }

    #[test]
    fn options() {
        let args = parse("--worst 1,000 a.json -l x.lib -l y.lib --registers net --top=chip").unwrap();
        assert_eq!(args.source.path, "a.json");
        assert_eq!(args.source.libraries, ["x.lib", "y.lib"]);
        assert_eq!(args.source.top.as_deref(), Some("chip"));
        assert_eq!(args.words, ["net"]);
        assert_eq!(args.number("--worst", 5), Ok(1_000));
        assert!(args.has("--registers"));
        assert_eq!(parse("-- -a").unwrap().source.path, "-a");
    }

    #[test]
    fn wrong_lines() {
        for text in ["", "a --worst", "a --nothing", "a b c"] {
            assert!(parse(text).is_err(), "{text}");
        }
        assert!(parse("a --worst x").unwrap().number("--worst", 1).is_err());
    }
}
