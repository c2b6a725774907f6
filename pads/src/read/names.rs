//! The names of a netlist's lines: names.csv, finding a net by what the user calls it, patterns.

use crate::ask::archive::MOST_LINES;
use crate::read::csv;
use crate::show::cost::grouped;
use crate::show::messages::{shown_name, Messages};
use std::collections::{BTreeMap, BTreeSet, HashMap, HashSet};

#[derive(Clone, Copy, Debug, PartialEq, Eq)]
pub enum LineKind {
    Input,
    Register,
    Gate,
    Constant,
    Open,
    /// Inside a split gate.
    Part,
    /// A names.csv without this column does not say it.
    Unsaid,
}

impl LineKind {
    pub const ALL: [(LineKind, &'static str); 6] = [
        (LineKind::Input, "input"),
        (LineKind::Register, "register"),
        (LineKind::Gate, "gate"),
        (LineKind::Constant, "constant"),
        (LineKind::Open, "open"),
        (LineKind::Part, "part"),
    ];

    pub fn word(self) -> &'static str {
        Self::ALL.iter().find(|(kind, _)| *kind == self).map_or("", |(_, word)| word)
    }

    fn read(word: &str) -> Option<LineKind> {
        Self::ALL.iter().find(|(_, other)| *other == word).map(|(kind, _)| *kind)
    }
}

/// The clock of registers whose format has none: an input that the chip does not have.
pub const OWN_CLOCK: &str = "(clock)";

/// One line of names.csv.
#[derive(Clone, Debug, PartialEq, Eq)]
pub struct Name {
    pub line: usize,
    pub net: String,
    pub kind: LineKind,
    pub cell: String,
    pub instance: String,
    pub output: bool,
    pub pins: Vec<String>,
    pub aliases: Vec<String>,
    pub source: String,
}

impl Name {
    /// The netlist's own name, where the one that is shown was made by `shorten`.
    pub fn long(&self) -> Option<&str> {
        let (base, number) = self.net.rsplit_once('~')?;
        let made = !base.is_empty() && !number.is_empty() && number.bytes().all(|b| b.is_ascii_digit());
        self.aliases.first().filter(|_| made).map(String::as_str)
    }

    /// The same without hidden characters: what is printed and what stands on the page.
    pub fn shown(self) -> Name {
        let all = |words: Vec<String>| words.iter().map(|word| shown_name(word)).collect();
        Name {
            net: shown_name(&self.net),
            cell: shown_name(&self.cell),
            instance: shown_name(&self.instance),
            pins: all(self.pins),
            aliases: all(self.aliases),
            source: shown_name(&self.source),
            ..self
        }
    }
}

const HEAD: [&str; 9] = ["line", "net", "kind", "cell", "instance", "output", "pins", "aliases", "source"];

pub fn write(names: &[Name]) -> String {
    let mut text = csv::record(&HEAD);
    for name in names {
        text += &csv::record(&[
            &name.line.to_string(),
            &name.net,
            name.kind.word(),
            &name.cell,
            &name.instance,
            if name.output { "1" } else { "0" },
            &name.pins.join(" "),
            &name.aliases.join(" "),
            &name.source,
        ]);
    }
    text
}

/// Reads names.csv; every bad line is told.
pub fn read(file: &str, text: &str, messages: &mut Messages) -> Vec<Name> {
    let records = match csv::read(text) {
        Ok(records) => records,
        Err((line, words)) => {
            messages.error_at(file, line, text.lines().nth(line - 1).unwrap_or(""), words);
            return Vec::new();
        }
    };
    let mut names: Vec<Name> = Vec::new();
    let mut at_line = vec![0usize; MOST_LINES + 1];
    let mut records = records.into_iter().peekable();
    // Without a head the fields are those of a file that was written here.
    let mut columns: Vec<String> = HEAD.map(str::to_string).to_vec();
    if let Some((number, head)) = records.next_if(|(_, fields)| is_head(fields)) {
        if let Err(words) = known_columns(&head) {
            messages.error_at(file, number, text.lines().nth(number - 1).unwrap_or(""), words);
            return Vec::new();
        }
        columns = head;
    }
    for (number, fields) in records {
        let shown = text.lines().nth(number - 1).unwrap_or("");
        let wrong = match read_one(&columns, &fields) {
            Ok(name) if at_line[name.line] > 0 => {
                Some(format!("line {} has its name already, on line {} of this file", name.line, at_line[name.line]))
            }
            Ok(name) => {
                at_line[name.line] = number;
                names.push(name);
                None
            }
            Err(words) => Some(words),
        };
        if let Some(words) = wrong {
            messages.error_at(file, number, shown, words);
        }
    }
    names
}

fn is_head(fields: &[String]) -> bool {
    fields.iter().any(|field| field == "line") && fields.iter().any(|field| field == "net")
}

fn known_columns(head: &[String]) -> Result<(), String> {
    for (at, word) in head.iter().enumerate() {
        if !HEAD.contains(&word.as_str()) {
            return Err(format!(
                "'{word}' is no column; there are {}, of which line and net are enough",
                HEAD.join(",")
            ));
        }
        if head[..at].contains(word) {
            return Err(format!("the column '{word}' stands twice"));
        }
    }
    Ok(())
}

fn read_one(columns: &[String], fields: &[String]) -> Result<Name, String> {
    if is_head(fields) {
        return Err("the head stands twice".to_string());
    }
    if fields.len() != columns.len() {
        return Err(format!("{} fields, a line of names has {}: {}", fields.len(), columns.len(), columns.join(",")));
    }
    let field = |word: &str| columns.iter().position(|column| column == word).map_or("", |at| fields[at].as_str());
    let line = field("line");
    let line: usize = line.parse().map_err(|_| format!("'{line}' is no line number"))?;
    if !(1..=MOST_LINES).contains(&line) {
        return Err(format!("line number {line} is not 1 to {}", grouped(MOST_LINES as u64)));
    }
    let given = columns.iter().any(|column| column == "kind");
    let kind = match LineKind::read(field("kind")) {
        Some(kind) => Some(kind),
        None if given => return Err(format!("'{}' is no kind of line", field("kind"))),
        None => None,
    };
    if field("net").is_empty() {
        return Err("the net has no name".to_string());
    }
    let words = |text: &str| text.split(' ').filter(|word| !word.is_empty()).map(str::to_string).collect();
    Ok(Name {
        line,
        net: field("net").to_string(),
        // The model says which it is where the file does not.
        kind: kind.unwrap_or(LineKind::Unsaid),
        cell: field("cell").to_string(),
        instance: field("instance").to_string(),
        output: field("output") == "1",
        pins: words(field("pins")),
        aliases: words(field("aliases")),
        source: field("source").to_string(),
    })
}

/// Whether a pattern with `*` (any bytes) fits a name.
pub fn fits(pattern: &str, name: &str) -> bool {
    let parts: Vec<&str> = pattern.split('*').collect();
    let [first, middle @ .., last] = parts.as_slice() else {
        return pattern == name;
    };
    let Some(mut rest) = name.strip_prefix(first) else {
        return false;
    };
    for part in middle {
        match rest.find(part) {
            Some(at) => rest = &rest[at + part.len()..],
            None => return false,
        }
    }
    rest.ends_with(last)
}

/// The lines that a name, an alias, `line:N` or a pattern with `*` means; where there is none, the three nearest names.
pub fn find(names: &[Name], wanted: &str) -> Result<Vec<usize>, String> {
    let wanted = shown_name(wanted);
    let wanted = wanted.as_str();
    if let Some(number) = wanted.strip_prefix("line:") {
        let line: Option<usize> = number.parse().ok();
        return match names.iter().find(|name| Some(name.line) == line) {
            Some(name) => Ok(vec![name.line]),
            None => Err(format!("{wanted}: the netlist has no such line")),
        };
    }
    let exact = names.iter().find(|name| name.net == wanted);
    let exact = exact.or_else(|| names.iter().find(|name| name.aliases.iter().any(|alias| alias == wanted)));
    if let Some(name) = exact {
        return Ok(vec![name.line]);
    }
    if wanted.contains('*') {
        let lines: Vec<usize> = names
            .iter()
            .filter(|name| fits(wanted, &name.net) || name.aliases.iter().any(|alias| fits(wanted, alias)))
            .map(|name| name.line)
            .collect();
        if !lines.is_empty() {
            return Ok(lines);
        }
        return Err(format!("{wanted}: no net fits"));
    }
    let mut near: Vec<(usize, &str)> = names
        .iter()
        .flat_map(|name| std::iter::once(&name.net).chain(&name.aliases))
        .map(|name| (distance(wanted, name), name.as_str()))
        .collect();
    near.sort();
    near.dedup();
    let near: Vec<&str> = near.into_iter().take(3).map(|(_, name)| name).collect();
    if near.is_empty() {
        return Err(format!("{wanted}: there is no such net"));
    }
    Err(format!("{wanted}: there is no such net; the nearest: {}", near.join(", ")))
}

/// How many letters are exchanged, put in or taken out between two names, of which the first 60 letters count.
fn distance(a: &str, b: &str) -> usize {
    let letters = |text: &str| -> Vec<char> { text.chars().take(60).flat_map(char::to_lowercase).collect() };
    let (a, b) = (letters(a), letters(b));
    let mut above: Vec<usize> = (0..=b.len()).collect();
    for (row, x) in a.iter().enumerate() {
        let mut here = vec![row + 1];
        for (column, y) in b.iter().enumerate() {
            let exchanged = above[column] + usize::from(x != y);
            here.push(exchanged.min(above[column + 1] + 1).min(here[column] + 1));
        }
        above = here;
    }
    above[b.len()]
}

/// A name at most `most` letters long, cut in the middle.
pub fn cut(name: &str, most: usize) -> String {
    let letters: Vec<char> = shown_name(name).chars().collect();
    cut_at(&letters, most, (most - 1).div_ceil(2))
}

/// The same, with so many letters before the cut.
fn cut_at(letters: &[char], most: usize, head: usize) -> String {
    if letters.len() <= most {
        return letters.iter().collect();
    }
    let tail = most - 1 - head;
    let head: String = letters[..head].iter().collect();
    let tail: String = letters[letters.len() - tail..].iter().collect();
    format!("{head}…{tail}")
}

/// The names of lines that are shown together, cut so that no two read alike: those that would are cut elsewhere, the
/// nearest place to the middle that parts them; where none does, the line stands behind.
pub fn cut_all(names: &[(usize, &str)], most: usize) -> Vec<String> {
    let letters: Vec<Vec<char>> = names.iter().map(|(_, name)| shown_name(name).chars().collect()).collect();
    let middle = (most - 1).div_ceil(2);
    let mut told: Vec<String> = letters.iter().map(|letters| cut_at(letters, most, middle)).collect();
    let mut alike: BTreeMap<String, Vec<usize>> = BTreeMap::new();
    for (at, name) in told.iter().enumerate() {
        alike.entry(name.clone()).or_default().push(at);
    }
    // One line that stands several times is one name.
    let is_one = |group: &[usize]| group.iter().all(|&at| names[at].0 == names[group[0]].0);
    let mut taken: HashSet<String> =
        alike.iter().filter(|(_, group)| is_one(group)).map(|(name, _)| name.clone()).collect();
    let mut places: Vec<usize> = (1..most - 1).collect();
    places.sort_by_key(|place| place.abs_diff(middle));
    for group in alike.values().filter(|group| !is_one(group)) {
        let lines: BTreeMap<usize, usize> = group.iter().map(|&at| (names[at].0, at)).collect();
        let parts = |place: usize| {
            let cuts: HashSet<String> = lines.values().map(|&at| cut_at(&letters[at], most, place)).collect();
            cuts.len() == lines.len() && cuts.is_disjoint(&taken)
        };
        let place = places.iter().copied().find(|&place| parts(place));
        for &at in group {
            told[at] = match place {
                Some(place) => cut_at(&letters[at], most, place),
                None => format!("{} (line {})", told[at], names[at].0),
            };
        }
        taken.extend(group.iter().map(|&at| told[at].clone()));
    }
    told
}

/// Gives nets that the designer did not name a short one, from the register or output that they feed by the fewest gates:
/// `rx[2].d~3`, the third of the nets before pin D of rx[2]; `q~1` before an output. The long name is an alias. The order
/// is by distance and by the long names, so that formats which agree on these agree on the short ones.
pub fn shorten(names: &mut [Name], net: &str) {
    let mut types: HashMap<String, BTreeSet<String>> = HashMap::new();
    for name in names.iter().filter(|name| !name.cell.is_empty()) {
        types.entry(name.cell.clone()).or_default().extend(name.pins.iter().cloned());
    }
    let mut unnamed: BTreeMap<usize, usize> = BTreeMap::new();
    for (at, name) in names.iter_mut().enumerate() {
        let has_name = !matches!(name.kind, LineKind::Gate | LineKind::Register) || name.net.contains(' ');
        if has_name || !is_made_up(&name.net, &types) {
            continue;
        }
        let own = name.aliases.iter().filter(|alias| !is_made_up(alias, &types)).min_by_key(|alias| alias.len());
        match own.cloned() {
            Some(own) => {
                name.aliases.retain(|alias| *alias != own);
                name.aliases.insert(0, std::mem::replace(&mut name.net, own));
            }
            None => drop(unnamed.insert(name.line, at)),
        }
    }
    let fed = fed_by(names, net, &unnamed);
    let mut groups: BTreeMap<&str, Vec<(usize, &str, usize)>> = BTreeMap::new();
    for (line, &at) in &unnamed {
        if let Some((distance, base)) = fed.get(line) {
            groups.entry(base).or_default().push((*distance, &names[at].net, at));
        }
    }
    let mut taken: HashSet<&str> = names.iter().map(|name| name.net.as_str()).collect();
    taken.extend(names.iter().flat_map(|name| name.aliases.iter().map(String::as_str)));
    let mut given: Vec<(usize, String)> = Vec::new();
    for (base, mut group) in groups {
        group.sort();
        let free = (1..).map(|number| format!("{base}~{number}")).filter(|name| !taken.contains(name.as_str()));
        given.extend(group.into_iter().zip(free).map(|((.., at), name)| (at, name)));
    }
    let mut parts: HashMap<String, String> = HashMap::new();
    for (at, short) in given {
        let long = std::mem::replace(&mut names[at].net, short.clone());
        names[at].aliases.insert(0, long.clone());
        parts.insert(long, short);
    }
    // The parts of a gate are called by its net.
    for name in names.iter_mut().filter(|name| name.kind == LineKind::Part) {
        let of = name.net.split_once(" of ").and_then(|(part, of)| Some((part, parts.get(of.strip_suffix(')')?)?)));
        if let Some((part, short)) = of {
            name.net = format!("{part} of {short})");
        }
    }
}

/// Of each line the nearest register or output that it feeds and that has a name, as a name begins, and how many gates
/// are between; the first by name among equals.
fn fed_by(names: &[Name], net: &str, unnamed: &BTreeMap<usize, usize>) -> HashMap<usize, (usize, String)> {
    let pins: HashMap<usize, Vec<usize>> = net
        .lines()
        .filter_map(|statement| statement.strip_prefix("gate,"))
        .filter_map(|gate| {
            let fields: Vec<usize> = gate.split(',').skip(1).map(|field| field.parse().unwrap_or(0)).collect();
            fields.split_first().map(|(line, pins)| (*line, pins.to_vec()))
        })
        .collect();
    let is_end = |name: &&Name| (name.kind == LineKind::Register || name.output) && !unnamed.contains_key(&name.line);
    let ends: HashSet<usize> = names.iter().filter(is_end).map(|name| name.line).collect();
    let mut front: Vec<(usize, String)> = Vec::new();
    for name in names.iter().filter(is_end) {
        for (pin, &line) in pins.get(&name.line).map_or(&[][..], Vec::as_slice).iter().enumerate() {
            let base = match (name.kind, name.pins.get(pin)) {
                (LineKind::Register, Some(pin)) => format!("{}.{}", name.net, pin.to_lowercase()),
                (LineKind::Register, None) => format!("{}.{}", name.net, pin + 1),
                _ => name.net.clone(),
            };
            front.push((line, base));
        }
    }
    let mut fed: HashMap<usize, (usize, String)> = HashMap::new();
    for distance in 0.. {
        front.retain(|(line, _)| !ends.contains(line) && !fed.contains_key(line));
        if front.is_empty() {
            break;
        }
        front.sort();
        front.dedup_by_key(|(line, _)| *line);
        let mut next = Vec::new();
        for (line, base) in front {
            let before = pins.get(&line).map_or(&[][..], Vec::as_slice);
            next.extend(before.iter().map(|&before| (before, base.clone())));
            fed.insert(line, (distance, base));
        }
        front = next;
    }
    fed
}

/// Whether a tool made a name: one that begins with $, Verilog's _12_, ABC's new_n12, and what Yosys's autoname puts
/// together of a cell's type and its pin, as crc_DFFSR_Q_D.
fn is_made_up(name: &str, types: &HashMap<String, BTreeSet<String>>) -> bool {
    if name.starts_with('$') || name.contains(".$") || name.contains("_$_") {
        return true;
    }
    let last = name.rsplit('.').next().unwrap_or(name);
    let is_number = |text: &str| !text.is_empty() && text.bytes().all(|b| b.is_ascii_digit());
    let inside = last.strip_prefix('_').and_then(|rest| rest.strip_suffix('_'));
    let of_abc = last.strip_prefix("new_n").map(|rest| rest.strip_suffix('_').unwrap_or(rest));
    if inside.is_some_and(is_number) || of_abc.is_some_and(is_number) {
        return true;
    }
    // A type can stand at several places of a name.
    types.iter().any(|(title, pins)| {
        name.match_indices(title.as_str()).any(|(at, _)| {
            let behind = name[at + title.len()..].strip_prefix('_');
            let pin = behind.map_or("", |behind| behind.split(['_', '[']).next().unwrap_or(""));
            // A name in names.csv has no word of a cell's outputs, which are capitals.
            let is_output = pin.len() <= 3 && pin.starts_with(|c: char| c.is_ascii_uppercase());
            at > 0 && name[..at].ends_with('_') && (pins.contains(pin) || is_output)
        })
    })
}

/// The first place of a source, without its folder and columns: `uart.v:16` of `rtl/uart.v:16.5-40.12|top.v:3.1`.
pub fn place_told(source: &str) -> &str {
    let first = source.split('|').next().unwrap_or("");
    let first = first.rsplit('/').next().unwrap_or(first);
    match first.rsplit_once(':') {
        Some((file, place)) => {
            let digits = place.bytes().take_while(u8::is_ascii_digit).count();
            &first[..file.len() + 1 + digits]
        }
        None => first,
    }
}

#[cfg(test)]
mod tests {
    use super::*;

    fn name(line: usize, net: &str, aliases: &[&str]) -> Name {
        Name {
            line,
            net: net.to_string(),
            kind: LineKind::Gate,
            cell: "NAND2".to_string(),
            instance: "u,1".to_string(),
            output: line % 2 == 0,
            pins: vec!["A".to_string(), "B".to_string()],
            aliases: aliases.iter().map(|alias| alias.to_string()).collect(),
            source: "a.v:1".to_string(),
        }
    }

    #[test]
    fn names_there_and_back() {
        let names = vec![name(1, "quiet[3]", &["q", "r"]), name(2, "say \"x\", y", &[])];
        let mut messages = Messages::new();
        assert_eq!(read("names.csv", &write(&names), &mut messages), names);
        assert_eq!(messages.text(), "");
    }

    #[test]
    fn bad_names_are_all_told() {
        let mut messages = Messages::new();
        let text =
            "line,net,kind,cell,instance,output,pins,aliases,source\n0,a,gate,,,0,,,\n1,a,hat,,,0,,,\n1,a,gate\n\
                    2,b,gate,,,0,,,\n2,c,gate,,,0,,,\n3,,gate,,,0,,,\n";
        read("names.csv", text, &mut messages);
        assert_eq!(messages.errors(), 5);
    }

    #[test]
    fn a_head_of_two_words_is_enough() {
        let mut messages = Messages::new();
        let names = read("names.csv", "net,line\na,3\n\"b,c\",4\n", &mut messages);
        assert_eq!(messages.text(), "");
        let told: Vec<(usize, &str, LineKind)> =
            names.iter().map(|name| (name.line, name.net.as_str(), name.kind)).collect();
        assert_eq!(told, [(3, "a", LineKind::Unsaid), (4, "b,c", LineKind::Unsaid)]);
        for (text, words) in [
            ("line,net,colour\n1,a,red\n", "'colour' is no column"),
            ("line,net,net\n1,a,b\n", "stands twice"),
            ("line,net\n1,a\nline,net\n", "the head stands twice"),
            ("line,net\n1,a,b\n", "3 fields, a line of names has 2: line,net"),
            ("line,net\n1,\n", "no name"),
            ("1,a\n", "2 fields"),
        ] {
            let mut messages = Messages::new();
            read("names.csv", text, &mut messages);
            assert!(messages.text().contains(words), "{text}: {}", messages.text());
        }
    }

    #[test]
    fn patterns() {
        assert!(fits("quiet[*]", "quiet[3]"));
        assert!(fits("*", ""));
        assert!(fits("a*b*c", "aXbYc"));
        assert!(!fits("a*b", "abc"));
        assert!(!fits("ab*ba", "aba"));
        assert!(fits("exact", "exact"));
    }

    #[test]
    fn found_by_any_name() {
        let names = vec![name(4, "quiet[3]", &["q3"]), name(7, "quick", &[])];
        assert_eq!(find(&names, "q3"), Ok(vec![4]));
        assert_eq!(find(&names, "line:7"), Ok(vec![7]));
        assert_eq!(find(&names, "qui*"), Ok(vec![4, 7]));
        assert!(find(&names, "quik").unwrap_err().contains("nearest: quick"));
        assert!(find(&names, "line:9").is_err());
        assert!(find(&names, "x*").is_err());
    }

    #[test]
    fn cut_in_the_middle() {
        assert_eq!(cut("abcdefgh", 5), "ab…gh");
        assert_eq!(cut("abc", 5), "abc");
    }

    #[test]
    fn cuts_that_part_names() {
        let all = |names: &[(usize, &str)]| cut_all(names, 7);
        assert_eq!(all(&[(1, "abcdefgh1x"), (2, "abcdefgh2x"), (3, "b")]), ["abc…h1x", "abc…h2x", "b"]);
        assert_eq!(all(&[(1, "abcXXXXXdef"), (2, "abcYYYYYdef")]), ["ab…Xdef", "ab…Ydef"]);
        // A name that reads as another's cut; one line twice; two lines of one name.
        assert_eq!(all(&[(1, "abcdefghi"), (2, "abc…ghi")]), ["ab…fghi", "abc…ghi"]);
        assert_eq!(all(&[(1, "abcdefghi"), (1, "abcdefghi")]), ["abc…ghi"; 2]);
        assert_eq!(all(&[(1, "abcdefghi"), (2, "abcdefghi")]), ["abc…ghi (line 1)", "abc…ghi (line 2)"]);
    }

    #[test]
    fn short_names() {
        let part = |line: usize, net: &str, kind: LineKind, cell: &str, pins: &[&str], aliases: &[&str]| Name {
            kind,
            output: false,
            cell: cell.to_string(),
            pins: pins.iter().map(|pin| pin.to_string()).collect(),
            ..name(line, net, aliases)
        };
        let gate = LineKind::Gate;
        let mut names = vec![
            part(1, "a", LineKind::Input, "", &[], &[]),
            part(2, "clk", LineKind::Input, "", &[], &[]),
            part(3, "q[1]", LineKind::Register, "DFFX1", &["D", "CK"], &[]),
            part(4, "q_DFFX1_Q_D", gate, "INVX1", &["A"], &[]),
            part(5, "q_DFFX1_Q_D_INVX1_Y_A", gate, "INVX1", &["A"], &["$abc$7"]),
            part(6, "$abc$9", gate, "INVX1", &["A"], &["own", "q_DFFX1_Q_D_INVX1_Y_A_INVX1_Y_A"]),
            part(7, "_12_", gate, "INVX1", &["A"], &[]),
            part(8, "out", gate, "INVX1", &["A"], &[]),
            part(9, "q[1].d~2", gate, "INVX1", &["A"], &[]),
            part(10, "_13_", gate, "INVX1", &["A"], &[]),
            part(11, "(part 1 of _12_)", LineKind::Part, "", &["I1"], &[]),
            part(12, "an_INVX1_name", gate, "INVX1", &["A"], &[]),
        ];
        names[7].output = true;
        let net = "input,1\ninput,2\ngate,D,3,4,2\ngate,N,4,5\ngate,N,5,6\ngate,N,6,1\ngate,N,7,11\ngate,N,11,3\ngate,N,8,7\n\
                   gate,N,9,3\ngate,N,10,9\ngate,N,12,3\noutput,8\n";
        shorten(&mut names, net);
        let shown: Vec<&str> = names.iter().map(|name| name.net.as_str()).collect();
        assert_eq!(
            shown,
            [
                "a",
                "clk",
                "q[1]",
                "q[1].d~1",
                "q[1].d~3",
                "own",
                "out~1",
                "out",
                "q[1].d~2",
                "_13_",
                "(part 1 of out~1)",
                "an_INVX1_name"
            ]
        );
        assert_eq!(names[4].aliases, ["q_DFFX1_Q_D_INVX1_Y_A", "$abc$7"]);
        assert_eq!(names[5].aliases, ["$abc$9", "q_DFFX1_Q_D_INVX1_Y_A_INVX1_Y_A"]);
        assert_eq!(find(&names, "q_DFFX1_Q_D"), Ok(vec![4]));
        assert_eq!(find(&names, "_12_"), Ok(vec![7]));
        assert_eq!(names[4].long(), Some("q_DFFX1_Q_D_INVX1_Y_A"));
        assert_eq!([names[5].long(), names[8].long()], [None, None]);
    }

    #[test]
    fn places() {
        assert_eq!(place_told("rtl/uart.v:16.5-40.12|top.v:3.1"), "uart.v:16");
        assert_eq!(place_told("a.v:3"), "a.v:3");
        assert_eq!(place_told(""), "");
        assert_eq!(place_told("hello"), "hello");
    }
}
