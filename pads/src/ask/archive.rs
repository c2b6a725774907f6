//! The calls of the proved archive; include/scoap.h describes them. Every Goldstein number of this program comes
//! from here.

use crate::show::cost::{grouped, Cost};
use scoap_calls::Calls;

/// The longest text that is read, and the most lines, of the largest analyser that is linked.
pub const MOST_BYTES: usize = LARGEST.bytes;
pub const MOST_LINES: usize = LARGEST.lines;
/// The most cells, pins and rows of a group (document 01), at every size.
pub const MOST_CELLS: usize = 32;
pub const MOST_PINS: usize = 8;
pub const MOST_ROWS: usize = 16;

/// An analyser that is linked: its calls, and its sizes as its header has them.
pub struct Analyser {
    calls: Calls,
    /// The most lines, and the longest text that is read.
    pub lines: usize,
    pub bytes: usize,
    /// The longest two reports of a netlist with ranges, and the longest entry of a truth table.
    report_room: usize,
    entry_room: usize,
    /// An answer below it is a length, a count or a line. Above it a plan's length could not be told from a refusal.
    refused: u64,
    /// Numbers of a standing table, and the place of line 1's six costs in it.
    standing: usize,
    standing_numbers: usize,
    /// Numbers of an answer to an ask: CO and SO of line 1, of line 2, ..
    observed: usize,
    /// Stack of the deepest call, scoap_plan.
    plan_stack: usize,
    /// The same calls as WebAssembly, as they are installed too: pads/wasm writes them. Empty where nothing did.
    pub js: &'static str,
}

// The analysers, ascending by their lines: build.rs writes the list.
include!(concat!(env!("OUT_DIR"), "/analysers.rs"));
const LARGEST: &Analyser = &ANALYSERS[ANALYSERS.len() - 1];

/// The most lines for which an analyser can be built (large/build).
const MOST_BUILT: usize = 32_767;

/// What a call that takes a netlist answers at the smallest size: an analyser that refuses a text as too long (2), or a
/// line's number (11), leaves it to the next larger one.
fn smallest<'a, A, T>(analysers: &'a [A], call: impl Fn(&'a A) -> Result<T, Refusal>) -> Result<T, Refusal> {
    let (largest, smaller) = analysers.split_last().expect("an analyser");
    for analyser in smaller {
        match call(analyser) {
            Err(Refusal { number: 2 | 11, .. }) => {}
            answer => return answer,
        }
    }
    call(largest)
}

#[derive(Clone, Copy, Debug, PartialEq, Eq)]
pub struct Refusal {
    pub number: u32,
    pub line: usize,
}

/// The six numbers of a line, in the report's order.
pub type Six = [Cost; 6];

/// The numbers of a netlist by line.
#[derive(Clone, Debug, PartialEq, Eq)]
pub struct Numbers {
    by_line: Vec<Option<Six>>,
}

impl Numbers {
    /// The six numbers of a line that the netlist mentions.
    pub fn of(&self, line: usize) -> &Six {
        self.by_line[line].as_ref().expect("a line of the report")
    }

    pub fn lines(&self) -> impl Iterator<Item = usize> + '_ {
        (1..self.by_line.len()).filter(|&line| self.by_line[line].is_some())
    }
}

impl Analyser {
    fn accepted(&self, answer: u64) -> Result<usize, Refusal> {
        if answer < self.refused {
            return Ok(answer as usize);
        }
        Err(Refusal { number: (answer / self.refused) as u32, line: (answer % self.refused) as usize })
    }

    /// The text that a call wrote into its buffer.
    fn written(&self, mut buffer: Vec<u8>, answer: u64) -> Result<String, Refusal> {
        buffer.truncate(self.accepted(answer)?);
        Ok(String::from_utf8(buffer).expect("a text of ASCII"))
    }

    fn report_text(&self, lib: &[u8], net: &[u8]) -> Result<String, Refusal> {
        let mut buffer = vec![0; self.report_room];
        let answer = self.calls.report(lib, net, &mut buffer);
        self.written(buffer, answer)
    }

    fn stand(&'static self, lib: &[u8], net: &[u8]) -> Result<Standing, Refusal> {
        let mut table = vec![0; self.standing];
        let mut buffer = vec![0; self.report_room];
        let answer = self.calls.stand(lib, net, &mut table, &mut buffer);
        let report = read_report(&self.written(buffer, answer)?);
        Ok(Standing { analyser: self, table, lines: report.lines().collect() })
    }

    fn advise(&self, lib: &[u8], net: &[u8], forbidden: &[u32]) -> Result<Option<(usize, Cost)>, Refusal> {
        let mut largest = [0];
        let answer = self.calls.advise(lib, net, forbidden, &mut largest);
        Ok(match self.accepted(answer)? {
            0 => None,
            line => Some((line, cost(largest[0]))),
        })
    }

    /// The plan that sets a line to a value, in combinational (kind 0) or sequential terms (kind 1).
    pub fn plan(&self, lib: &[u8], net: &[u8], line: usize, value: u8, kind: u8) -> Result<String, Refusal> {
        let mut buffer = vec![0; self.refused as usize - 1];
        let answer = self.calls.plan(lib, net, line as u64, u64::from(value), u64::from(kind), &mut buffer);
        self.written(buffer, answer)
    }

    /// What never says of the chip (K8): 0 nothing, 1 that no setting gives a value that is never, 2 exactly so.
    pub fn qualifies(&self, lib: &[u8], net: &[u8]) -> Result<usize, Refusal> {
        self.accepted(self.calls.qualifies(lib, net))
    }
}

/// Stack that a thread has for the calls, in bytes, whichever analyser is taken: what the largest one's header says of the
/// deepest call, and as much as a program usually has for this program's own.
pub fn stack() -> usize {
    LARGEST.plan_stack + (8 << 20)
}

/// The report's text for a library and a netlist.
pub fn report_text(lib: &[u8], net: &[u8]) -> Result<String, Refusal> {
    smallest(&ANALYSERS, |analyser| analyser.report_text(lib, net))
}

/// The numbers for a library and a netlist.
pub fn report(lib: &[u8], net: &[u8]) -> Result<Numbers, Refusal> {
    report_text(lib, net).map(|text| read_report(&text))
}

/// The numbers at the upper ends of all ranges; without a range those of the report.
pub fn report_high(lib: &[u8], net: &[u8]) -> Result<Numbers, Refusal> {
    let text = report_text(lib, net)?;
    Ok(read_report(text.split_once("\nhigh\n").map_or(text.as_str(), |(_, high)| high)))
}

/// Reads a report. It ends with the line of sweeps: a second report after it is not read.
fn read_report(text: &str) -> Numbers {
    let mut by_line = vec![None; MOST_LINES + 1];
    for row in text.lines().skip(1) {
        let mut fields = row.split(',');
        let first = fields.next().unwrap_or("");
        if first == "sweeps" {
            break;
        }
        let line: usize = first.parse().expect("a line of the report");
        let mut six = [Cost::Never; 6];
        for (cost, field) in six.iter_mut().zip(fields) {
            *cost = Cost::read(field).expect("a cost of the report");
        }
        by_line[line] = Some(six);
    }
    Numbers { by_line }
}

/// A standing analysis, on which pads are asked for and placed: the archive's own table. The texts that it is of are lent
/// again with each call.
#[derive(Clone)]
pub struct Standing {
    /// The smallest analyser that takes the texts.
    pub analyser: &'static Analyser,
    table: Vec<u32>,
    /// The lines that the netlist mentions.
    lines: Vec<usize>,
}

impl Standing {
    /// The count of pads placed so far. With a line it is the ticket for a pad there.
    pub fn count(&self) -> u64 {
        u64::from(self.table[0])
    }

    /// The numbers with the pads placed so far.
    pub fn numbers(&self) -> Numbers {
        self.numbers_of(|line| {
            let place = self.analyser.standing_numbers + 6 * (line - 1);
            std::array::from_fn(|at| cost(self.table[place + at]))
        })
    }

    fn numbers_of(&self, six: impl Fn(usize) -> Six) -> Numbers {
        let mut by_line = vec![None; MOST_LINES + 1];
        for &line in &self.lines {
            by_line[line] = Some(six(line));
        }
        Numbers { by_line }
    }
}

fn cost(number: u32) -> Cost {
    Cost::of_number(number).expect("a cost of the table")
}

/// The analysis of a library and a netlist, without a pad.
pub fn stand(lib: &[u8], net: &[u8]) -> Result<Standing, Refusal> {
    smallest(&ANALYSERS, |analyser| analyser.stand(lib, net))
}

/// What a pad on a line would leave, and the count of pads placed so far, which with the line is the ticket. `before` are
/// the standing table's numbers.
pub fn ask(
    lib: &[u8],
    net: &[u8],
    standing: &Standing,
    before: &Numbers,
    line: usize,
) -> Result<(u64, Numbers), Refusal> {
    let analyser = standing.analyser;
    let mut seen = vec![0; analyser.observed];
    let answer = analyser.calls.ask(lib, net, &standing.table, line as u64, &mut seen);
    let count = analyser.accepted(answer)? as u64;
    let numbers = standing.numbers_of(|line| {
        let [cc0, cc1, sc0, sc1, ..] = *before.of(line);
        let place = 2 * (line - 1);
        [cc0, cc1, sc0, sc1, cost(seen[place]), cost(seen[place + 1])]
    });
    Ok((count, numbers))
}

/// Places a pad by its ticket: what was asked for stands from now on.
pub fn commit(lib: &[u8], net: &[u8], standing: &mut Standing, line: usize, count: u64) -> Result<(), Refusal> {
    let analyser = standing.analyser;
    let answer = analyser.calls.commit(lib, net, &mut standing.table, line as u64, count);
    analyser.accepted(answer).map(|_| ())
}

/// The line whose pad leaves the least largest CO, over all lines of the netlist, and that CO (K13). None where every line
/// is forbidden or an output.
pub fn advise(lib: &[u8], net: &[u8], forbidden: &[u32]) -> Result<Option<(usize, Cost)>, Refusal> {
    smallest(&ANALYSERS, |analyser| analyser.advise(lib, net, forbidden))
}

/// The library entry of a truth table of at most four pins.
pub fn cell(name: &str, pins: usize, bits: &str) -> Result<String, Refusal> {
    let line = format!("{name},{pins},{bits}\n");
    let analyser = &ANALYSERS[0];
    let mut buffer = vec![0; analyser.entry_room];
    let answer = analyser.calls.cell(line.as_bytes(), &mut buffer);
    analyser.written(buffer, answer)
}

/// What a refusal's number means, in README's words, which are of the published sizes; tests/refusals holds them.
#[rustfmt::skip]
fn words(number: u32) -> &'static str {
    match number {
        1 => "a lent table is shorter than its published size",
        2 => "a text has more than 65,535 bytes",
        3 => "bad form: a wrong word, a missing or empty field, a bad number or name, an M or a Z out of place, no byte 10 at the end, an entry broken off",
        4 => "the name was used before",
        5 => "more than 8 pins",
        6 => "a wrong count of groups, or a group of more than 16 rows",
        7 => "a row has a bit above its columns",
        8 => "a CC or SC row names no pin while the other group of its line has rows, or a CO or SO row does not observe the output",
        9 => "a 33rd entry",
        10 => "bad form",
        11 => "a line number is not 1 to 1,000",
        12 => "the library has no such cell",
        13 => "the count of pins differs from the cell's",
        14 => "the line is driven already, by an input or a gate, or declared open",
        15 => "the line is marked output already",
        17 => "the report is longer than its buffer; of a netlist with ranges both reports together",
        18 => "the number is over or never, or there is none",
        19 => "the plan's text is longer than its buffer",
        20 => "a line is read by a pin or marked output, and neither driven nor declared open",
        21 => "a range on a line that is not marked input above",
        22 => "a bound of a range is not 1 to 999, LOW is above HIGH, or the line has a range already",
        23 => "the netlist does not mention the line, or it is an output already; or the standing table holds such a pad, or a count of pads above 1,000",
        24 => "the ticket's count of pads is not the present one",
        _ => "the analyser refuses it",
    }
}

/// The same with the sizes of the largest analyser: no smaller one has the last word on a size.
pub fn refusal_told(number: u32) -> String {
    sized(words(number), MOST_LINES, MOST_BYTES)
}

fn sized(words: &str, lines: usize, bytes: usize) -> String {
    words.replace("1,000", &grouped(lines as u64)).replace("65,535", &grouped(bytes as u64))
}

/// `1,000 lines`, as many as the largest analyser takes.
pub fn lines_told() -> String {
    format!("{} lines", grouped(MOST_LINES as u64))
}

/// `1,000 and 4,000 lines`: the sizes that are linked.
pub fn sizes_told() -> String {
    let sizes: Vec<String> = ANALYSERS.iter().map(|analyser| grouped(analyser.lines as u64)).collect();
    match sizes.split_last() {
        Some((last, [])) => format!("{last} lines"),
        Some((last, rest)) => format!("{} and {last} lines", rest.join(", ")),
        None => String::new(),
    }
}

/// What to build for a netlist that has more lines than the largest analyser, in thousands of lines.
pub fn larger_told(lines: usize) -> String {
    if lines > MOST_BUILT {
        return format!("; no analyser can be built for more than {} lines", grouped(MOST_BUILT as u64));
    }
    let wanted = lines.next_multiple_of(1_000).min(MOST_BUILT);
    format!("; no larger analyser is linked: make pads LINES={wanted} builds one and links it too")
}

#[cfg(test)]
mod tests {
    use super::*;

    #[test]
    fn a_report_is_read_up_to_its_sweeps() {
        let text = "line,cc0,cc1,sc0,sc1,co,so\n7,1,over,0,never,3,0\nsweeps,2,3,4,5\nhigh\n7,9,9,9,9,9,9\n";
        let numbers = read_report(text);
        assert_eq!(numbers.lines().collect::<Vec<_>>(), [7]);
        assert_eq!(
            numbers.of(7),
            &[Cost::Figure(1), Cost::Over, Cost::Figure(0), Cost::Never, Cost::Figure(3), Cost::Figure(0)]
        );
    }

    #[test]
    fn the_archive_answers() {
        let lib = cell("C1130", 3, "10000000").unwrap();
        assert!(lib.starts_with("Name,C1130,3\nCC,41,M,11,M,3,125\n"));
        let net = b"input,1\ninput,2\ninput,3\ngate,C1130,4,1,2,3\noutput,4\n";
        let numbers = report(lib.as_bytes(), net).unwrap();
        assert_eq!(numbers.of(4)[1], Cost::Figure(4));
        let analyser = &ANALYSERS[0];
        assert_eq!(analyser.plan(lib.as_bytes(), net, 4, 1, 0).unwrap().lines().next(), Some("0,4,1,125"));
        assert_eq!(analyser.qualifies(lib.as_bytes(), net), Ok(2));
        let refused = Refusal { number: 10, line: 1 };
        assert_eq!(report(lib.as_bytes(), b"?\n").unwrap_err(), refused);
    }

    /// The latch of docs/TABLES.md: a pad on line 4 is asked for and placed.
    #[test]
    fn a_pad_is_asked_for_and_placed() {
        let lib = cell("NAND2", 2, "1110").unwrap().into_bytes();
        let net = b"input,1\ninput,2\ngate,NAND2,3,1,4\ngate,NAND2,4,2,3\noutput,3\n";
        let mut standing = stand(&lib, net).unwrap();
        assert_eq!(standing.numbers(), report(&lib, net).unwrap());
        let fresh = standing.clone();
        let before = standing.numbers();
        let (count, asked) = ask(&lib, net, &standing, &before, 4).unwrap();
        assert_eq!((count, &standing.table), (0, &fresh.table));
        let co: Vec<Cost> = [1, 2, 3, 4].map(|line| asked.of(line)[4]).to_vec();
        assert_eq!(co, [3, 3, 0, 0].map(Cost::Figure));
        let refused = |number| Err(Refusal { number, line: 0 });
        for line in [0, 3, 5, 1_001] {
            assert_eq!(ask(&lib, net, &standing, &before, line).map(|_| ()), refused(23), "line {line}");
        }
        commit(&lib, net, &mut standing, 4, count).unwrap();
        assert_eq!((standing.count(), standing.numbers()), (1, asked));
        let placed = standing.clone();
        assert_eq!(commit(&lib, net, &mut standing, 1, count), refused(24));
        assert_eq!(commit(&lib, net, &mut standing, 4, 1), refused(23));
        assert_eq!(standing.table, placed.table);
        assert_eq!(stand(&lib, b"?\n").err(), Some(Refusal { number: 10, line: 1 }));
    }

    /// Two of a kind, of which the first refuses by a number: which one answers.
    fn taken(number: u32) -> (usize, Vec<usize>) {
        let asked = std::cell::RefCell::new(Vec::new());
        let answer = smallest(&[1_000, 4_000], |&lines| {
            asked.borrow_mut().push(lines);
            if lines == 1_000 && number > 0 {
                return Err(Refusal { number, line: 7 });
            }
            Ok(lines)
        });
        (answer.unwrap_or(0), asked.into_inner())
    }

    #[test]
    fn the_smallest_that_fits_is_taken() {
        assert_eq!(taken(0), (1_000, vec![1_000]));
        // A text that is too long, and a line's number.
        for number in [2, 11] {
            assert_eq!(taken(number), (4_000, vec![1_000, 4_000]), "refusal {number}");
        }
        // What no size changes: it is the refusal.
        for number in (1..=24).filter(|number| ![2, 11].contains(number)) {
            assert_eq!(taken(number), (0, vec![1_000]), "refusal {number}");
        }
        // The last word is the largest's.
        let last = |&lines: &usize| -> Result<(), Refusal> { Err(Refusal { number: 11, line: lines }) };
        assert_eq!(smallest(&[1_000, 2_000, 4_000], last), Err(Refusal { number: 11, line: 4_000 }));
        assert_eq!(smallest(&[1_000], last), Err(Refusal { number: 11, line: 1_000 }));
    }

    #[test]
    fn the_sizes_are_the_header_s() {
        assert!(ANALYSERS.windows(2).all(|two| two[0].lines < two[1].lines));
        let header = include_str!("../../../include/scoap.h");
        let analyser = &ANALYSERS[0];
        for (name, size) in [
            ("LINES", analyser.lines),
            ("MOST_TEXT", analyser.bytes),
            ("MOST_REPORTS", analyser.report_room),
            ("REFUSED", analyser.refused as usize),
            ("STANDING_NUMBERS", analyser.standing_numbers),
            ("PLAN_STACK", analyser.plan_stack),
        ] {
            assert!(header.contains(&format!("#define SCOAP_{name} {size}u\n")), "{name}");
        }
    }

    #[test]
    fn what_to_build_is_told() {
        assert!(larger_told(1_003).contains("make pads LINES=2000 "));
        assert!(larger_told(32_001).contains("make pads LINES=32767 "));
        assert!(larger_told(32_768).ends_with("more than 32,767 lines"));
        assert!(sizes_told().starts_with("1,000"));
    }

    #[test]
    fn words_have_the_sizes_of_the_analyser() {
        assert_eq!(sized(words(11), 4_000, 262_143), "a line number is not 1 to 4,000");
        assert_eq!(sized(words(2), 4_000, 262_143), "a text has more than 262,143 bytes");
        assert!(sized(words(23), 32_767, 2_196_479).ends_with("a count of pads above 32,767"));
        for number in 0..30 {
            let told = refusal_told(number);
            assert!(MOST_LINES == 1_000 || !told.contains("1,000") && !told.contains("65,535"), "{told}");
        }
    }

    #[test]
    fn the_adviser_names_a_line() {
        let lib = cell("NAND2", 2, "1110").unwrap().into_bytes();
        let net = b"input,1\ninput,2\ngate,NAND2,3,1,4\ngate,NAND2,4,2,3\noutput,3\n";
        // A pad on line 2 leaves 3 at line 1, one on line 4 leaves 3 at lines 1 and 2: the lower line is named.
        assert_eq!(advise(&lib, net, &[]), Ok(Some((2, Cost::Figure(3)))));
        assert_eq!(advise(&lib, net, &[2, 2, 0, 1_001]), Ok(Some((4, Cost::Figure(3)))));
        assert_eq!(advise(&lib, net, &[1, 2, 4]), Ok(None));
        assert_eq!(advise(&lib, b"?\n", &[]), Err(Refusal { number: 10, line: 1 }));
    }
}
