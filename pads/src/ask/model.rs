//! The texts that the analyser accepted, read once more for their structure: cells with their rows, gates, readers, and
//! the user's names. Numbers are asked of the archive.

use crate::ask::archive::{self, Analyser, Numbers, Refusal, Standing, MOST_LINES};
use crate::read::names::{LineKind, Name};
use crate::show::cost::Cost;
use crate::show::messages::shown_name;

/// One of the six numbers, in the report's order.
#[derive(Clone, Copy, Debug, PartialEq, Eq, Hash)]
pub enum Number {
    Cc0,
    Cc1,
    Sc0,
    Sc1,
    Co,
    So,
}

impl Number {
    pub const ALL: [(Number, &'static str); 6] = [
        (Number::Cc0, "cc0"),
        (Number::Cc1, "cc1"),
        (Number::Sc0, "sc0"),
        (Number::Sc1, "sc1"),
        (Number::Co, "co"),
        (Number::So, "so"),
    ];

    pub fn read(word: &str) -> Option<Number> {
        Self::ALL.iter().find(|(_, other)| *other == word).map(|(number, _)| *number)
    }

    pub fn word(self) -> &'static str {
        Self::ALL[self as usize].1
    }

    pub fn of(self, six: &[Cost; 6]) -> Cost {
        six[self as usize]
    }

    pub fn sequential(self) -> bool {
        matches!(self, Number::Sc0 | Number::Sc1 | Number::So)
    }
}

#[derive(Clone, Debug, PartialEq, Eq)]
pub struct Row {
    /// As the entry writes it.
    pub octal: String,
    /// The pins named, the first pin 0, with their values; the lowest column first.
    pub pins: Vec<(usize, bool)>,
    /// The values of the cell's own output that are named.
    pub output: Vec<bool>,
    pub depth: u32,
}

pub type Rows = Vec<Row>;

#[derive(Clone, Debug)]
pub struct LibCell {
    pub name: String,
    pub pins: usize,
    /// CC and SC: for the output at 0 and at 1.
    pub control: [Vec<Rows>; 2],
    /// CO and SO: for each pin.
    pub observe: [Vec<Rows>; 2],
    /// Pins that share a line are one wire (K7): no row names both values of one pin.
    pub one_wire: bool,
}

#[derive(Clone, Debug)]
pub struct Gate {
    pub cell: usize,
    pub line: usize,
    pub pins: Vec<usize>,
}

#[derive(Clone, Copy, Debug, PartialEq, Eq)]
pub enum Driver {
    Input,
    Gate(usize),
    Open,
}

#[derive(Clone)]
pub struct Model {
    pub title: String,
    pub lib: Vec<u8>,
    pub net: Vec<u8>,
    pub cells: Vec<LibCell>,
    pub gates: Vec<Gate>,
    /// By line, from 0: line 0 is none.
    pub driver: Vec<Option<Driver>>,
    pub is_output: Vec<bool>,
    /// The gates and pins that read a line.
    pub readers: Vec<Vec<(usize, usize)>>,
    /// One for each line, ascending.
    pub names: Vec<Name>,
    place: Vec<usize>,
    /// The analysis that pads are asked of and placed on, and its numbers.
    standing: Standing,
    pub numbers: Numbers,
    /// The lines that pads were placed on, in that order.
    pub placed: Vec<usize>,
    /// Inputs have a range of prices: the numbers are those at LOW.
    pub ranges: bool,
    /// Inputs may get a pad, too.
    pub inputs_too: bool,
    /// A block of a larger netlist.
    pub block: bool,
    /// Types of cells that stay closed: what they take counts as seen.
    pub closed: Vec<String>,
    /// Lines that are outputs only since a box takes them.
    pub taken: Vec<usize>,
}

impl Model {
    /// Reads texts and their names; lines that have none are called by their numbers.
    pub fn new(title: &str, lib: Vec<u8>, net: Vec<u8>, names: Vec<Name>) -> Result<Model, Refusal> {
        let standing = archive::stand(&lib, &net)?;
        let cells = read_library(&String::from_utf8_lossy(&lib));
        let mut model = Model {
            title: shown_name(title),
            lib,
            net,
            cells,
            gates: Vec::new(),
            driver: vec![None; MOST_LINES + 1],
            is_output: vec![false; MOST_LINES + 1],
            readers: vec![Vec::new(); MOST_LINES + 1],
            names: Vec::new(),
            place: vec![usize::MAX; MOST_LINES + 1],
            numbers: standing.numbers(),
            standing,
            placed: Vec::new(),
            ranges: false,
            inputs_too: false,
            block: false,
            closed: Vec::new(),
            taken: Vec::new(),
        };
        model.read_netlist();
        let mut given: Vec<Option<Name>> = vec![None; MOST_LINES + 1];
        for name in names {
            let line = name.line;
            given[line] = Some(name.shown());
        }
        let lines: Vec<usize> = model.numbers.lines().collect();
        for line in lines {
            let mut name = given[line].take().unwrap_or_else(|| model.unnamed(line));
            if name.kind == LineKind::Unsaid {
                let own = model.unnamed(line);
                name = Name { kind: own.kind, cell: own.cell, output: own.output, ..name };
            }
            model.place[line] = model.names.len();
            model.names.push(name);
        }
        Ok(model)
    }

    fn read_netlist(&mut self) {
        let text = String::from_utf8_lossy(&self.net).into_owned();
        for statement in text.lines() {
            let fields: Vec<&str> = statement.split(',').collect();
            let line_at = |at: usize| -> usize { fields.get(at).and_then(|field| field.parse().ok()).unwrap_or(0) };
            match fields[0] {
                "input" => self.driver[line_at(1)] = Some(Driver::Input),
                "open" => self.driver[line_at(1)] = Some(Driver::Open),
                "output" => self.is_output[line_at(1)] = true,
                "gate" => {
                    let cell = self.cells.iter().position(|cell| cell.name == fields[1]);
                    let at = self.gates.len();
                    let pins: Vec<usize> = (3..fields.len()).map(line_at).collect();
                    for (pin, &line) in pins.iter().enumerate() {
                        self.readers[line].push((at, pin));
                    }
                    self.driver[line_at(2)] = Some(Driver::Gate(at));
                    self.gates.push(Gate { cell: cell.expect("a known cell"), line: line_at(2), pins });
                }
                "range" => self.ranges = true,
                _ => {}
            }
        }
    }

    /// What is known of a line without a name: a cell is a register where its sequential rows are the deeper ones.
    fn unnamed(&self, line: usize) -> Name {
        let (kind, cell) = match self.driver[line] {
            Some(Driver::Input) => (LineKind::Input, String::new()),
            Some(Driver::Gate(gate)) => {
                let cell = &self.cells[self.gates[gate].cell];
                let kind = if cell.pins == 0 {
                    LineKind::Constant
                } else if cell.is_register() {
                    LineKind::Register
                } else {
                    LineKind::Gate
                };
                (kind, cell.name.clone())
            }
            _ => (LineKind::Open, String::new()),
        };
        Name {
            line,
            net: line.to_string(),
            kind,
            cell,
            instance: String::new(),
            output: self.is_output[line],
            pins: Vec::new(),
            aliases: Vec::new(),
            source: String::new(),
        }
    }

    pub fn name(&self, line: usize) -> &Name {
        &self.names[self.place[line]]
    }

    pub fn net_name(&self, line: usize) -> &str {
        &self.name(line).net
    }

    pub fn lines(&self) -> impl Iterator<Item = usize> + '_ {
        self.names.iter().map(|name| name.line)
    }

    pub fn cell_of(&self, gate: usize) -> &LibCell {
        &self.cells[self.gates[gate].cell]
    }

    /// The name of a gate's pin: as its library has it, else by place.
    pub fn pin_name(&self, gate: usize, pin: usize) -> String {
        let name = self.name(self.gates[gate].line);
        name.pins.get(pin).cloned().unwrap_or_else(|| (pin + 1).to_string())
    }

    /// The cell's type as the user's library calls it.
    pub fn cell_name(&self, gate: usize) -> &str {
        let name = self.name(self.gates[gate].line);
        if name.cell.is_empty() {
            &self.cell_of(gate).name
        } else {
            &name.cell
        }
    }

    /// Constants, parts, and lines that nothing reads are not ranked.
    pub fn is_ranked(&self, line: usize) -> bool {
        let kind = self.name(line).kind;
        !matches!(kind, LineKind::Constant | LineKind::Part) && self.is_read(line)
    }

    pub fn is_read(&self, line: usize) -> bool {
        self.is_output[line] || !self.readers[line].is_empty()
    }

    /// The nearest register or output that a line feeds, by the fewest gates.
    pub fn feeds(&self, line: usize) -> Option<usize> {
        let mut seen = vec![false; MOST_LINES + 1];
        let mut front = std::collections::VecDeque::from([line]);
        seen[line] = true;
        while let Some(at) = front.pop_front() {
            for &(gate, _) in &self.readers[at] {
                let out = self.gates[gate].line;
                if std::mem::replace(&mut seen[out], true) {
                    continue;
                }
                if self.is_output[out] || self.name(out).kind == LineKind::Register {
                    return Some(out);
                }
                front.push_back(out);
            }
        }
        None
    }

    /// What a pad on a line would leave, and its ticket: the count of pads placed so far. Nothing changes.
    pub fn ask(&self, line: usize) -> Result<(u64, Numbers), Refusal> {
        archive::ask(&self.lib, &self.net, &self.standing, &self.numbers, line)
    }

    /// Places a pad by its ticket: the line is an output from now on.
    pub fn commit(&mut self, line: usize, count: u64) -> Result<(), Refusal> {
        archive::commit(&self.lib, &self.net, &mut self.standing, line, count)?;
        self.numbers = self.standing.numbers();
        self.is_output[line] = true;
        self.placed.push(line);
        Ok(())
    }

    /// The netlist with further lines marked output.
    fn marked(&self, lines: impl IntoIterator<Item = usize>) -> Vec<u8> {
        let mut net = self.net.clone();
        for line in lines {
            net.extend_from_slice(format!("output,{line}\n").as_bytes());
        }
        net
    }

    /// The netlist with these lines as its only outputs.
    fn marked_alone(&self, lines: &[usize]) -> Vec<u8> {
        let text = String::from_utf8_lossy(&self.net);
        let mut net = String::with_capacity(self.net.len());
        for statement in text.lines().filter(|statement| !statement.starts_with("output,")) {
            net += statement;
            net.push('\n');
        }
        for line in lines {
            net += &format!("output,{line}\n");
        }
        net.into_bytes()
    }

    /// What protected lines are held against: the numbers with the pads placed so far, at the upper ends of all ranges, and
    /// where what boxes take is not seen.
    pub fn guarded(&self) -> Result<Numbers, Refusal> {
        let marked = self.marked(self.placed.iter().copied());
        let taken: Vec<String> = self.taken.iter().map(|line| format!("output,{line}")).collect();
        let mut net = String::with_capacity(marked.len());
        for statement in
            String::from_utf8_lossy(&marked).lines().filter(|statement| !taken.iter().any(|own| own == statement))
        {
            net += statement;
            net.push('\n');
        }
        let report = if self.ranges { archive::report_high } else { archive::report };
        report(&self.lib, net.as_bytes())
    }

    /// The numbers with pads on these lines as the only outputs.
    pub fn alone(&self, lines: &[usize]) -> Result<Numbers, Refusal> {
        archive::report(&self.lib, &self.marked_alone(lines))
    }

    /// The one pad that the archive's adviser names (K13) beside those placed so far, with the largest CO that it leaves.
    /// A constant, or an input that nothing reads, is marked output, so that its own CO does not count; nothing stands
    /// before it whose CO would change.
    pub fn advised(&self, forbidden: &[u32]) -> Result<Option<(usize, Cost)>, Refusal> {
        let unseen = self.lines().filter(|&line| {
            let bare = match self.driver[line] {
                Some(Driver::Gate(gate)) => self.gates[gate].pins.is_empty(),
                Some(Driver::Input) => !self.is_read(line),
                _ => false,
            };
            bare && !self.is_output[line]
        });
        archive::advise(&self.lib, &self.marked(self.placed.iter().copied().chain(unseen)), forbidden)
    }

    /// The analyser whose numbers these are: the smallest that takes the texts.
    pub fn analyser(&self) -> &'static Analyser {
        self.standing.analyser
    }

    /// The count of pads placed so far.
    pub fn pads(&self) -> u64 {
        self.standing.count()
    }
}

impl LibCell {
    fn is_register(&self) -> bool {
        let depth = |at: usize| self.control[at].iter().flatten().map(|row| row.depth).max().unwrap_or(0);
        depth(1) > depth(0)
    }

    /// Whether rows ask for both values of a pin: the clock of a register, whose edge must come.
    pub fn clocks(&self, pin: usize) -> bool {
        let mut rows = self.control[0].iter().flatten();
        rows.any(|row| row.pins.contains(&(pin, false)) && row.pins.contains(&(pin, true)))
    }
}

/// The cells of an accepted library.
fn read_library(text: &str) -> Vec<LibCell> {
    let mut cells = Vec::new();
    let lines: Vec<&str> = text.lines().collect();
    for entry in lines.chunks(6) {
        let [name, cc, co, sc, so, _] = entry else { break };
        let fields: Vec<&str> = name.split(',').collect();
        let deep = fields[0] == "Name3";
        let pins: usize = fields.get(2).and_then(|field| field.parse().ok()).unwrap_or(0);
        let groups = |line: &str| groups(line, pins, deep);
        let control = [groups(cc), groups(sc)];
        let observe = [groups(co), groups(so)];
        let rows = control.iter().chain(&observe).flatten().flatten();
        let one_wire = rows.clone().all(|row| row.pins.iter().all(|&(pin, value)| !row.pins.contains(&(pin, !value))));
        cells.push(LibCell { name: fields.get(1).unwrap_or(&"").to_string(), pins, control, observe, one_wire });
    }
    cells
}

fn groups(line: &str, pins: usize, deep: bool) -> Vec<Rows> {
    let mut groups: Vec<Rows> = Vec::new();
    let mut joined = false;
    for field in line.split(',').skip(1) {
        match field {
            "M" => joined = true,
            "Z" => groups.push(Vec::new()),
            octal => {
                if !std::mem::replace(&mut joined, false) {
                    groups.push(Vec::new());
                }
                if let Some(group) = groups.last_mut() {
                    group.push(decoded(octal, pins, deep));
                }
            }
        }
    }
    groups
}

fn decoded(octal: &str, pins: usize, deep: bool) -> Row {
    let bits = u32::from_str_radix(octal, 8).unwrap_or(0);
    let base = if deep { 3 } else { 1 };
    let mut named = Vec::new();
    for place in 0..2 * pins {
        if bits >> (base + place) & 1 == 1 {
            named.push((pins - 1 - place / 2, place % 2 == 0));
        }
    }
    let mut output = Vec::new();
    for (place, value) in [(0, true), (1, false)] {
        if bits >> (base + 2 * pins + place) & 1 == 1 {
            output.push(value);
        }
    }
    Row { octal: octal.to_string(), pins: named, output, depth: bits & ((1 << base) - 1) }
}

#[cfg(test)]
mod tests {
    use super::*;

    #[test]
    fn rows_are_decoded() {
        let row = decoded("1474", 3, false);
        assert_eq!(row.pins, [(2, false), (1, true), (1, false), (0, true)]);
        assert_eq!(row.output, [false]);
        assert_eq!(row.depth, 0);
        // C1130's row 125, under Name3 521.
        let (plain, deep) = (decoded("125", 3, false), decoded("521", 3, true));
        assert_eq!(plain.pins, deep.pins);
        assert_eq!([plain.depth, deep.depth], [1, 1]);
    }

    #[test]
    fn a_netlist_without_names() {
        let lib = archive::cell("NAND2", 2, "1110").unwrap() + &archive::cell("TIE1", 0, "1").unwrap();
        let net = b"input,1\ngate,TIE1,2\ngate,NAND2,7,1,2\noutput,7\nopen,9\ngate,NAND2,8,9,8\n".to_vec();
        let model = Model::new("t", lib.into_bytes(), net, Vec::new()).unwrap();
        let kinds: Vec<LineKind> = model.lines().map(|line| model.name(line).kind).collect();
        use LineKind::*;
        assert_eq!(kinds, [Input, Constant, Gate, Gate, Open]);
        assert_eq!(model.feeds(1), Some(7));
        assert_eq!(model.feeds(9), None);
        assert!(!model.is_ranked(2) && model.is_ranked(1) && model.is_ranked(8));
        assert_eq!(model.cell_of(1).control[0].len(), 2);
        assert!(model.cells[0].one_wire);
        let (count, asked) = model.ask(1).unwrap();
        assert_eq!(asked.of(1)[4], Cost::Figure(0));
        let mut placed = model.clone();
        placed.commit(1, count).unwrap();
        assert_eq!((placed.pads(), &placed.numbers), (1, &asked));
        assert!(placed.is_output[1] && !model.is_output[1]);
    }
}
