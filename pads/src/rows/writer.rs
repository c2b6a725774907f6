//! From the hub to the analyser's texts: gates that are too wide are split, lines are numbered, cells named, limits
//! counted. `net.txt` is written here and nowhere else.

use crate::ask::archive::{MOST_BYTES, MOST_CELLS, MOST_LINES, MOST_PINS, MOST_ROWS};
use crate::read::blocks::helps;
use crate::read::hub::{Design, Source};
use crate::read::load::many;
use crate::read::names::{LineKind, Name};
use crate::rows::cells::{Kind, Op, Wide};
use crate::rows::fewer::{self, Function as Written, Turn};
use crate::rows::registers::{Function, Register, Trouble};
use crate::rows::{Entry, Table, COMBINATIONAL, PART};
use crate::show::cost::grouped;
use crate::show::messages::Messages;
use crate::show::text::Stop;
use std::collections::{BTreeSet, HashMap};

/// A cell of the library that was written: its name, the types that share it, and how many gates use it.
pub struct Used {
    pub name: String,
    pub types: Vec<String>,
    pub gates: usize,
}

pub struct Texts {
    pub lib: String,
    pub net: String,
    pub names: Vec<Name>,
    pub cells: Vec<Used>,
    pub fewer: Fewer,
    /// Lines that are outputs only since a box takes them.
    pub taken: Vec<usize>,
}

/// Functions that are written by others because entries ran out.
#[derive(Clone, Copy, Debug, Default, PartialEq, Eq)]
pub struct Fewer {
    /// Entries without that.
    pub wanted: usize,
    pub written: usize,
    /// Inverters of depth 0 for it, a line each.
    pub inverters: usize,
    /// Entries that are left at the least where they are still too many.
    pub left: usize,
}

impl Fewer {
    /// `38 functions, of which 6 are written by others with 11 inverters of depth 0: every number is as before`.
    pub fn told(&self) -> Option<String> {
        let inverters = match self.inverters {
            0 => "their pins in another order".to_string(),
            count => format!("{} of depth 0", many(count, "inverter")),
        };
        (self.written > 0).then(|| {
            format!(
                "{} cells of different function, of which {} written by others with {inverters}; numbers are the same",
                self.wanted,
                if self.written == 1 { "1 is".to_string() } else { format!("{} are", self.written) }
            )
        })
    }

    fn left_told(&self) -> String {
        if self.left == 0 {
            return String::new();
        }
        format!("; {} are left where they are written by others and inverters", self.left)
    }

    fn lines_told(&self) -> String {
        if self.inverters == 0 {
            return String::new();
        }
        format!(
            "\n  {} of the parts are inverters, because {} cells of different function are too many",
            self.inverters, self.wanted
        )
    }
}

/// A gate of more pins has more parts than the analyser has lines.
const MOST_WIDE: usize = MOST_PINS * MOST_LINES;

/// A gate with its rows.
struct Placed {
    entry: usize,
    kind: LineKind,
    title: String,
    instance: String,
    pin_names: Vec<String>,
    pins: Vec<Source>,
    output: usize,
    source: String,
}

#[derive(Default)]
struct Entries {
    all: Vec<Entry>,
    places: HashMap<Entry, usize>,
    /// The entries of tables, which are worked out once.
    tables: HashMap<(Table, [u32; 2]), Entry>,
    /// By function, where it has a usual name.
    usual: Vec<Option<String>>,
    types: Vec<BTreeSet<String>>,
    gates: Vec<usize>,
}

impl Entries {
    fn place(&mut self, entry: Entry, usual: Option<String>, title: &str) -> usize {
        let at = *self.places.entry(entry.clone()).or_insert_with(|| {
            self.all.push(entry);
            self.usual.push(usual);
            self.types.push(BTreeSet::new());
            self.gates.push(0);
            self.all.len() - 1
        });
        if !title.is_empty() && self.types[at].len() < 50 {
            self.types[at].insert(title.to_string());
        }
        self.gates[at] += 1;
        at
    }

    /// Entries that no gate has any more are left out.
    fn drop_unused(&mut self, placed: &mut [Placed]) {
        let mut used = vec![false; self.all.len()];
        placed.iter().for_each(|placed| used[placed.entry] = true);
        let mut places = vec![0; self.all.len()];
        let mut kept = Entries { tables: std::mem::take(&mut self.tables), ..Entries::default() };
        for at in (0..self.all.len()).filter(|&at| used[at]) {
            places[at] = kept.all.len();
            kept.places.insert(self.all[at].clone(), kept.all.len());
            kept.all.push(self.all[at].clone());
            kept.usual.push(self.usual[at].take());
            kept.types.push(std::mem::take(&mut self.types[at]));
            kept.gates.push(self.gates[at]);
        }
        placed.iter_mut().for_each(|placed| placed.entry = places[placed.entry]);
        *self = kept;
    }

    /// Names of 1 to 8 of A–Z, 0–9: by function, else the type's own name where it fits and is free, else C001, C002, ..
    fn names(&self) -> Vec<String> {
        let mut taken: BTreeSet<String> = BTreeSet::new();
        let mut names: Vec<Option<String>> = vec![None; self.all.len()];
        for (name, usual) in names.iter_mut().zip(&self.usual) {
            if let Some(usual) = usual.as_ref().filter(|usual| !taken.contains(*usual)) {
                taken.insert(usual.clone());
                *name = Some(usual.clone());
            }
        }
        for (at, name) in names.iter_mut().enumerate() {
            if name.is_none() {
                let own = self.types[at]
                    .iter()
                    .map(|title| own_name(title))
                    .find(|own| (1..=8).contains(&own.len()) && !taken.contains(own));
                if let Some(own) = own {
                    taken.insert(own.clone());
                    *name = Some(own);
                }
            }
        }
        let mut count = 0;
        names
            .into_iter()
            .map(|name| {
                name.unwrap_or_else(|| loop {
                    count += 1;
                    let name = format!("C{count:03}");
                    if taken.insert(name.clone()) {
                        break name;
                    }
                })
            })
            .collect()
    }
}

fn inverter() -> Table {
    Table::of(1, |s| s == 0)
}

/// Whether inverters before the pins leave a gate's numbers and what it hands on as they are: each pin reads a net of its
/// own.
fn pins_turn(pins: &[Source]) -> bool {
    pins.iter().enumerate().all(|(at, pin)| matches!(pin, Source::Net(_)) && !pins[..at].contains(pin))
}

fn own_name(title: &str) -> String {
    let upper = title.to_ascii_uppercase();
    upper.chars().filter(|c| c.is_ascii_uppercase() || c.is_ascii_digit()).collect()
}

/// The usual name of a function: AND2, NOT, TIE0 and so on.
pub fn usual_name(table: &Table) -> Option<String> {
    let n = table.pins;
    match (n, table.digits().as_str()) {
        (0, "0") => return Some("TIE0".to_string()),
        (0, _) => return Some("TIE1".to_string()),
        (1, "01") => return Some("BUF".to_string()),
        (1, "10") => return Some("NOT".to_string()),
        (1, _) => return None,
        _ => {}
    }
    for (word, op, inverted) in [
        ("AND", Op::And, false),
        ("NAND", Op::And, true),
        ("OR", Op::Or, false),
        ("NOR", Op::Or, true),
        ("XOR", Op::Xor, false),
        ("XNOR", Op::Xor, true),
    ] {
        if (Wide { op, inverted, flipped: vec![false; n] }).table() == *table {
            return Some(format!("{word}{n}"));
        }
    }
    None
}

struct Writer<'d> {
    design: &'d mut Design,
    entries: Entries,
    placed: Vec<Placed>,
    /// The name of a part's net, by net.
    parts: usize,
    fewer: Fewer,
}

/// Writes the texts of a settled design.
pub fn write(design: &mut Design, messages: &mut Messages) -> Result<Texts, Stop> {
    write_within(design, MOST_CELLS, messages)
}

/// The same with at most so many entries.
pub fn write_within(design: &mut Design, most_cells: usize, messages: &mut Messages) -> Result<Texts, Stop> {
    let before = messages.errors();
    let fewer = Fewer::default();
    let mut writer = Writer { design, entries: Entries::default(), placed: Vec::new(), parts: 0, fewer };
    for at in 0..writer.design.gates.len() {
        writer.gate(at, messages);
    }
    if messages.errors() > before {
        return Err(Stop::Refused);
    }
    writer.write_fewer(most_cells);
    writer.texts(messages)
}

impl Writer<'_> {
    fn gate(&mut self, at: usize, messages: &mut Messages) {
        let gate = self.design.gates[at].clone();
        let net_name = self.design.nets[gate.output].name().to_string();
        let mut placed = Placed {
            entry: 0,
            kind: LineKind::Gate,
            title: gate.cell.title.clone(),
            instance: gate.instance.clone(),
            pin_names: gate.cell.pins.clone(),
            pins: gate.pins.clone(),
            output: gate.output,
            source: gate.source.clone(),
        };
        match &gate.cell.kind {
            Kind::Table(table) => {
                if table.pins == 0 {
                    placed.kind = LineKind::Constant;
                }
                placed.entry = self.table(table, COMBINATIONAL, &placed.title);
            }
            Kind::Wide(wide) if wide.flipped.len() > MOST_WIDE => {
                let words = format!("{net_name}: a gate of {} pins", grouped(wide.flipped.len() as u64));
                messages.error(&self.design.file, words);
            }
            Kind::Wide(wide) => {
                let (last, pins) = self.split(wide, gate.pins.clone(), &net_name);
                placed.pin_names = (1..=pins.len()).map(|pin| format!("I{pin}")).collect();
                placed.pins = pins;
                let title = std::mem::take(&mut placed.title);
                placed.entry = self.table(&last.table(), COMBINATIONAL, "");
                placed.title = title;
            }
            Kind::Driver(driver) => {
                placed.entry = self.entries.place(driver.entry(), None, &placed.title);
            }
            Kind::Register(register) => {
                placed.kind = LineKind::Register;
                match register.trouble() {
                    None => placed.entry = self.entries.place(register.entry(), plain_name(register), &placed.title),
                    Some(Trouble::NamesOld) => {
                        if !self.toggle(register, &mut placed, &net_name) {
                            let words = format!("{net_name}: its register's next value has more than {MOST_PINS} pins");
                            messages.error(&self.design.file, words);
                        }
                    }
                    Some(Trouble::Roles(pin)) => {
                        let words = format!(
                            "{net_name}: pin {} of the cell {} has two roles (clock, clear or preset, data), which has no \
                             rows here",
                            placed.pin_names[pin], placed.title
                        );
                        messages.error(&self.design.file, words);
                    }
                }
            }
        }
        self.placed.push(placed);
    }

    fn table(&mut self, table: &Table, depths: [u32; 2], title: &str) -> usize {
        let mut usual = usual_name(table);
        if depths == PART {
            // Apart from the cell of the same function with its depth.
            usual = usual.map(|name| format!("{name}P"));
        }
        let known = self.entries.tables.entry((table.clone(), depths));
        let entry = known.or_insert_with(|| table.entry(depths)).clone();
        self.entries.place(entry, usual, title)
    }

    fn part(&mut self, table: &Table, pins: Vec<Source>, of: &str) -> Source {
        self.parts += 1;
        let net = self.design.add_net();
        self.design.nets[net].port = Some(format!("(part {} of {of})", self.parts));
        let entry = self.table(table, PART, "");
        self.placed.push(Placed {
            entry,
            kind: LineKind::Part,
            title: String::new(),
            instance: String::new(),
            pin_names: (1..=pins.len()).map(|pin| format!("I{pin}")).collect(),
            pins,
            output: net,
            source: String::new(),
        });
        Source::Net(net)
    }

    /// Parts of depth 0 below a last gate that fits one cell: the numbers are those of one cell with all pins.
    fn split(&mut self, wide: &Wide, mut pins: Vec<Source>, of: &str) -> (Wide, Vec<Source>) {
        let most = Wide::most_pins(wide.op);
        let mut flipped = wide.flipped.clone();
        while pins.len() > most {
            let mut inner = Vec::new();
            for (pins, flipped) in pins.chunks(most).zip(flipped.chunks(most)) {
                if let ([pin], [false]) = (pins, flipped) {
                    inner.push(*pin);
                    continue;
                }
                let part = Wide { op: wide.op, inverted: false, flipped: flipped.to_vec() };
                inner.push(self.part(&part.table(), pins.to_vec(), of));
            }
            flipped = vec![false; inner.len()];
            pins = inner;
        }
        (Wide { op: wide.op, inverted: wide.inverted, flipped }, pins)
    }

    /// A register whose next value names the old one: the next value is a part that reads the register's own output, and
    /// a plain register follows.
    fn toggle(&mut self, register: &Register, placed: &mut Placed, of: &str) -> bool {
        let n = register.pins;
        let sampled: Vec<usize> = (0..n).filter(|&pin| register.next.depends(pin)).collect();
        if sampled.len() + 1 > MOST_PINS {
            return false;
        }
        let table = Table::of(sampled.len() + 1, |s| {
            let old = (s >> sampled.len() & 1 == 1) != register.inverted;
            let pins = sampled.iter().enumerate().fold(0, |set, (at, &pin)| set | (s >> at & 1) << pin);
            register.next.at(pins | u32::from(old) << n)
        });
        let mut pins: Vec<Source> = sampled.iter().map(|&pin| placed.pins[pin]).collect();
        pins.push(Source::Net(placed.output));
        let data = self.part(&table, pins, of);
        let others: Vec<usize> = (0..n).filter(|pin| !sampled.contains(pin)).collect();
        let count = others.len() + 1;
        // Pin 0 is the data, the others follow in their order.
        let turned = |s: u32| others.iter().enumerate().fold(0, |set, (at, &pin)| set | (s >> (at + 1) & 1) << pin);
        let plain = Register {
            pins: count,
            clock: 1 + others.iter().position(|&pin| pin == register.clock).unwrap_or(0),
            clear: Function::of(count, |s| register.clear.at(turned(s))),
            preset: Function::of(count, |s| register.preset.at(turned(s))),
            next: Function::of(count + 1, |s| s & 1 == 1),
            ..register.clone()
        };
        placed.pin_names = std::iter::once("next".to_string())
            .chain(others.iter().map(|&pin| placed.pin_names[pin].clone()))
            .collect();
        placed.pins = std::iter::once(data).chain(others.iter().map(|&pin| placed.pins[pin])).collect();
        placed.entry = self.entries.place(plain.entry(), None, &placed.title);
        true
    }

    /// Where entries run out, functions are written by others. Drivers, registers and parts stay as they are.
    fn write_fewer(&mut self, most: usize) {
        let read = |wanted: Source| {
            self.placed.iter().flat_map(|placed| &placed.pins).any(|&pin| pin == wanted)
                || self.design.outputs.iter().any(|&(_, source)| source == wanted)
        };
        let known = |table: &Table, depths| {
            let entry = self.entries.tables.get(&(table.clone(), depths));
            entry.is_some_and(|entry| self.entries.places.contains_key(entry))
        };
        let ties = [false, true].into_iter().filter(|&value| read(Source::Constant(value)));
        let ties = ties.filter(|&value| !known(&Table::of(0, |_| value), COMBINATIONAL)).count();
        let all = self.entries.all.len() + ties;
        self.fewer.wanted = all;
        // A netlist of too many lines is refused for them.
        if all <= most || self.placed.len() > MOST_LINES {
            return;
        }
        let tables: Vec<(usize, Table)> = self.functions();
        let mut places = vec![None; self.entries.all.len()];
        let mut functions = Vec::new();
        for (entry, table) in &tables {
            places[*entry] = Some(functions.len());
            functions.push(Written { table: table.clone(), gates: 0, pins_turn: true });
        }
        for placed in &self.placed {
            if let Some(at) = places[placed.entry] {
                functions[at].gates += 1;
                functions[at].pins_turn &= pins_turn(&placed.pins);
            }
        }
        let others = all - functions.len();
        let turns = match fewer::plan(&functions, others, known(&inverter(), PART), most) {
            Ok(turns) => turns,
            Err(left) => {
                self.fewer.left = left;
                return;
            }
        };
        self.fewer.written = turns.iter().flatten().count();
        let mut turned: HashMap<usize, usize> = HashMap::new();
        for at in 0..self.placed.len() {
            if let Some(turn) = places[self.placed[at].entry].and_then(|place| turns[place].as_ref()) {
                self.turn(at, turn, tables[turn.to].0, &mut turned);
            }
        }
        self.entries.drop_unused(&mut self.placed);
    }

    /// The entries that are truth tables with the depth of a gate, of one pin or more.
    fn functions(&self) -> Vec<(usize, Table)> {
        let tables =
            self.entries.tables.iter().filter(|((table, depths), _)| *depths == COMBINATIONAL && table.pins > 0);
        let mut found: Vec<(usize, Table)> =
            tables.map(|((table, _), entry)| (self.entries.places[entry], table.clone())).collect();
        found.sort_by_key(|&(entry, _)| entry);
        found
    }

    /// A gate by another function: inverters before its pins, each once for a net, and one behind it.
    fn turn(&mut self, at: usize, turn: &Turn, entry: usize, turned: &mut HashMap<usize, usize>) {
        let title = self.placed[at].title.clone();
        let pin_names = std::mem::take(&mut self.placed[at].pin_names);
        let pins = std::mem::take(&mut self.placed[at].pins);
        let mut reads: Vec<Source> = turn.pins.iter().map(|&pin| pins[pin]).collect();
        for (place, source) in reads.iter_mut().enumerate() {
            if let (Source::Net(net), 1) = (*source, turn.flips >> place & 1) {
                *source = Source::Net(*turned.entry(net).or_insert_with(|| self.inverted_pin(net)));
            }
        }
        let names = turn.pins.iter().filter_map(|&pin| pin_names.get(pin).cloned()).collect();
        self.entries.gates[entry] += 1;
        if !title.is_empty() && self.entries.types[entry].len() < 50 {
            let how = if turn.inverted || turn.flips != 0 { "by inverters" } else { "by its pins' order" };
            self.entries.types[entry].insert(format!("{title} ({how})"));
        }
        if !turn.inverted {
            let placed = &mut self.placed[at];
            (placed.entry, placed.pins, placed.pin_names) = (entry, reads, names);
            return;
        }
        self.parts += 1;
        self.fewer.inverters += 1;
        let net = self.design.add_net();
        let of = self.design.nets[self.placed[at].output].name().to_string();
        self.design.nets[net].port = Some(format!("(part {} of {of})", self.parts));
        let behind = self.table(&inverter(), PART, "");
        let placed = &mut self.placed[at];
        placed.entry = behind;
        placed.pins = vec![Source::Net(net)];
        placed.pin_names = vec!["I1".to_string()];
        self.placed.push(Placed {
            entry,
            kind: LineKind::Part,
            title: String::new(),
            instance: String::new(),
            pin_names: names,
            pins: reads,
            output: net,
            source: String::new(),
        });
    }

    fn inverted_pin(&mut self, of: usize) -> usize {
        self.fewer.inverters += 1;
        let name = self.design.nets[of].name().to_string();
        let Source::Net(net) = self.part(&inverter(), vec![Source::Net(of)], &name) else {
            unreachable!("a part's net")
        };
        net
    }

    /// Gates before their readers as far as loops allow: parts and gates by a walk from each gate to what it reads.
    fn order(&self) -> Vec<usize> {
        let mut driver: Vec<Option<usize>> = vec![None; self.design.nets.len()];
        for (at, placed) in self.placed.iter().enumerate() {
            if placed.kind != LineKind::Register {
                driver[placed.output] = Some(at);
            }
        }
        let mut seen = vec![false; self.placed.len()];
        let mut order = Vec::new();
        for root in 0..self.placed.len() {
            if self.placed[root].kind == LineKind::Register || seen[root] {
                continue;
            }
            seen[root] = true;
            let mut path = vec![(root, 0)];
            while let Some((at, pin)) = path.last_mut() {
                let placed = &self.placed[*at];
                match placed.pins.get(*pin) {
                    Some(source) => {
                        *pin += 1;
                        if let Source::Net(net) = source {
                            if let Some(below) = driver[*net].filter(|&below| !seen[below]) {
                                seen[below] = true;
                                path.push((below, 0));
                            }
                        }
                    }
                    None => {
                        order.push(*at);
                        path.pop();
                    }
                }
            }
        }
        order
    }

    fn texts(mut self, messages: &mut Messages) -> Result<Texts, Stop> {
        let mut numbers = Numbers { line_of: HashMap::new(), names: Vec::new(), opens: 0 };
        for &net in &self.design.inputs {
            numbers.add(self.design, net, LineKind::Input, None);
        }
        for placed in self.placed.iter().filter(|placed| placed.kind == LineKind::Register) {
            numbers.add(self.design, placed.output, LineKind::Register, Some(placed));
        }
        let order = self.order();
        for &at in &order {
            let placed = &self.placed[at];
            numbers.add(self.design, placed.output, placed.kind, Some(placed));
        }
        let ties = self.ties(&mut numbers);
        let mut gates = String::new();
        for (entry, line) in &ties {
            gates += &format!("gate,@{entry}@,{line}\n");
        }
        let registers = (0..self.placed.len()).filter(|&at| self.placed[at].kind == LineKind::Register);
        let mut opens = Vec::new();
        for at in order.iter().copied().chain(registers) {
            let placed = &self.placed[at];
            let line = numbers.line_of[&placed.output];
            gates += &format!("gate,@{}@,{line}", placed.entry);
            for &pin in &placed.pins {
                gates += &format!(",{}", numbers.read(self.design, pin, &ties, &mut opens));
            }
            gates.push('\n');
        }
        let mut marked = BTreeSet::new();
        let mut outputs = String::new();
        let mut taken = BTreeSet::new();
        let mut own = BTreeSet::new();
        for (at, (name, source)) in self.design.outputs.iter().enumerate() {
            let line = numbers.read(self.design, *source, &ties, &mut opens);
            let row = &mut numbers.names[line - 1];
            row.output = true;
            if self.design.taken.contains(&at) { &mut taken } else { &mut own }.insert(line);
            if row.net != *name && !row.aliases.contains(name) {
                row.aliases.push(name.clone());
            }
            if marked.insert(line) {
                outputs += &format!("output,{line}\n");
            }
        }
        self.tell(&numbers, messages);
        let names = self.entries.names();
        let mut net = String::new();
        for &input in &self.design.inputs {
            net += &format!("input,{}\n", numbers.line_of[&input]);
        }
        // A gate's cell stands as its place between two @ until all cells have their names.
        for line in gates.lines() {
            let mut parts = line.split('@');
            let (head, place, tail) = (parts.next(), parts.next(), parts.next());
            let place: usize = place.and_then(|place| place.parse().ok()).expect("a gate's cell");
            net += head.unwrap_or("");
            net += &names[place];
            net += tail.unwrap_or("");
            net.push('\n');
        }
        for line in &opens {
            net += &format!("open,{line}\n");
        }
        net += &outputs;
        let lib: String = self.entries.all.iter().zip(&names).map(|(entry, name)| entry.text(name)).collect();
        self.limits(&numbers, &lib, &net, messages)?;
        let cells = names
            .into_iter()
            .enumerate()
            .map(|(at, name)| Used {
                name,
                types: self.entries.types[at].iter().cloned().collect(),
                gates: self.entries.gates[at],
            })
            .collect();
        let taken = taken.difference(&own).copied().collect();
        Ok(Texts { lib, net, names: numbers.names, cells, fewer: self.fewer, taken })
    }

    /// The tie gates that pins and outputs need: their entries and lines, by value.
    fn ties(&mut self, numbers: &mut Numbers) -> Vec<(usize, usize)> {
        let mut ties = Vec::new();
        for value in [false, true] {
            let wanted = Source::Constant(value);
            let needed = self.placed.iter().flat_map(|placed| &placed.pins).any(|&pin| pin == wanted)
                || self.design.outputs.iter().any(|&(_, source)| source == wanted);
            if !needed {
                continue;
            }
            let table = Table::of(0, |_| value);
            let entry = self.table(&table, COMBINATIONAL, "");
            let net = self.design.add_net();
            self.design.nets[net].port = Some(format!("(constant {})", u8::from(value)));
            numbers.add(self.design, net, LineKind::Constant, None);
            let line = numbers.line_of[&net];
            numbers.names[line - 1].cell = format!("TIE{}", u8::from(value));
            ties.push((entry, line));
        }
        ties
    }

    /// What a user should know of the netlist.
    fn tell(&self, numbers: &Numbers, messages: &mut Messages) {
        let gates = self.placed.len();
        if gates == 0 {
            messages
                .warn("no gates. A three-state output may have emptied the design: put 'proc; tribuf' before 'synth'");
        }
        let named = self.design.inputs.iter().copied().chain(self.placed.iter().map(|placed| placed.output));
        let hidden = named.filter(|&net| self.design.nets[net].is_hidden()).count();
        if hidden * 10 > numbers.names.len() {
            messages.warn(format!(
                "{hidden} of {} nets have names that the synthesis made up: put 'autoname' before the netlist is written",
                numbers.names.len()
            ));
        }
        let simple = |placed: &&Placed| {
            let usual = self.entries.usual[placed.entry].as_deref();
            matches!(usual, Some("AND2" | "OR2" | "NOT" | "BUF"))
        };
        let combinational = self.placed.iter().filter(|placed| placed.kind == LineKind::Gate);
        let count = combinational.clone().count();
        if count >= 20 && combinational.filter(simple).count() == count {
            messages
                .warn("only AND, OR and NOT cells: XORs and multiplexers taken apart hide lines that can never be set");
        }
        if self.design.initial_values > 0 {
            messages.note(format!(
                "{} initial values are not used: a chip has none when its power comes",
                self.design.initial_values
            ));
        }
    }

    /// All limits that are passed, at once.
    fn limits(&self, numbers: &Numbers, lib: &str, net: &str, messages: &mut Messages) -> Result<(), Stop> {
        let before = messages.errors();
        let file = self.design.file.clone();
        let lines = numbers.names.len();
        if lines > MOST_LINES {
            let count = |kind: LineKind| numbers.names.iter().filter(|name| name.kind == kind).count();
            let told: Vec<String> = LineKind::ALL
                .iter()
                .map(|&(kind, word)| (count(kind), word))
                .filter(|&(count, _)| count > 0)
                .map(|(count, word)| format!("{} {word}{}", grouped(count as u64), if count == 1 { "" } else { "s" }))
                .collect();
            messages.error(
                &file,
                format!(
                    "{} lines, the analyser takes {}\n  {}{}{}",
                    grouped(lines as u64),
                    grouped(MOST_LINES as u64),
                    told.join(", "),
                    self.fewer.lines_told(),
                    helps(lines, self.design)
                ),
            );
        }
        let cells = self.entries.all.len();
        if cells > MOST_CELLS {
            messages.error(
                &file,
                format!("{cells} cells of different function, the analyser takes {MOST_CELLS}{}\n  what helps: map to fewer cells \
                         (abc -g AND,NAND,OR,NOR,XOR,XNOR,MUX), or analyse a block by --top", self.fewer.left_told()),
            );
        }
        for (at, entry) in self.entries.all.iter().enumerate() {
            let types: Vec<&str> = self.entries.types[at].iter().map(String::as_str).take(5).collect();
            let told = if types.is_empty() { "a gate".to_string() } else { format!("the cell {}", types.join(", ")) };
            if entry.pins > MOST_PINS {
                messages.error(&file, format!("{told} has {} pins, the analyser takes {MOST_PINS}", entry.pins));
            }
            if entry.most_rows() > MOST_ROWS {
                messages.error(
                    &file,
                    format!(
                        "{told} has {} ways for one value or pin, the analyser takes {MOST_ROWS} (its inputs: {})",
                        entry.most_rows(),
                        entry.pins
                    ),
                );
            }
        }
        for (text, what) in [(lib, "library"), (net, "netlist")] {
            if text.len() > MOST_BYTES {
                let words = format!(
                    "the {what} comes to {} bytes, the analyser takes {}",
                    grouped(text.len() as u64),
                    grouped(MOST_BYTES as u64)
                );
                messages.error(&file, words);
            }
        }
        if messages.errors() > before {
            return Err(Stop::Refused);
        }
        Ok(())
    }
}

/// The usual names of registers without clear and preset, for formats that have no names of types.
fn plain_name(register: &Register) -> Option<String> {
    let plain = register.pins == 2 && register.clock == 1 && !register.inverted;
    let word = match (register.latch, register.active) {
        (false, true) => "DFF",
        (false, false) => "DFFN",
        (true, true) => "DLATCH",
        (true, false) => "DLATCHN",
    };
    plain.then(|| word.to_string())
}

struct Numbers {
    line_of: HashMap<usize, usize>,
    names: Vec<Name>,
    opens: usize,
}

impl Numbers {
    fn add(&mut self, design: &Design, net: usize, kind: LineKind, placed: Option<&Placed>) {
        let line = self.names.len() + 1;
        self.line_of.insert(net, line);
        let of = &design.nets[net];
        let mut name = Name {
            line,
            net: of.name().to_string(),
            kind,
            cell: String::new(),
            instance: String::new(),
            output: false,
            pins: Vec::new(),
            aliases: of.aliases(),
            source: of.source.clone(),
        };
        if let Some(placed) = placed {
            name.cell = placed.title.clone();
            name.instance = placed.instance.clone();
            name.pins = placed.pin_names.clone();
            if !placed.source.is_empty() {
                name.source = placed.source.clone();
            }
        }
        self.names.push(name);
    }

    /// The line that a pin or an output reads; one that has no driver is declared open.
    fn read(&mut self, design: &Design, source: Source, ties: &[(usize, usize)], opens: &mut Vec<usize>) -> usize {
        match source {
            Source::Constant(value) => {
                let wanted = format!("(constant {})", u8::from(value));
                let tie = ties.iter().find(|&&(_, line)| self.names[line - 1].net == wanted);
                tie.expect("a tie gate").1
            }
            Source::Net(net) => {
                if let Some(&line) = self.line_of.get(&net) {
                    return line;
                }
                self.add(design, net, LineKind::Open, None);
                opens.push(self.line_of[&net]);
                self.line_of[&net]
            }
            Source::Open => {
                self.opens += 1;
                let line = self.names.len() + 1;
                self.names.push(Name {
                    line,
                    net: format!("(open {})", self.opens),
                    kind: LineKind::Open,
                    cell: String::new(),
                    instance: String::new(),
                    output: false,
                    pins: Vec::new(),
                    aliases: Vec::new(),
                    source: String::new(),
                });
                opens.push(line);
                line
            }
        }
    }
}
