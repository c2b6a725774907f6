//! Liberty: what its cells do. Timing, power and the rest are passed over.

use crate::ask::archive::MOST_PINS;
use crate::read::expr::Expr;
use crate::rows::cells::{Cell, Kind};
use crate::rows::registers::{Driver, Function, Register};
use crate::rows::types::inner;
use crate::rows::Table;
use crate::show::messages::Messages;
use std::collections::HashMap;
use std::rc::Rc;

/// A cell of a library as it is written; it becomes cells of the hub when a netlist uses it.
#[derive(Clone, Debug, Default)]
pub struct Written {
    pins: Vec<Pin>,
    state: Option<State>,
    table: Option<StateTable>,
    /// The style of an integrated clock gate.
    gating: Option<String>,
    /// Buses with their directions.
    buses: Vec<(String, String)>,
    /// The control pin of a genlib latch.
    control: Option<String>,
    /// Something that has no rows here.
    odd: Option<&'static str>,
}

#[derive(Clone, Debug, Default)]
struct Pin {
    name: String,
    direction: String,
    function: Option<String>,
    three_state: Option<String>,
    /// The function over pins and a statetable's node.
    state_function: Option<String>,
    internal_node: Option<String>,
    /// What it is to a clock gate: clock, enable, test or out.
    gate_role: Option<&'static str>,
}

/// `statetable ("CK E", "IQ") { table : "L L : - : L, .." }`.
#[derive(Clone, Debug, Default)]
struct StateTable {
    inputs: Vec<String>,
    nodes: Vec<String>,
    rows: String,
}

#[derive(Clone, Debug, Default)]
struct State {
    latch: bool,
    /// The names of the value and its inverse.
    names: [String; 2],
    attributes: HashMap<String, String>,
}

#[derive(Default)]
pub struct Library {
    pub file: String,
    pub cells: HashMap<String, Written>,
}

/// Largest library that is read.
pub const MOST_BYTES: usize = 64 << 20;
const MOST_CELLS: usize = 20_000;
const MOST_DEPTH: usize = 40;
/// Pins of all cells together, attributes of a register, and bytes of a value.
const MOST_PINS_WRITTEN: usize = 200_000;
const MOST_ATTRIBUTES: usize = 100;
const MOST_VALUE: usize = 8_000;

pub fn read(file: &str, text: &str, messages: &mut Messages) -> Library {
    let mut reader = Reader { text: text.as_bytes(), at: 0, line: 1 };
    let mut library = Library { file: file.to_string(), cells: HashMap::new() };
    if let Err(words) = reader.groups(&mut library) {
        let text = text.lines().nth(reader.line - 1).unwrap_or("");
        messages.error_at(file, reader.line, text, words);
    } else if library.cells.is_empty() {
        messages.error(file, "no cell stands here: is it a Liberty library?");
    }
    library
}

#[derive(Debug, PartialEq)]
enum Token {
    /// A word, a number or a string.
    Word(String),
    Mark(u8),
    LineEnd,
}

struct Reader<'a> {
    text: &'a [u8],
    at: usize,
    line: usize,
}

impl Reader<'_> {
    fn peek(&self) -> Option<u8> {
        self.text.get(self.at).copied()
    }

    fn step(&mut self) {
        self.line += usize::from(self.peek() == Some(b'\n'));
        self.at += 1;
    }

    fn starts(&self, words: &[u8]) -> bool {
        self.text[self.at..].starts_with(words)
    }

    /// The next token; a line end counts only where it can end an attribute.
    fn token(&mut self) -> Result<Option<Token>, String> {
        loop {
            match self.peek() {
                None => return Ok(None),
                Some(b'\n') => {
                    self.step();
                    return Ok(Some(Token::LineEnd));
                }
                Some(b'\\') => {
                    // Joins two lines.
                    self.step();
                    while self.peek().is_some_and(|b| b == b' ' || b == b'\t') {
                        self.step();
                    }
                    if self.peek() == Some(b'\n') {
                        self.step();
                    }
                }
                Some(b) if b.is_ascii_whitespace() => self.step(),
                Some(b'/') if self.starts(b"/*") => {
                    let start = self.line;
                    while self.peek().is_some() && !self.starts(b"*/") {
                        self.step();
                    }
                    if self.peek().is_none() {
                        self.line = start;
                        return Err("a comment without its end".to_string());
                    }
                    self.at += 2;
                }
                Some(b'/') if self.starts(b"//") => {
                    while self.peek().is_some_and(|b| b != b'\n') {
                        self.step();
                    }
                }
                Some(b'"') => return self.string().map(Some),
                Some(b @ (b'(' | b')' | b'{' | b'}' | b':' | b';' | b',')) => {
                    self.step();
                    return Ok(Some(Token::Mark(b)));
                }
                Some(_) => {
                    let start = self.at;
                    while self.peek().is_some_and(|b| !b.is_ascii_whitespace() && !b"(){}:;,\"\\".contains(&b)) {
                        self.step();
                    }
                    if self.at - start > MOST_VALUE {
                        return Err("a word of more than 8,000 bytes".to_string());
                    }
                    return Ok(Some(Token::Word(String::from_utf8_lossy(&self.text[start..self.at]).into_owned())));
                }
            }
        }
    }

    fn string(&mut self) -> Result<Token, String> {
        let begun = self.line;
        self.step();
        let mut bytes = Vec::new();
        loop {
            match self.peek() {
                None => {
                    self.line = begun;
                    return Err("a string without its end".to_string());
                }
                Some(b'"') => {
                    self.step();
                    return Ok(Token::Word(String::from_utf8_lossy(&bytes).into_owned()));
                }
                Some(b'\\') if self.text.get(self.at + 1) == Some(&b'"') => {
                    self.step();
                    bytes.push(b'"');
                    self.step();
                }
                Some(b'\\' | b'\n') => self.step(),
                Some(b) => {
                    // Tables of numbers are long and not wanted.
                    if bytes.len() < 8_000 {
                        bytes.push(b);
                    }
                    self.step();
                }
            }
        }
    }

    /// Groups and attributes: `name (arguments) { .. }`, `name (arguments) ;`, `name : value ;`.
    fn groups(&mut self, library: &mut Library) -> Result<(), String> {
        let mut open: Vec<(usize, String)> = Vec::new();
        let mut pins = 0;
        let mut cell: Option<(String, usize, Written)> = None;
        loop {
            let Some(token) = self.token()? else {
                return match open.pop() {
                    None => Ok(()),
                    Some((line, name)) => {
                        self.line = line;
                        Err(format!("the group {name} has no '}}'"))
                    }
                };
            };
            match token {
                Token::LineEnd | Token::Mark(b';') => {}
                Token::Mark(b'}') => {
                    if open.pop().is_none() {
                        return Err("a '}' without its '{'".to_string());
                    }
                    if let Some((name, depth, _)) = &cell {
                        if open.len() < *depth {
                            let name = name.clone();
                            if library.cells.len() >= MOST_CELLS {
                                return Err("more than 20,000 cells".to_string());
                            }
                            let (_, _, written) = cell.take().expect("a cell");
                            library.cells.insert(name, written);
                        }
                    }
                }
                Token::Mark(b) => return Err(format!("'{}' is out of place", char::from(b))),
                Token::Word(name) => {
                    let line = self.line;
                    match self.behind(&name)? {
                        Behind::Attribute(value) => {
                            if let Some((_, depth, written)) = &mut cell {
                                take_attribute(written, &open[*depth - 1..], &name, value);
                            }
                        }
                        Behind::Group(arguments) => {
                            open.push((line, name.clone()));
                            if open.len() > MOST_DEPTH {
                                return Err("more than 40 groups within each other".to_string());
                            }
                            if name == "cell" && cell.is_none() {
                                let title = arguments.first().cloned().unwrap_or_default();
                                cell = Some((title, open.len(), Written::default()));
                            } else if let Some((_, depth, written)) = &mut cell {
                                if open.len() == *depth + 1 {
                                    pins += usize::from(["pin", "bus", "bundle"].contains(&name.as_str()));
                                    if pins > MOST_PINS_WRITTEN {
                                        return Err("more than 200,000 pins".to_string());
                                    }
                                    take_group(written, &name, arguments);
                                }
                            }
                        }
                        Behind::Nothing => {}
                    }
                }
            }
        }
    }

    /// What stands behind a name.
    fn behind(&mut self, name: &str) -> Result<Behind, String> {
        match self.token()? {
            Some(Token::Mark(b':')) => {
                let mut value = String::new();
                loop {
                    match self.token()? {
                        Some(Token::Word(_)) if value.len() > MOST_VALUE => {}
                        Some(Token::Word(word)) => {
                            if !value.is_empty() {
                                value.push(' ');
                            }
                            value.push_str(&word);
                        }
                        Some(Token::LineEnd) if value.is_empty() => {}
                        Some(Token::Mark(b'(' | b')' | b',' | b':')) if value.len() > MOST_VALUE => {}
                        Some(Token::Mark(b @ (b'(' | b')' | b',' | b':'))) => value.push(char::from(b)),
                        Some(Token::Mark(b'}')) => {
                            self.at -= 1;
                            return Ok(Behind::Attribute(value));
                        }
                        Some(Token::Mark(b'{')) => return Err(format!("a '{{' is out of place behind {name}")),
                        None | Some(_) => return Ok(Behind::Attribute(value)),
                    }
                }
            }
            Some(Token::Mark(b'(')) => {
                let arguments = self.arguments(name)?;
                loop {
                    let before = (self.at, self.line);
                    match self.token()? {
                        Some(Token::LineEnd) => {}
                        Some(Token::Mark(b'{')) => return Ok(Behind::Group(arguments)),
                        Some(Token::Mark(b';')) => return Ok(Behind::Nothing),
                        _ => {
                            (self.at, self.line) = before;
                            return Ok(Behind::Nothing);
                        }
                    }
                }
            }
            Some(Token::Mark(b'{')) => Ok(Behind::Group(Vec::new())),
            Some(_) | None => Err(format!("behind {name} a ':' or '(' is missing")),
        }
    }

    fn arguments(&mut self, name: &str) -> Result<Vec<String>, String> {
        let begun = self.line;
        let mut arguments = Vec::new();
        loop {
            match self.token()? {
                Some(Token::Word(word)) => {
                    if arguments.len() < 4 {
                        arguments.push(word);
                    }
                }
                Some(Token::Mark(b')')) => return Ok(arguments),
                Some(Token::Mark(b',' | b':') | Token::LineEnd) => {}
                Some(Token::Mark(_)) | None => {
                    self.line = begun;
                    return Err(format!("the arguments of {name} have no ')'"));
                }
            }
        }
    }
}

enum Behind {
    Attribute(String),
    Group(Vec<String>),
    Nothing,
}

fn take_group(cell: &mut Written, name: &str, arguments: Vec<String>) {
    let argument = |at: usize| arguments.get(at).cloned().unwrap_or_default();
    match name {
        "pin" => cell.pins.push(Pin { name: argument(0), ..Pin::default() }),
        "ff" | "latch" => {
            if cell.state.is_some() {
                cell.odd = Some("two groups ff or latch");
            }
            cell.state = Some(State { latch: name == "latch", names: [argument(0), argument(1)], ..State::default() });
        }
        "ff_bank" | "latch_bank" => cell.odd = Some("a bank of registers"),
        "statetable" if cell.table.is_some() => cell.odd = Some("two statetables"),
        "statetable" => {
            let words = |at: usize| argument(at).split_whitespace().map(str::to_string).collect();
            cell.table = Some(StateTable { inputs: words(0), nodes: words(1), rows: String::new() });
        }
        "bus" | "bundle" => {
            cell.odd = Some("a bus or bundle of pins");
            cell.buses.push((argument(0), String::new()));
        }
        _ => {}
    }
}

/// `open` begins with the cell's own group.
fn take_attribute(cell: &mut Written, open: &[(usize, String)], name: &str, value: String) {
    if open.len() == 1 && name == "clock_gating_integrated_cell" {
        cell.gating = Some(value);
        return;
    }
    let [_, group] = open else { return };
    match group.1.as_str() {
        "pin" => {
            let Some(pin) = cell.pins.last_mut() else { return };
            match name {
                "direction" => pin.direction = value,
                "function" => pin.function = Some(value),
                "three_state" => pin.three_state = Some(value),
                "state_function" => pin.state_function = Some(value),
                "internal_node" => pin.internal_node = Some(value),
                "clock_gate_clock_pin" if value == "true" => pin.gate_role = Some("clock"),
                "clock_gate_enable_pin" if value == "true" => pin.gate_role = Some("enable"),
                "clock_gate_test_pin" if value == "true" => pin.gate_role = Some("test"),
                "clock_gate_out_pin" if value == "true" => pin.gate_role = Some("out"),
                _ => {}
            }
        }
        "bus" | "bundle" if name == "direction" => {
            if let Some((_, direction)) = cell.buses.last_mut() {
                *direction = value;
            }
        }
        "statetable" if name == "table" => {
            if let Some(table) = cell.table.as_mut() {
                table.rows = value;
            }
        }
        "ff" | "latch" => {
            if let Some(state) = cell.state.as_mut().filter(|state| state.attributes.len() < MOST_ATTRIBUTES) {
                state.attributes.insert(name.to_string(), value);
            }
        }
        _ => {}
    }
}

/// A cell with its outputs, and the names of its input pins; or why it has no rows.
pub type Made = Result<(Vec<Rc<Cell>>, Vec<String>), String>;

impl Written {
    fn of(inputs: Vec<String>, output: &str, function: &str) -> Written {
        let pin = |name: String| Pin { name, direction: "input".to_string(), ..Pin::default() };
        let mut pins: Vec<Pin> = inputs.into_iter().map(pin).collect();
        let (name, function) = (output.to_string(), Some(function.to_string()));
        pins.push(Pin { name, direction: "output".to_string(), function, ..Pin::default() });
        Written { pins, ..Written::default() }
    }

    /// A gate of one output.
    pub fn plain(inputs: Vec<String>, output: &str, function: &str) -> Written {
        Written::of(inputs, output, function)
    }

    /// A register or latch of one output; `state` names its old value.
    pub fn register(
        mut inputs: Vec<String>,
        output: &str,
        next: &str,
        latch: bool,
        active: bool,
        control: &str,
        state: &str,
    ) -> Written {
        inputs.push(control.to_string());
        let [data, clock] = if latch { ["data_in", "enable"] } else { ["next_state", "clocked_on"] };
        let turned = format!("{}\"{control}\"", if active { "" } else { "!" });
        let attributes = [(data.to_string(), next.to_string()), (clock.to_string(), turned)].into_iter().collect();
        let state = State { latch, names: [state.to_string(), String::new()], attributes };
        let function = format!("\"{}\"", state.names[0]);
        let control = Some(control.to_string());
        Written { state: Some(state), control, ..Written::of(inputs, output, &function) }
    }

    /// The control pin of a genlib latch.
    pub fn control(&self) -> Option<&str> {
        self.control.as_deref()
    }

    /// Whether a pin, or the bus that it is a bit of, drives; None where that is not said.
    pub fn drives(&self, pin: &str) -> Option<bool> {
        let own = self.pins.iter().find(|other| other.name == pin).map(|own| own.direction.as_str());
        let of = pin.split('[').next().unwrap_or(pin);
        let bus = || self.buses.iter().find(|(name, _)| name == of).map(|(_, direction)| direction.as_str());
        match own.or_else(bus)? {
            "output" => Some(true),
            "input" => Some(false),
            _ => None,
        }
    }

    pub fn cells(&self, title: &str) -> Made {
        if let Some(odd) = self.odd {
            return Err(format!("the cell {title} has {odd}, which has no rows here"));
        }
        let inputs: Vec<String> = self
            .pins
            .iter()
            .filter(|pin| pin.direction == "input" || pin.direction == "inout")
            .map(|pin| pin.name.clone())
            .collect();
        let told = |pin: &str, words: String| format!("the cell {title}, pin {pin}: {words}");
        let make = |pins: Vec<String>, output: &str, kind: Kind| {
            Rc::new(Cell { title: title.to_string(), pins, output: output.to_string(), kind })
        };
        let mut cells = Vec::new();
        for node in self.inner_nodes() {
            let (pins, kind) =
                self.inner_register(&inputs, &node).map_err(|words| format!("the cell {title}: {words}"))?;
            cells.push(make(pins, &inner(&node), kind));
        }
        for pin in &self.pins {
            let function = self.shown_function(pin);
            let Some(function) = &function else { continue };
            if pin.direction == "input" || pin.direction == "internal" {
                continue;
            }
            let (pins, kind) =
                self.output(&inputs, function, pin.three_state.as_deref()).map_err(|words| told(&pin.name, words))?;
            cells.push(make(pins, &pin.name, kind));
        }
        let outputs = self.pins.iter().filter(|pin| pin.direction == "output" || pin.direction == "inout");
        if cells.is_empty() && outputs.count() > 0 {
            return Err(format!("the cell {title} has an output without a function"));
        }
        Ok((cells, inputs))
    }

    fn output(
        &self,
        inputs: &[String],
        function: &str,
        three_state: Option<&str>,
    ) -> Result<(Vec<String>, Kind), String> {
        let function = Expr::parse(function)?;
        let names = function.names();
        if let Some(state) = &self.state {
            if names.iter().any(|name| state.names.contains(name)) && !mixes(state, &names) {
                if three_state.is_some() {
                    return Err("a register with a three-state output has no rows here".to_string());
                }
                return state.register(inputs, &function);
            }
        }
        let off = three_state.map(Expr::parse).transpose()?;
        let mut used = names;
        for name in off.iter().flat_map(Expr::names) {
            if !used.contains(&name) {
                used.push(name);
            }
        }
        // A register inside the cell is a pin of this function, at its value or its inverse.
        let nodes = self.inner_nodes();
        let inverse = self.state.as_ref().map_or("", |state| state.names[1].as_str());
        let mut known = inputs.to_vec();
        known.extend(nodes.iter().cloned());
        for name in &mut used {
            if name == inverse && !nodes.is_empty() {
                *name = nodes[0].clone();
            }
        }
        used.dedup();
        let pins = in_order(&known, &used)?;
        let value = |s: u32, name: &str| {
            if name == inverse && !nodes.is_empty() {
                !bit_of(&pins, s, &nodes[0])
            } else {
                bit_of(&pins, s, name)
            }
        };
        let table = |expr: &Expr, turned: bool| Table::of(pins.len(), |s| expr.value(&|name| value(s, name)) != turned);
        let data = table(&function, false);
        let kind = match off {
            None => Kind::Table(data),
            Some(off) => Kind::Driver(Driver { data, enable: table(&off, true) }),
        };
        let shown = |pin: &String| if nodes.contains(pin) { inner(pin) } else { pin.clone() };
        Ok((pins.iter().map(shown).collect(), kind))
    }

    /// What an output shows: its function, over a statetable's node too, or what a clock gate does by its style.
    fn shown_function(&self, pin: &Pin) -> Option<String> {
        let node = pin.internal_node.clone().filter(|_| pin.direction == "output");
        let shown = pin.function.clone().or_else(|| pin.state_function.clone()).or(node);
        if shown.is_some() || pin.gate_role != Some("out") || self.gating.is_none() {
            return shown;
        }
        let clock = self.role("clock")?;
        Some(match (self.role("test"), self.style("_postcontrol")) {
            (Some(test), true) => format!("\"{clock}\" & ({GATE_NODE} | \"{test}\")"),
            _ => format!("\"{clock}\" & {GATE_NODE}"),
        })
    }

    fn style(&self, word: &str) -> bool {
        self.gating.as_ref().is_some_and(|style| style.contains(word))
    }

    fn role(&self, role: &str) -> Option<&str> {
        self.pins.iter().find(|pin| pin.gate_role == Some(role)).map(|pin| pin.name.as_str())
    }

    /// Registers that an output reads beside pins.
    fn inner_nodes(&self) -> Vec<String> {
        if let Some(table) = &self.table {
            return table.nodes.clone();
        }
        if let Some(state) = &self.state {
            let mixed = self
                .pins
                .iter()
                .filter_map(|pin| self.shown_function(pin))
                .any(|function| Expr::parse(&function).is_ok_and(|expr| mixes(state, &expr.names())));
            return if mixed { vec![state.names[0].clone()] } else { Vec::new() };
        }
        let by_style = self.gating.is_some() && !self.pins.iter().any(|pin| pin.function.is_some());
        if by_style {
            vec![GATE_NODE.to_string()]
        } else {
            Vec::new()
        }
    }

    fn inner_register(&self, inputs: &[String], node: &str) -> Result<(Vec<String>, Kind), String> {
        if let Some(table) = &self.table {
            return table.latch(inputs);
        }
        if let Some(state) = &self.state {
            return state.register(inputs, &Expr::Name(node.to_string()));
        }
        let style = self.gating.as_deref().unwrap_or("");
        if !style.starts_with("latch_posedge") {
            return Err(format!(
                "the clock gate {style} has no rows here: give the cell a statetable or a latch, and its output a function"
            ));
        }
        let missing = |role: &str| format!("its clock gate has no pin with clock_gate_{role}_pin");
        let clock = self.role("clock").ok_or_else(|| missing("clock"))?;
        let enable = self.role("enable").ok_or_else(|| missing("enable"))?;
        let data = match self.role("test") {
            Some(test) if self.style("_precontrol") => format!("\"{enable}\" | \"{test}\""),
            _ => format!("\"{enable}\""),
        };
        let attributes = [("data_in", data), ("enable", format!("!\"{clock}\""))];
        let attributes = attributes.map(|(name, value)| (name.to_string(), value)).into_iter().collect();
        let state = State { latch: true, names: [node.to_string(), String::new()], attributes };
        state.register(inputs, &Expr::Name(node.to_string()))
    }
}

/// The node of a clock gate that has its style alone.
const GATE_NODE: &str = "gate_latch";

fn mixes(state: &State, names: &[String]) -> bool {
    let own = |name: &String| state.names.contains(name);
    names.iter().any(own) && !names.iter().all(own)
}

impl StateTable {
    /// The latch that the table is: at one value of a pin it holds, at the other it follows the other pins.
    fn latch(&self, inputs: &[String]) -> Result<(Vec<String>, Kind), String> {
        if self.nodes.len() != 1 {
            return Err("a statetable of several nodes has no rows here: give the cell ff or latch groups".to_string());
        }
        let pins = in_order(inputs, &self.inputs)?;
        let n = pins.len();
        let mut rows = Vec::new();
        for row in self.rows.split(',').filter(|row| !row.trim().is_empty()) {
            let parts: Vec<Vec<&str>> = row.split(':').map(|part| part.split_whitespace().collect()).collect();
            let [values, old, next] = parts.as_slice() else {
                return Err(format!("its statetable has the row '{}', which is no INPUTS : NODE : NEXT", row.trim()));
            };
            let edge = |word: &&str| !["L", "H", "-", "L/H", "H/L"].contains(word);
            if let Some(word) = values.iter().chain(old).find(|word| edge(word)) {
                return Err(format!(
                    "its statetable has '{word}', an edge, which has no rows here: give the cell an ff group"
                ));
            }
            if values.len() != self.inputs.len() || old.len() != 1 || next.len() != 1 {
                return Err(format!("its statetable's row '{}' has not a value for each pin", row.trim()));
            }
            if !["L", "H", "N"].contains(&next[0]) {
                return Err(format!("its statetable gives '{}', which has no rows here", next[0]));
            }
            rows.push((values.clone(), old[0], next[0]));
        }
        let fits = |word: &str, bit: bool| match word {
            "L" => !bit,
            "H" => bit,
            _ => true,
        };
        // The first row that fits; what no row says is no latch.
        let next = |s: u32| -> Option<bool> {
            let old = s >> n & 1 == 1;
            let (_, _, next) = rows.iter().find(|(values, own, _)| {
                let pins_fit = self.inputs.iter().zip(values).all(|(pin, word)| fits(word, bit_of(&pins, s, pin)));
                pins_fit && fits(own, old)
            })?;
            Some(match *next {
                "L" => false,
                "H" => true,
                _ => old,
            })
        };
        let all: Vec<Option<bool>> = (0..2u32 << n).map(next).collect();
        if all.contains(&None) {
            return Err(
                "its statetable leaves settings out, which has no rows here: give the cell a latch group".to_string()
            );
        }
        let at = |s: u32| all[s as usize] == Some(true);
        let is_gate = |pin: usize, active: bool| {
            (0..1u32 << n).all(|s| {
                let (low, high) = (at(s), at(s | 1 << n));
                if (s >> pin & 1 == 1) == active {
                    low == high
                } else {
                    !low && high
                }
            })
        };
        let found = (0..n).flat_map(|pin| [(pin, false), (pin, true)]).find(|&(pin, active)| is_gate(pin, active));
        let Some((clock, active)) = found else {
            return Err(
                "its statetable is no latch with one gate pin, which has no rows here: give the cell ff or latch \
                        groups"
                    .to_string(),
            );
        };
        let open = |s: u32| if active { s | 1 << clock } else { s & !(1 << clock) };
        let register = Register {
            pins: n,
            clock,
            active,
            latch: true,
            clear: Function::of(n, |_| false),
            preset: Function::of(n, |_| false),
            next: Function::of(n + 1, |s| at(open(s))),
            inverted: false,
        };
        Ok((pins, Kind::Register(register)))
    }
}

fn bit_of(pins: &[String], setting: u32, name: &str) -> bool {
    pins.iter().position(|pin| pin == name).is_some_and(|at| setting >> at & 1 == 1)
}

/// The cell's input pins that are used, in the cell's order.
fn in_order(inputs: &[String], used: &[String]) -> Result<Vec<String>, String> {
    if let Some(strange) = used.iter().find(|name| !inputs.contains(name)) {
        return Err(format!("its function names {strange}, which is no input pin"));
    }
    let pins: Vec<String> = inputs.iter().filter(|pin| used.contains(pin)).cloned().collect();
    if pins.len() > MOST_PINS {
        return Err(format!("its function has {} pins, the analyser takes {MOST_PINS}", pins.len()));
    }
    Ok(pins)
}

impl State {
    fn expr(&self, name: &str) -> Result<Option<Expr>, String> {
        self.attributes.get(name).map(|text| Expr::parse(text)).transpose()
    }

    fn register(&self, inputs: &[String], function: &Expr) -> Result<(Vec<String>, Kind), String> {
        let [value, inverse] = &self.names;
        // The output follows the value or its inverse, and nothing else.
        let shown = |q: bool| function.value(&|name| if name == inverse { !q } else { q });
        if function.names().iter().any(|name| name != value && name != inverse) || shown(false) == shown(true) {
            return Err("its function mixes the register's value with pins, which has no rows here".to_string());
        }
        let [data, clock] = if self.latch { ["data_in", "enable"] } else { ["next_state", "clocked_on"] };
        let missing = |name: &str| format!("its register has no {name}");
        let next = self.expr(data)?.ok_or_else(|| missing(data))?;
        let clock = self.expr(clock)?.ok_or_else(|| missing(clock))?;
        let [clear, preset] = [self.expr("clear")?, self.expr("preset")?];
        if self.attributes.contains_key("clocked_on_also") {
            return Err("a register with two clocks has no rows here".to_string());
        }
        let clock_names = clock.names();
        let [clock_pin] = clock_names.as_slice() else {
            return Err("its clock is an expression of several pins, which has no rows here".to_string());
        };
        let mut used = next.names();
        used.retain(|name| name != value && name != inverse);
        for expr in [Some(&clock), clear.as_ref(), preset.as_ref()].into_iter().flatten() {
            used.extend(expr.names());
        }
        let pins = in_order(inputs, &used)?;
        let n = pins.len();
        let of = |s: u32, name: &str| {
            let old = s >> n & 1 == 1;
            if name == value {
                old
            } else if name == inverse {
                !old
            } else {
                bit_of(&pins, s, name)
            }
        };
        let over_pins = |expr: &Option<Expr>| {
            Function::of(n, |s| expr.as_ref().is_some_and(|expr| expr.value(&|name| of(s, name))))
        };
        let place = pins.iter().position(|pin| pin == clock_pin).unwrap_or(0);
        Ok((
            pins.clone(),
            Kind::Register(Register {
                pins: n,
                clock: place,
                active: clock.value(&|_| true),
                latch: self.latch,
                clear: over_pins(&clear),
                preset: over_pins(&preset),
                next: Function::of(n + 1, |s| next.value(&|name| of(s, name))),
                inverted: shown(false),
            }),
        ))
    }
}

#[cfg(test)]
mod tests {
    use super::*;

    fn library(text: &str) -> (Library, String) {
        let mut messages = Messages::new();
        let library = read("l.lib", text, &mut messages);
        (library, messages.text())
    }

    const SMALL: &str = "library(small) { /* a\n comment */ time_unit : \"1ns\"\n // another\n
        cell (FAX1) { area : 1.5; pin(A){direction:input;} pin(B) { direction : input } pin(\"C\") {direction : \"input\";}
          pin(YC) { direction : output; function : \"(A B) + \\\n (C (A + B))\";
             timing() { values (\"1, 2\", \\\n \"3, 4\"); related_pin : \"A\"; } }
          pin(YS) { direction : output; function : \"A^B^C\"; } }
        cell (DFFSR) { ff (P0002,P0003) { next_state : \"D\"; clocked_on : \"CLK\"; clear : \"(!R)\"; preset : \"(!S)\"; }
          pin(D) {direction:input;} pin(CLK) {direction:input;clock:true;} pin(R) {direction:input;}
          pin(S) {direction:input;} pin(Q) {direction:output;function:\"P0002\";} pin(QN) {direction:output;function:\"P0003\";} }
        cell (TBUF) { pin(A) {direction:input;} pin(EN) {direction:input;}
          pin(Y) {direction:output;function:\"A'\";three_state:\"!EN\";} }
        cell (TIE) { pin(Y) {direction:output;function:\"1\";} }
        cell (BUSY) { bus (A) { bus_type : b4; } pin(Y) {direction:output; function:\"A\";} }
        cell (GATED) { latch(IQ,IQN) { data_in:\"D\"; enable:\"G E\"; } pin(D){direction:input;} pin(G){direction:input;}
          pin(E){direction:input;} pin(Q){direction:output;function:\"IQ\";} }
        }";

    const GATES: &str = r#"library(gates) {
        cell (ICG) { clock_gating_integrated_cell : "latch_posedge_precontrol";
          statetable("CK E TE", "IQ") { table : "L L L : - : L , L H - : - : H , L L H : - : H , \
 H - - : - : N "; }
          pin(CK) {direction:input; clock_gate_clock_pin:true;} pin(E) {direction:input; clock_gate_enable_pin:true;}
          pin(TE) {direction:input; clock_gate_test_pin : true;} pin(IQ) {direction:internal; internal_node:"IQ";}
          pin(GCK) {direction:output; clock_gate_out_pin:true; state_function:"CK * IQ";} }
        cell (ICGL) { latch(IQ,IQN) { enable:"!CK"; data_in:"E + TE"; } pin(CK) {direction:input;} pin(E) {direction:input;}
          pin(TE) {direction:input;} pin(GCK) {direction:output; function:"CK & !IQN";} }
        cell (ICGS) { clock_gating_integrated_cell : latch_posedge_precontrol; pin(CK) {direction:input; clock_gate_clock_pin:true;}
          pin(E) {direction:input; clock_gate_enable_pin:true;} pin(TE) {direction:input; clock_gate_test_pin : true;}
          pin(GCK) {direction:output; clock_gate_out_pin:true;} }
        cell (ICGE) { statetable("CK D", "IQ") { table : "R L : - : L, R H : - : H, ~R - : - : N"; } pin(CK) {direction:input;}
          pin(D) {direction:input;} pin(Q) {direction:output; internal_node:"IQ";} }
        cell (IOPAD) { pin(A) {direction:input;} pin(EN) {direction:input;} pin(Y) {direction:output; function:"PAD";}
          pin(PAD) {direction:inout; function:"A"; three_state:"!EN";} }
        }"#;

    #[test]
    fn clock_gates_and_pads() {
        let (library, said) = library(GATES);
        assert_eq!(said, "");
        // A clock gate in three forms: a latch that is open at clock 0, and an AND.
        for name in ["ICG", "ICGL", "ICGS"] {
            let (cells, inputs) = library.cells[name].cells(name).unwrap();
            assert_eq!(inputs, ["CK", "E", "TE"], "{name}");
            let [latch, gate] = &cells[..] else { panic!("{name}") };
            assert!(latch.output.starts_with('(') && gate.pins == ["CK", &latch.output], "{name}: {gate:?}");
            let Kind::Register(register) = &latch.kind else { panic!("{name}") };
            assert!(register.latch && !register.active && register.clock == 0, "{name}");
            let whole = |s: u32| if s & 1 == 1 { s >> 3 & 1 == 1 } else { s & 6 != 0 };
            for s in (0..16).filter(|s| s & 1 == 0) {
                assert_eq!(register.next.at(s), whole(s), "{name}");
            }
            let Kind::Table(table) = &gate.kind else { panic!("{name}") };
            assert_eq!(table.digits(), "0001", "{name}");
        }
        assert!(library.cells["ICGE"].cells("ICGE").unwrap_err().contains("an edge"));
        // A pad: what it drives, and what it reads.
        let (cells, inputs) = library.cells["IOPAD"].cells("IOPAD").unwrap();
        assert_eq!((cells.len(), inputs.len()), (2, 3));
    }

    #[test]
    fn cells_of_a_library() {
        let (library, said) = library(SMALL);
        assert_eq!(said, "");
        assert_eq!(library.cells.len(), 6);
        let (cells, inputs) = library.cells["FAX1"].cells("FAX1").unwrap();
        assert_eq!(inputs, ["A", "B", "C"]);
        assert_eq!(cells.len(), 2);
        let Kind::Table(carry) = &cells[0].kind else { panic!() };
        assert_eq!(carry.digits(), "00010111");
        let (cells, _) = library.cells["DFFSR"].cells("DFFSR").unwrap();
        assert_eq!(cells[0].pins, ["D", "CLK", "R", "S"]);
        let Kind::Register(register) = &cells[0].kind else { panic!() };
        let text = register.entry().text("DFFSR");
        assert!(text.contains("CC,62,M,552,54,M,352\nCO,4152,5552,M,6352,5062,6054\n"), "{text}");
        let Kind::Register(turned) = &cells[1].kind else { panic!() };
        assert!(turned.inverted);
        let (cells, _) = library.cells["TBUF"].cells("TBUF").unwrap();
        let Kind::Driver(driver) = &cells[0].kind else { panic!() };
        assert!(driver.entry().text("T").contains("CC,13,23\nCO,203,201\n"));
        let (cells, _) = library.cells["TIE"].cells("TIE").unwrap();
        assert!(cells[0].pins.is_empty());
        assert!(library.cells["BUSY"].cells("BUSY").unwrap_err().contains("bus"));
        assert!(library.cells["GATED"].cells("GATED").unwrap_err().contains("clock"));
    }

    #[test]
    fn bad_libraries() {
        for (text, words) in [
            ("", "no cell"),
            ("library(a) {", "no '}'"),
            ("library(a) { cell(b) { } } }", "without its '{'"),
            ("library(a) { /* ", "comment"),
            ("library(a) { x : \"abc", "string"),
            ("library(a) { x y }", "':' or '('"),
            ("library(a { }", "no ')'"),
            (&"a(b){".repeat(1_000), "40"),
        ] {
            let (_, said) = library(text);
            assert!(said.contains(words), "{text}: {said}");
        }
    }
}
