//! .bench, as ISCAS and as ABC write it.

use crate::ask::archive::MOST_PINS;
use crate::read::blif::put_clock;
use crate::read::blocks::{Block, Tree};
use crate::read::hub::{too_many, Design, Gate, Lines, Source, MOST_NETS};
use crate::rows::cells::{self, Cell, Kind};
use crate::rows::types::Types;
use crate::rows::Table;
use crate::show::cost::grouped;
use crate::show::messages::Messages;
use std::collections::HashMap;
use std::rc::Rc;

pub use crate::read::blif::Wanted;

pub fn read(file: &str, text: &str, wanted: &Wanted, messages: &mut Messages) -> Design {
    let lines = Lines { file, text };
    let mut reader = Reader {
        lines: &lines,
        messages,
        design: Design { file: file.to_string(), ..Design::default() },
        nets: HashMap::new(),
        clockless: Vec::new(),
        input_lines: HashMap::new(),
    };
    if !fits(&mut reader.design, text, reader.messages) {
        return reader.design;
    }
    for (at, line) in text.lines().enumerate() {
        let line = line.split('#').next().unwrap_or("").trim();
        if !line.is_empty() {
            reader.line(at + 1, line);
        }
        if reader.messages.full() || reader.design.full() {
            break;
        }
    }
    if reader.design.full() {
        reader.messages.error(file, too_many());
    }
    let Reader { mut design, nets, clockless, messages, .. } = reader;
    put_clock(&mut design, &clockless, wanted.clock, |name| nets.get(name).copied(), messages);
    if messages.errors() == 0 {
        design.settle(&lines, wanted.allow_open, messages);
    }
    design
}

/// Counts the gates first: a file of far too many is not built.
fn fits(design: &mut Design, text: &str, messages: &mut Messages) -> bool {
    let mut block = Block::default();
    for line in text.lines() {
        let line = line.split('#').next().unwrap_or("").trim_start();
        if line.get(..5).is_some_and(|word| word.eq_ignore_ascii_case("INPUT")) {
            block.inputs += 1;
        } else if line.contains('=') {
            block.gates += 1;
        }
    }
    let file = design.file.clone();
    let mut tree = Tree::default();
    let _ = tree.push(block);
    tree.settle(&mut Types::default());
    tree.parts(&file, 0, design, messages).is_some()
}

struct Reader<'a, 'm> {
    lines: &'a Lines<'a>,
    messages: &'m mut Messages,
    design: Design,
    nets: HashMap<String, usize>,
    clockless: Vec<usize>,
    input_lines: HashMap<usize, usize>,
}

/// `WORD (a, b)`: the word and what stands in the brackets.
fn call(text: &str) -> Option<(&str, Vec<&str>)> {
    let (word, rest) = text.split_once('(')?;
    let inner = rest.trim_end().strip_suffix(')')?;
    // One more than there may be nets, so that too many are told and not lost.
    let arguments: Vec<&str> = inner.split(',').take(MOST_NETS + 1).map(str::trim).collect();
    let none = arguments == [""];
    Some((word.trim(), if none { Vec::new() } else { arguments }))
}

fn is_name(text: &str) -> bool {
    !text.is_empty() && !text.contains(|c: char| c.is_whitespace() || "(),=".contains(c))
}

impl Reader<'_, '_> {
    fn error(&mut self, line: usize, words: impl AsRef<str>) {
        self.lines.error(self.messages, line, words);
    }

    fn net(&mut self, name: &str) -> usize {
        if let Some(&net) = self.nets.get(name) {
            return net;
        }
        let net = self.design.add_net();
        self.design.nets[net].names.push(name.to_string());
        self.nets.insert(name.to_string(), net);
        net
    }

    fn source(&mut self, name: &str) -> Source {
        match name {
            "vdd" | "VDD" => Source::Constant(true),
            "gnd" | "GND" => Source::Constant(false),
            _ => Source::Net(self.net(name)),
        }
    }

    fn line(&mut self, number: usize, line: &str) {
        let Some((output, right)) = line.split_once('=') else {
            return self.port(number, line);
        };
        let output = output.trim();
        if !is_name(output) {
            return self.error(number, "left of '=' stands no name of a net");
        }
        let right = right.trim();
        let net = self.net(output);
        if let Some(word) = (!right.contains('(')).then(|| right.to_ascii_lowercase()) {
            if word == "vdd" || word == "gnd" {
                return self.design.wires.push((net, Source::Constant(word == "vdd"), number));
            }
        }
        let Some((word, arguments)) = call(right) else {
            return self.error(number, "a gate reads NET = WORD(NET, NET, ..)");
        };
        if arguments.len() > MOST_NETS {
            return self.error(number, format!("a gate of more than {} pins", grouped(MOST_NETS as u64)));
        }
        if let Some(bad) = arguments.iter().find(|name| !is_name(name)) {
            return self.error(number, format!("'{bad}' is no name of a net"));
        }
        let pins: Vec<Source> = arguments.iter().map(|name| self.source(name)).collect();
        self.gate(number, net, word, pins);
    }

    fn port(&mut self, number: usize, line: &str) {
        let Some((word, arguments)) = call(line) else {
            return self.error(number, "a line reads INPUT(NET), OUTPUT(NET) or NET = WORD(NET, NET, ..)");
        };
        let [name] = arguments.as_slice() else {
            return self.error(number, format!("{word} names one net"));
        };
        if !is_name(name) {
            return self.error(number, format!("'{name}' is no name of a net"));
        }
        let net = self.net(name);
        match word.to_ascii_uppercase().as_str() {
            "INPUT" => {
                if let Some(other) = self.input_lines.insert(net, number) {
                    return self.error(number, format!("{name} is an input already, by line {other}"));
                }
                self.design.nets[net].port = Some(name.to_string());
                self.design.inputs.push(net);
            }
            "OUTPUT" => {
                self.design.nets[net].port.get_or_insert(name.to_string());
                self.design.outputs.push((name.to_string(), Source::Net(net)));
            }
            _ => self.error(number, format!("{word} is neither INPUT nor OUTPUT")),
        }
    }

    fn gate(&mut self, number: usize, output: usize, word: &str, mut pins: Vec<Source>) {
        let upper = word.to_ascii_uppercase();
        let n = pins.len();
        let one = |value: bool| Kind::Table(Table::of(1, |s| (s == 1) == value));
        let kind = match upper.as_str() {
            "NOT" | "INV" if n == 1 => one(false),
            "BUF" | "BUFF" if n == 1 => one(true),
            "DFF" if n == 1 => cells::plain_register(true),
            "DFFRSE" if n == 5 => {
                if pins[1..].iter().any(|&pin| pin != Source::Constant(false)) {
                    return self
                        .error(number, "a DFFRSE whose reset, set or enable is used is not read here: use BLIF");
                }
                pins.truncate(1);
                cells::plain_register(true)
            }
            "NOT" | "INV" | "BUF" | "BUFF" | "DFF" | "DFFRSE" => {
                return self.error(number, format!("{word} has {n} pins"));
            }
            "AND" | "NAND" | "OR" | "NOR" | "XOR" | "XNOR" if n >= 2 => cells::gate_by_word(&upper, n).expect("a gate"),
            "AND" | "OR" | "XOR" if n == 1 => one(true),
            "NAND" | "NOR" | "XNOR" if n == 1 => one(false),
            _ => match upper.strip_prefix("LUT") {
                Some(digits) => return self.lut(number, output, digits.trim(), pins),
                None => return self.error(number, format!("{word} is no gate of .bench")),
            },
        };
        let mut names: Vec<String> = (1..=n).map(|at| format!("I{at}")).collect();
        let mut title = upper;
        if matches!(kind, Kind::Register(_)) {
            self.clockless.push(self.design.gates.len());
            names = vec!["D".to_string(), "C".to_string()];
            pins.push(Source::Open);
            title = "DFF".to_string();
        }
        self.add(number, Cell { title, pins: names, output: "O".to_string(), kind }, pins, output);
    }

    /// ABC's table: the first input is the lightest.
    fn lut(&mut self, number: usize, output: usize, digits: &str, pins: Vec<Source>) {
        let n = pins.len();
        let bits: Option<Vec<bool>> = digits.strip_prefix("0X").map(|hex| {
            let nibbles = hex.bytes().rev().map(|b| char::from(b).to_digit(16));
            nibbles
                .map(|nibble| nibble.map(|nibble| (0..4).map(move |at| nibble >> at & 1 == 1)))
                .collect::<Option<Vec<_>>>()
                .map(|nibbles| nibbles.into_iter().flatten().collect::<Vec<bool>>())
                .unwrap_or_default()
        });
        let Some(bits) = bits.filter(|bits| !bits.is_empty()) else {
            return self.error(number, "a table reads LUT 0xHEX ( NET, .. )");
        };
        if n > MOST_PINS {
            return self.error(number, format!("a table of {n} inputs, the analyser takes {MOST_PINS}"));
        }
        if bits.iter().skip(1 << n).any(|&bit| bit) {
            return self.error(number, format!("the table has more values than {n} inputs have settings"));
        }
        let table = Table::of(n, |s| bits.get(s as usize).copied().unwrap_or(false));
        match (n, table.digits().as_str()) {
            (0, digits) => self.design.wires.push((output, Source::Constant(digits == "1"), number)),
            (1, "01") => self.design.wires.push((output, pins[0], number)),
            _ => {
                let names = (1..=n).map(|at| format!("I{at}")).collect();
                let cell =
                    Cell { title: "LUT".to_string(), pins: names, output: "O".to_string(), kind: Kind::Table(table) };
                self.add(number, cell, pins, output);
            }
        }
    }

    fn add(&mut self, line: usize, cell: Cell, pins: Vec<Source>, output: usize) {
        let instance = String::new();
        let source = String::new();
        self.design.gates.push(Gate { cell: Rc::new(cell), instance, pins, output, source, line });
    }
}

#[cfg(test)]
mod tests {
    use super::*;

    fn design(text: &str) -> (Design, String) {
        let mut messages = Messages::new();
        let wanted = Wanted::default();
        let design = read("c.bench", text, &wanted, &mut messages);
        (design, messages.text())
    }

    #[test]
    fn a_chip() {
        let (design, said) = design(
            "# c\nINPUT( a )\ninput(b)\nOUTPUT(y)\n\nn = nand (a, b,a)\ny=BUFF(n)\nq = DFF(y)\nr = DFFRSE( q, gnd, gnd, gnd, gnd )\n\
             w = LUT 0x2 ( n )\nl = LUT 0x8 ( w, r )\nz = vdd\nk = AND(z, l)\n",
        );
        assert!(said.starts_with("note: 2 registers have no clock"), "{said}");
        assert_eq!(design.gates.len(), 6);
        assert_eq!(design.nets[design.inputs[2]].name(), "(clock)");
        let Kind::Table(table) = &design.gates[4].cell.kind else { panic!() };
        assert_eq!(table.digits(), "0001");
        assert_eq!(design.gates[4].pins[0], Source::Net(design.gates[0].output));
        assert_eq!(design.gates[5].pins[0], Source::Constant(true));
    }

    #[test]
    fn errors_with_their_lines() {
        let (_, said) =
            design("INPUT(a)\nOUTPUT y\nb = FOO(a)\nc = NOT(a, a)\n= NOT(a)\nd = AND(a, )\ne = LUT 0xg (a)\n");
        for line in 2..=7 {
            assert!(said.contains(&format!("c.bench:{line}: error: ")), "{line}: {said}");
        }
        let (_, said) = design("INPUT(a)\nINPUT(b)\nOUTPUT(y)\ny = NOT(a)\ny = NOT(b)\n");
        assert!(said.contains("c.bench:5: error: y is driven already, by line 4\n    y = NOT(b)"), "{said}");
        let (_, said) = design("OUTPUT(y)\ny = NOT(a)\n");
        assert!(said.contains("c.bench:2: error: nothing drives a"), "{said}");
    }
}
