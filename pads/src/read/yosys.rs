//! Netlists as Yosys writes them in JSON, flattened below the chip.

use crate::read::blocks::{Block, Tree};
use crate::read::boxes::Boxed;
use crate::read::hub::{too_many, Design, Lines, Source};
use crate::read::json::{self, Value, Wrong};
use crate::rows::cells::{Cell, Kind};
use crate::rows::types::{add_gates, Place, Type, Types, Unknown};
use crate::rows::Table;
use crate::show::messages::Messages;
use crate::show::text::Stop;
use std::borrow::Cow;
use std::collections::HashMap;
use std::rc::Rc;

#[derive(Clone, Default)]
pub struct Wanted<'a> {
    pub top: Option<&'a str>,
    pub allow_open: bool,
}

pub fn read(
    file: &str,
    text: &str,
    wanted: &Wanted,
    types: &mut Types,
    messages: &mut Messages,
) -> Result<Design, Stop> {
    let wrong = |(at, words): Wrong, messages: &mut Messages| {
        let line = 1 + text.as_bytes()[..at.min(text.len())].iter().filter(|&&b| b == b'\n').count();
        let shown = text.lines().nth(line - 1).unwrap_or("");
        messages.error_at(file, line, shown, words);
        Stop::Refused
    };
    let Some(mut tree) = survey(text).map_err(|e| wrong(e, messages))? else {
        messages.error(file, "no modules: is it JSON that Yosys wrote (write_json)?");
        return Err(Stop::Refused);
    };
    tree.settle(types);
    let top = tree.choose(file, wanted.top, types, messages).ok_or(Stop::Refused)?;
    let mut design = Design { file: file.to_string(), name: tree.blocks[top].name.clone(), ..Design::default() };
    design.block = wanted.top.is_some() && tree.blocks.len() > 1;
    let parts = tree.parts(file, top, &mut design, messages).ok_or(Stop::Refused)?;
    // The blocks that are used are kept, the others were only gone over.
    let mut modules: Vec<Option<Value>> = vec![None; tree.blocks.len()];
    let mut values = 0;
    for at in parts {
        let bytes = tree.blocks[at].bytes.clone();
        let from = bytes.start;
        let module =
            json::parse_more(&text[bytes], &mut values).map_err(|(at, words)| wrong((from + at, words), messages))?;
        modules[at] = Some(module);
    }
    let mut reader =
        Reader { file, tree: &tree, modules: &modules, design, messages, open_pins: 0, unknown: Unknown::default() };
    reader.chip(top, types);
    let (mut design, open) = (reader.design, reader.open_pins);
    if open > 0 {
        messages
            .warn(format!("{open} pins are connected to nothing (or to x or z): open lines, which can never be set"));
    }
    if messages.errors() == 0 {
        design.settle(&Lines { file, text: "" }, wanted.allow_open, messages);
    }
    Ok(design)
}

/// The blocks and what is in them; None where there are no modules.
fn survey(text: &str) -> Result<Option<Tree>, Wrong> {
    let mut tree = Tree::default();
    let mut found = false;
    let mut reader = json::Reader::over(text);
    reader.each(0, &mut |reader, name| {
        if name != "modules" {
            return reader.value(1).map(drop);
        }
        found |= reader.each(1, &mut |reader, name| {
            let from = reader.at();
            let mut block = Block { name: name.into_owned(), ..Block::default() };
            let mut is_black = false;
            reader.each(2, &mut |reader, part| survey_part(reader, &part, &mut block, &mut is_black))?;
            block.bytes = from..reader.at();
            if !is_black && !tree.push(block) {
                return Err((from, Tree::too_many()));
            }
            Ok(())
        })?;
        Ok(())
    })?;
    reader.end()?;
    Ok(found.then_some(tree))
}

fn survey_part(reader: &mut json::Reader, part: &str, block: &mut Block, is_black: &mut bool) -> Result<(), Wrong> {
    match part {
        "attributes" => {
            reader.each(3, &mut |reader, name| {
                let value = reader.value(4)?;
                block.marked |= name == "top" && value.is_true();
                *is_black |= (name == "blackbox" || name == "whitebox") && value.is_true();
                Ok(())
            })?;
        }
        "ports" => {
            reader.each(3, &mut |reader, _| {
                let (mut input, mut bits) = (false, 0);
                reader.each(4, &mut |reader, name| {
                    match name.as_ref() {
                        "direction" => input = reader.value(5)?.text() == Some("input"),
                        "bits" => bits = reader.count(5)?,
                        _ => drop(reader.value(5)?),
                    }
                    Ok(())
                })?;
                block.inputs += if input { bits } else { 0 };
                Ok(())
            })?;
        }
        "cells" => {
            reader.each(3, &mut |reader, _| {
                let mut title = None;
                reader.each(4, &mut |reader, name| {
                    let value = reader.value(5)?;
                    if name == "type" {
                        title = value.text().map(str::to_string);
                    }
                    Ok(())
                })?;
                if let Some(title) = title.filter(|title| title != "$scopeinfo") {
                    block.add(&title, 1);
                }
                Ok(())
            })?;
        }
        _ => drop(reader.value(3)?),
    }
    Ok(())
}

struct Reader<'a, 'b, 'm> {
    file: &'b str,
    tree: &'b Tree,
    /// Those that are used, by block.
    modules: &'b [Option<Value<'a>>],
    design: Design,
    messages: &'m mut Messages,
    open_pins: usize,
    unknown: Unknown,
}

/// An instance of a block: what stands before its names, and what each bit is in the chip.
#[derive(Default)]
struct Frame {
    prefix: String,
    nets: HashMap<i64, Source>,
}

impl<'a, 'b> Reader<'a, 'b, '_> {
    fn source(&mut self, bit: &Value, frame: &mut Frame) -> Source {
        match bit.text() {
            Some("0") => return Source::Constant(false),
            Some("1") => return Source::Constant(true),
            Some(_) => return Source::Open,
            None => {}
        }
        match bit.whole() {
            Some(number) => self.net(number, frame),
            None => Source::Open,
        }
    }

    fn net(&mut self, bit: i64, frame: &mut Frame) -> Source {
        if let Some(&source) = frame.nets.get(&bit) {
            return source;
        }
        if self.design.full() {
            // Told once all is read: which net it is does not matter any more.
            return Source::Net(0);
        }
        let net = Source::Net(self.design.add_net());
        frame.nets.insert(bit, net);
        net
    }

    fn chip(&mut self, top: usize, types: &mut Types) {
        let mut frame = Frame::default();
        if let Some(module) = &self.modules[top] {
            for (name, port) in self.members(module, "ports", "the block") {
                self.port(name, port, &mut frame);
            }
        }
        self.module(top, &mut frame, types);
        if self.design.full() {
            self.messages.error(self.file, too_many());
        }
        std::mem::take(&mut self.unknown).tell(types, |_, words| self.messages.error(self.file, words));
    }

    /// The nets and cells of a block, whose ports are bound.
    fn module(&mut self, at: usize, frame: &mut Frame, types: &mut Types) {
        let Some(module) = &self.modules[at] else { return };
        let who = if frame.prefix.is_empty() {
            "the block".to_string()
        } else {
            format!("the block {}", self.tree.blocks[at].name)
        };
        for (name, net) in self.members(module, "netnames", &who) {
            self.names(name, net, frame);
        }
        for (name, cell) in self.members(module, "cells", &who) {
            self.cell(name, cell, frame, types);
            if self.messages.full() || self.design.full() {
                break;
            }
        }
        // A net without any name, of a hand-made file.
        for (&bit, &source) in &frame.nets {
            let Source::Net(net) = source else { continue };
            let net = &mut self.design.nets[net];
            if net.is_hidden() && net.hidden.is_none() {
                net.hidden = Some(format!("{}bit {bit}", frame.prefix));
            }
        }
    }

    /// The members of a part, which may be missing but be nothing else.
    fn members<'v, 'w>(&mut self, of: &'v Value<'w>, name: &str, who: &str) -> &'v [(Cow<'w, str>, Value<'w>)] {
        let part = of.get(name);
        if part.is_some_and(|part| !matches!(part, Value::Object(_))) || !matches!(of, Value::Object(_)) {
            self.strange(who, name);
        }
        part.map_or(&[][..], Value::members)
    }

    /// The bits of a port, a net or a pin.
    fn bits<'v, 'w>(&mut self, bits: Option<&'v Value<'w>>, who: &str) -> &'v [Value<'w>] {
        if bits.is_some_and(|bits| !matches!(bits, Value::List(_))) {
            self.strange(who, "bits");
        }
        bits.map_or(&[][..], Value::items)
    }

    fn strange(&mut self, who: &str, name: &str) {
        let words = format!("{who}: its {name} are not what Yosys writes (write_json)");
        self.messages.error(self.file, words);
    }

    fn port(&mut self, name: &str, port: &Value, frame: &mut Frame) {
        let direction = port.get("direction").and_then(Value::text).unwrap_or("");
        let bits = self.bits(port.get("bits"), &format!("port {name}"));
        for (at, bit) in bits.iter().enumerate() {
            if self.design.full() {
                return;
            }
            let name = bit_name(name, port, at, bits.len());
            self.design.name_bytes += name.len();
            let source = self.source(bit, frame);
            match (direction, source) {
                ("input", Source::Net(net)) => {
                    // A bit of two ports is one input.
                    if self.design.nets[net].port.is_none() {
                        self.design.inputs.push(net);
                    }
                    self.design.nets[net].port.get_or_insert(name);
                }
                ("inout", Source::Net(net)) => {
                    if self.design.nets[net].port.is_none() {
                        self.design.inouts.push(net);
                    }
                    self.design.nets[net].port.get_or_insert(name);
                }
                ("output", source) => {
                    if let Source::Net(net) = source {
                        match &self.design.nets[net].port {
                            None => self.design.nets[net].port = Some(name.clone()),
                            Some(_) => self.design.nets[net].names.push(name.clone()),
                        }
                    }
                    self.design.outputs.push((name, source));
                }
                _ => {
                    let words = format!("port {name} has the direction '{direction}', or an input is a constant");
                    self.messages.error(self.file, words);
                }
            }
        }
    }

    fn names(&mut self, name: &str, net: &Value, frame: &mut Frame) {
        let hidden = net.get("hide_name").is_some_and(Value::is_true);
        let attributes = net.get("attributes");
        let source = attributes.and_then(|all| all.get("src")).and_then(Value::text).unwrap_or("");
        let has_init = attributes.is_some_and(|all| all.get("init").is_some());
        let bits = self.bits(net.get("bits"), &format!("net {name}"));
        for (at, bit) in bits.iter().enumerate() {
            if self.design.full() {
                return;
            }
            let Source::Net(id) = self.source(bit, frame) else { continue };
            self.design.initial_values += usize::from(has_init);
            let name = frame.prefix.clone() + &bit_name(name, net, at, bits.len());
            self.design.name_bytes += name.len();
            let net = &mut self.design.nets[id];
            if net.source.is_empty() {
                net.source = source.to_string();
            }
            if hidden {
                net.hidden.get_or_insert(name);
            } else {
                net.names.push(name);
            }
        }
    }

    fn cell(&mut self, name: &str, cell: &Value, frame: &mut Frame, types: &mut Types) {
        let title = cell.get("type").and_then(Value::text).unwrap_or("");
        if title == "$scopeinfo" {
            return;
        }
        let source = cell.get("attributes").and_then(|all| all.get("src")).and_then(Value::text).unwrap_or("");
        let name = format!("{}{name}", frame.prefix);
        let who = if source.is_empty() { format!("cell {name}") } else { format!("cell {name} ({source})") };
        if types.is_box(title) {
            return self.boxed(&name, title, cell, &who, frame, types);
        }
        let kind = if title == "$lut" { Some(lut(cell)) } else { types.find(title) };
        let kind = match kind {
            Some(Ok(kind)) => kind,
            Some(Err(words)) => {
                self.messages.error(self.file, format!("{who} has the type {title}: {words}"));
                return;
            }
            None => {
                match self.tree.place(title) {
                    Some(block) => self.instance(&name, &who, cell, block, frame, types),
                    None => self.unknown(&who, title, cell),
                }
                return;
            }
        };
        let place = Place { instance: name, source: source.to_string(), line: 0 };
        let mut pins = HashMap::new();
        let mut outputs = HashMap::new();
        for (pin, bits) in self.members(cell, "connections", &who) {
            let bits = self.bits(Some(bits), &who);
            for (at, bit) in bits.iter().enumerate() {
                let pin = if bits.len() == 1 && title != "$lut" { pin.to_string() } else { format!("{pin}[{at}]") };
                let source = self.source(bit, frame);
                let reads = kind.inputs.contains(&pin);
                if reads {
                    pins.insert(pin.clone(), source);
                }
                // A pin in both directions drives too.
                if kind.outputs.iter().any(|cell| cell.output == pin) {
                    match source {
                        Source::Net(net) => {
                            outputs.insert(pin, net);
                        }
                        Source::Constant(_) => {
                            let words = format!("{who}: its output {pin} is connected to a constant");
                            self.messages.error(self.file, words);
                        }
                        Source::Open => {}
                    }
                } else if !reads && matches!(source, Source::Net(_)) {
                    let words = format!("{who} has the type {title}, which has no pin {pin} with a function");
                    self.messages.error(self.file, words);
                }
            }
        }
        self.open_pins += add_gates(&mut self.design, &kind, &place, &pins, &outputs);
    }

    /// A cell that stays closed; its directions are the cell's own, the block's or a library's.
    fn boxed(&mut self, name: &str, title: &str, cell: &Value, who: &str, frame: &mut Frame, types: &Types) {
        let module = self.tree.place(title).and_then(|at| self.modules[at].as_ref());
        let ports = module.and_then(|module| module.get("ports"));
        let mut pins = Vec::new();
        for (pin, bits) in self.members(cell, "connections", who) {
            let own = cell.get("port_directions").and_then(|all| all.get(pin)).and_then(Value::text);
            let port = ports.and_then(|ports| ports.get(pin)).and_then(|port| port.get("direction"));
            let drives = match own.or(port.and_then(Value::text)) {
                Some("output") => Some(true),
                Some("input") => Some(false),
                _ => types.drives(title, pin),
            };
            let bits = self.bits(Some(bits), who);
            for (at, bit) in bits.iter().enumerate() {
                let pin = if bits.len() == 1 { pin.to_string() } else { format!("{pin}[{at}]") };
                let source = self.source(bit, frame);
                pins.push((pin, source, drives));
            }
        }
        self.design.box_pins += pins.len();
        self.design.boxes.push(Boxed { title: title.to_string(), instance: name.to_string(), pins, line: 0 });
    }

    /// The block inside the chip: its ports are the nets outside, and all else is copied.
    fn instance(&mut self, name: &str, who: &str, cell: &Value, at: usize, frame: &mut Frame, types: &mut Types) {
        let Some(module) = &self.modules[at] else { return };
        let title = &self.tree.blocks[at].name;
        let mut inner = Frame { prefix: format!("{name}."), nets: HashMap::new() };
        let mut given: HashMap<&str, &[Value]> = HashMap::new();
        for (port, bits) in self.members(cell, "connections", who) {
            given.insert(port, self.bits(Some(bits), who));
        }
        let ports = self.members(module, "ports", &format!("the block {title}"));
        // Inputs first: what an output hands on is then bound already.
        for wanted in ["input", "inout", "output"] {
            for (port, of) in ports {
                let way = of.get("direction").and_then(Value::text).unwrap_or("");
                if way != wanted {
                    continue;
                }
                let bits = self.bits(of.get("bits"), &format!("port {port} of {title}"));
                let outer = given.remove(port.as_ref()).unwrap_or(&[]);
                if outer.len() > bits.len() {
                    let words =
                        format!("{who}: {} bits at port {port} of {title}, which has {}", outer.len(), bits.len());
                    self.messages.error(self.file, words);
                    continue;
                }
                for (at, bit) in bits.iter().enumerate() {
                    let outside = outer.get(at).map_or(Source::Open, |bit| self.source(bit, frame));
                    let words = self.bind(bit, outside, wanted == "input", &mut inner);
                    if let Err(words) = words {
                        self.messages.error(self.file, format!("{who}: port {port} of {title} {words}"));
                        break;
                    }
                    if self.design.full() {
                        return;
                    }
                }
            }
        }
        if let Some(port) = given.keys().min() {
            self.messages.error(self.file, format!("{who}: {title} has no port {port}"));
        }
        self.module(at, &mut inner, types);
    }

    /// One bit of a port, inside and outside.
    fn bind(&mut self, bit: &Value, outside: Source, input: bool, inner: &mut Frame) -> Result<(), &'static str> {
        let number = if bit.text().is_some() { None } else { bit.whole() };
        let inside = match number {
            Some(number) => match inner.nets.get(&number) {
                Some(&inside) if !input => inside,
                Some(_) => return Err("has a bit of another input"),
                None if input || matches!(outside, Source::Net(_)) => {
                    inner.nets.insert(number, outside);
                    return Ok(());
                }
                None if outside == Source::Open => return Ok(()),
                None => return Err("drives a constant"),
            },
            None if input => return Err("is an input and a constant"),
            None => self.source(bit, inner),
        };
        match outside {
            Source::Net(net) if inside != outside => self.design.wires.push((net, inside, 0)),
            Source::Constant(_) => return Err("drives a constant"),
            _ => {}
        }
        Ok(())
    }

    /// A cell without outputs (passed over), or a type that no library has.
    fn unknown(&mut self, who: &str, title: &str, cell: &Value) {
        let directions = cell.get("port_directions").map_or(&[][..], Value::members);
        if !directions.is_empty() && directions.iter().all(|(_, way)| way.text() == Some("input")) {
            return;
        }
        self.unknown.add(title, who, 0);
    }
}

/// `name`, or `name[3]` of a bus.
fn bit_name(name: &str, of: &Value, at: usize, width: usize) -> String {
    let offset = of.get("offset").and_then(Value::whole);
    if width == 1 && offset.is_none() {
        return name.to_string();
    }
    let upto = of.get("upto").is_some_and(Value::is_true);
    let at = if upto { width - 1 - at } else { at } as i64;
    format!("{name}[{}]", offset.unwrap_or(0).saturating_add(at))
}

/// Yosys's look-up table: the first input is the lightest.
fn lut(cell: &Value) -> Result<Rc<Type>, String> {
    let parameters = cell.get("parameters");
    let width = cell.get("connections").and_then(|all| all.get("A")).map_or(0, |bits| bits.items().len());
    if width > crate::ask::archive::MOST_PINS {
        return Err(format!("a table of {width} pins, the analyser takes {}", crate::ask::archive::MOST_PINS));
    }
    let table = parameters.and_then(|all| all.get("LUT")).ok_or("a table without the parameter LUT")?;
    let bits: Vec<bool> = match table {
        Value::Text(bits) => bits.bytes().rev().map(|b| b == b'1').collect(),
        other => {
            let number = other.whole().unwrap_or(0);
            (0..63).map(|at| number >> at & 1 == 1).collect()
        }
    };
    let pins: Vec<String> = (0..width).map(|at| format!("A[{at}]")).collect();
    let table = Table::of(width, |s| bits.get(s as usize).copied().unwrap_or(false));
    let cell =
        Cell { title: "$lut".to_string(), pins: pins.clone(), output: "Y[0]".to_string(), kind: Kind::Table(table) };
    Ok(Rc::new(Type { outputs: vec![Rc::new(cell)], inputs: pins }))
}

#[cfg(test)]
mod tests {
    use super::*;

    pub fn design(text: &str) -> (Option<Design>, String) {
        let mut messages = Messages::new();
        let mut types = Types::default();
        let design = read("c.json", text, &Wanted::default(), &mut types, &mut messages).ok();
        (design, messages.text())
    }

    const CHIP: &str = r#"{"modules": {"chip": {"ports": {
        "a": {"direction": "input", "bits": [2, 3], "offset": 4, "upto": 1},
        "io": {"direction": "inout", "bits": [4]},
        "y": {"direction": "output", "bits": [5]}, "z": {"direction": "output", "bits": ["1"]}},
        "cells": {
          "g": {"type": "$_AND_", "connections": {"A": [2], "B": [4], "Y": [5]}, "attributes": {"src": "c.v:3"}},
          "s": {"type": "$scopeinfo", "connections": {}},
          "t": {"type": "$_TBUF_", "connections": {"A": [3], "E": ["x"], "Y": [4]}},
          "l": {"type": "$lut", "parameters": {"LUT": "0111", "WIDTH": 2}, "connections": {"A": [2, 3], "Y": [6]}}},
        "netnames": {"y": {"hide_name": 0, "bits": [5]}, "sum": {"hide_name": 0, "bits": [5, 6]},
          "$1": {"hide_name": 1, "bits": [6]}}}}}"#;

    #[test]
    fn a_chip() {
        let (design, said) = design(CHIP);
        let design = design.unwrap();
        assert!(said.contains("1 pins are connected to nothing"), "{said}");
        let names: Vec<&str> = design.inputs.iter().map(|&net| design.nets[net].name()).collect();
        assert_eq!(names, ["a[5]", "a[4]", "io"]);
        assert_eq!(design.gates.len(), 3);
        assert_eq!(design.nets[design.gates[0].output].aliases(), ["sum[0]"]);
        assert_eq!(design.outputs[1], ("z".to_string(), Source::Constant(true)));
        assert_eq!(design.outputs[2].0, "io (drive)");
        let Kind::Table(table) = &design.gates[2].cell.kind else { panic!() };
        assert_eq!(table.digits(), "1110");
    }

    #[test]
    fn errors_in_words() {
        for (from, to, words) in [
            ("$_AND_", "FOO", "no library is given"),
            ("$_AND_", "$add", "synthesise first"),
            ("$_AND_", "chip", "a block contains itself: chip > chip"),
            ("\"Y\": [5]", "\"Y\": [4]", "driven by"),
            ("\"B\": [4]", "\"B\": [9]", "nothing drives bit 9"),
            ("\"B\": [4]", "\"N\": [4]", "no pin N"),
            ("{\"modules\"", "{\"model\"", "no modules"),
            ("\"netnames\"", "netnames", "a name in quotes"),
        ] {
            let (_, said) = design(&CHIP.replacen(from, to, 1));
            assert!(said.contains(words), "{to}: {said}");
        }
    }
}
