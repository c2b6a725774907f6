//! BLIF: `.names`, `.latch`, `.subckt` and `.gate`; models within models are flattened.

use crate::ask::archive::MOST_PINS;
use crate::read::blocks::{Block, Tree};
use crate::read::boxes::Boxed;
use crate::read::hub::{too_many, Design, Gate, Lines, Source, MOST_NETS};
use crate::read::names::OWN_CLOCK;
use crate::rows::cells::{self, Cell, Kind, Op};
use crate::rows::types::{add_gates, Place, Types, Unknown};
use crate::rows::Table;
use crate::show::cost::grouped;
use crate::show::messages::Messages;
use std::collections::HashMap;
use std::rc::Rc;

#[derive(Default)]
pub struct Wanted<'a> {
    pub top: Option<&'a str>,
    pub clock: Option<&'a str>,
    pub allow_open: bool,
}

/// Lines joined by a backslash, without comments, handed on one by one with the number of the first and the byte where it
/// begins; the answer says whether to go on.
fn each_joined(text: &str, mut take: impl FnMut(usize, usize, &str) -> bool) {
    let mut whole = String::new();
    let mut first = None;
    let mut byte = 0;
    for (at, line) in text.split_inclusive('\n').enumerate() {
        let begins = byte;
        byte += line.len();
        let line = line.split('#').next().unwrap_or("").trim_end();
        let (line, more) = match line.strip_suffix('\\') {
            Some(line) => (line, true),
            None => (line, false),
        };
        let (number, begins) = *first.get_or_insert((at + 1, begins));
        if !more && whole.is_empty() {
            first = None;
            if !take(number, begins, line) {
                return;
            }
            continue;
        }
        if whole.len() > MOST_JOINED {
            whole = ".(more than 16 MB)".to_string();
        }
        if whole != ".(more than 16 MB)" {
            whole.push_str(line);
            whole.push(' ');
        }
        if !more {
            first = None;
            if !take(number, begins, &whole) {
                return;
            }
            whole.clear();
        }
    }
    let (number, begins) = first.unwrap_or((1, byte));
    take(number, begins, &whole);
}

/// The models and what is in them; None where there are too many.
fn survey(text: &str) -> Option<Tree> {
    let mut tree = Tree::default();
    let mut blocks: Vec<Block> = Vec::new();
    let mut enough = true;
    let mut first_model = true;
    let (mut black, mut ended) = (false, false);
    // Inputs of a .names, and its rows if they may make it a wire.
    let mut cover: Option<(usize, usize, bool)> = None;
    let mut put = |blocks: &mut Vec<Block>, black: bool, end: usize| {
        let Some(mut block) = blocks.pop() else { return true };
        block.bytes.end = end;
        black || tree.push(block)
    };
    each_joined(text, |number, byte, line| {
        let mut words = line.split_whitespace();
        let Some(first) = words.next() else { return true };
        if !first.starts_with('.') {
            if let Some((inputs, rows, wire)) = &mut cover {
                *rows += 1;
                *wire = *inputs == 1 && *rows == 1 && (line.split_whitespace().eq(["1", "1"]) || first == "11");
            }
            return true;
        }
        if let (Some((inputs, _, wire)), Some(block)) = (cover.take(), blocks.last_mut()) {
            let count = if inputs == 0 || wire { &mut block.others } else { &mut block.gates };
            *count += 1;
        }
        if first == ".model" {
            if !put(&mut blocks, black, byte) {
                enough = false;
                return false;
            }
            (black, ended) = (false, false);
            // What stands before the first model is read with it, and told.
            let (byte, number) = if std::mem::replace(&mut first_model, false) { (0, 1) } else { (byte, number) };
            let name = words.next().unwrap_or("").to_string();
            blocks.push(Block { name, bytes: byte..byte, line: number, ..Block::default() });
            return true;
        }
        let Some(block) = blocks.last_mut().filter(|_| !ended) else { return true };
        match first {
            ".inputs" | ".clock" => block.inputs += words.count() as u64,
            ".names" => cover = Some((words.count().saturating_sub(1), 0, false)),
            ".latch" => block.gates += 1,
            ".subckt" | ".gate" => {
                if let Some(title) = words.next() {
                    block.add(title, 1);
                }
            }
            ".conn" => block.others += 1,
            ".blackbox" => black = true,
            ".end" => ended = true,
            _ => {}
        }
        true
    });
    if let (Some((inputs, _, wire)), Some(block)) = (cover.take(), blocks.last_mut()) {
        let count = if inputs == 0 || wire { &mut block.others } else { &mut block.gates };
        *count += 1;
    }
    enough &= put(&mut blocks, black, text.len());
    enough.then_some(tree)
}

pub fn read(file: &str, text: &str, wanted: &Wanted, types: &mut Types, messages: &mut Messages) -> Design {
    let lines = Lines { file, text };
    let mut design = Design { file: file.to_string(), ..Design::default() };
    let Some(mut tree) = survey(text) else {
        messages.error(file, Tree::too_many());
        return design;
    };
    if tree.blocks.is_empty() {
        messages.error(file, "no .model: is it BLIF?");
        return design;
    }
    tree.settle(types);
    let Some(top) = tree.choose(file, wanted.top, types, messages) else { return design };
    design.name = tree.blocks[top].name.clone();
    design.block = wanted.top.is_some() && tree.blocks.len() > 1;
    if tree.parts(file, top, &mut design, messages).is_none() {
        return design;
    }
    let mut reader = Reader {
        lines: &lines,
        tree: &tree,
        messages,
        design,
        frame: Frame::default(),
        outputs: Vec::new(),
        open_pins: 0,
        clockless: Vec::new(),
        unknown: Unknown::default(),
    };
    reader.model(top, types);
    std::mem::take(&mut reader.unknown).tell(types, |line, words| reader.error(line, words));
    if reader.design.full() {
        reader.messages.error(file, too_many());
    }
    reader.finish(wanted)
}

/// The rows of a `.names`, until the next statement.
struct Cover {
    line: usize,
    nets: Vec<usize>,
    rows: Vec<(String, bool)>,
    wrong: bool,
}

/// A model inside another one: its line, its place, the nets at its ports, its name.
struct Inner {
    line: usize,
    place: usize,
    ports: HashMap<String, usize>,
    name: Option<String>,
}

/// A model that is read: what stands before its names, its nets, and the models in it.
#[derive(Default)]
struct Frame {
    prefix: String,
    nets: HashMap<String, usize>,
    /// What its ports are outside, and the line that says so; None in the chip itself.
    ports: Option<HashMap<String, usize>>,
    line: usize,
    inner: Vec<Inner>,
    cover: Option<Cover>,
    models: usize,
    ended: bool,
    /// The last cell was a model.
    inner_last: bool,
}

struct Reader<'a, 'm> {
    lines: &'a Lines<'a>,
    tree: &'a Tree,
    messages: &'m mut Messages,
    design: Design,
    frame: Frame,
    outputs: Vec<(String, usize)>,
    open_pins: usize,
    /// Registers whose clock is not said.
    clockless: Vec<usize>,
    unknown: Unknown,
}

const MOST_COVER: usize = 70_000;
/// Bytes of a statement that stands on several lines.
const MOST_JOINED: usize = 16 << 20;

impl Reader<'_, '_> {
    fn error(&mut self, line: usize, words: impl AsRef<str>) {
        self.lines.error(self.messages, line, words);
    }

    fn net(&mut self, name: &str) -> usize {
        if let Some(&net) = self.frame.nets.get(name) {
            return net;
        }
        let net = self.design.add_net();
        self.name(net, name);
        self.frame.nets.insert(name.to_string(), net);
        net
    }

    fn name(&mut self, net: usize, name: &str) {
        let whole = format!("{}{name}", self.frame.prefix);
        self.design.name_bytes += whole.len();
        let net = &mut self.design.nets[net];
        if name.starts_with('$') {
            net.hidden.get_or_insert(whole);
        } else {
            net.names.push(whole);
        }
    }

    /// A model and all in it.
    fn model(&mut self, at: usize, types: &mut Types) {
        let block = &self.tree.blocks[at];
        let (first, text) = (block.line, &self.lines.text[block.bytes.clone()]);
        each_joined(text, |number, _, line| {
            self.line(first + number - 1, line, types);
            !self.messages.full() && !self.design.full()
        });
        self.finish_cover();
        if let Some((port, _)) = self.frame.ports.take().and_then(|ports| ports.into_iter().min()) {
            self.error(self.frame.line, format!("the model {} has no port {port}", block.name));
        }
        let mut counts: HashMap<usize, usize> = HashMap::new();
        for inner in std::mem::take(&mut self.frame.inner) {
            if self.messages.full() || self.design.full() {
                return;
            }
            let count = counts.entry(inner.place).or_default();
            *count += 1;
            let name = inner.name.unwrap_or_else(|| format!("{}_{count}", self.tree.blocks[inner.place].name));
            let frame = Frame {
                prefix: format!("{}{name}.", self.frame.prefix),
                ports: Some(inner.ports),
                line: inner.line,
                ..Frame::default()
            };
            let outer = std::mem::replace(&mut self.frame, frame);
            self.model(inner.place, types);
            self.frame = outer;
        }
    }

    /// A port of a model inside another one is the net outside.
    fn port(&mut self, number: usize, name: &str, input: bool) {
        let outside = self.frame.ports.as_mut().and_then(|ports| ports.remove(name));
        match (outside, self.frame.nets.get(name).copied()) {
            (Some(outside), None) => {
                self.name(outside, name);
                self.frame.nets.insert(name.to_string(), outside);
            }
            (Some(outside), Some(inside)) if !input => self.design.wires.push((outside, Source::Net(inside), number)),
            (Some(_), Some(_)) => self.error(number, format!("the port {name} stands behind its use")),
            (None, None) if input => {
                let net = self.net(name);
                self.open_pins += 1;
                self.design.wires.push((net, Source::Open, number));
            }
            (None, _) => {}
        }
    }

    fn line(&mut self, number: usize, line: &str, types: &mut Types) {
        // No statement has more words than there may be nets.
        let words: Vec<&str> = line.split_whitespace().take(MOST_NETS + 1).collect();
        let Some(&first) = words.first() else { return };
        if words.len() > MOST_NETS {
            return self.error(number, format!("a statement of more than {} words", grouped(MOST_NETS as u64)));
        }
        if !first.starts_with('.') {
            if self.frame.ended {
                return;
            }
            return self.row(number, &words);
        }
        self.finish_cover();
        let rest = &words[1..];
        if self.frame.ended {
            return;
        }
        match first {
            ".model" => self.frame.models += 1,
            _ if self.frame.models == 0 => self.error(number, format!("{first} stands before the .model")),
            ".inputs" | ".clock" | ".outputs" if !self.frame.prefix.is_empty() => {
                for name in rest {
                    self.port(number, name, first != ".outputs");
                }
            }
            ".inputs" | ".clock" => {
                for name in rest {
                    let net = self.net(name);
                    if first == ".inputs" || self.design.nets[net].port.is_none() {
                        self.design.nets[net].port = Some(name.to_string());
                        self.design.inputs.push(net);
                    }
                }
            }
            ".outputs" => {
                for name in rest {
                    let net = self.net(name);
                    self.outputs.push((name.to_string(), net));
                }
            }
            ".names" => {
                if rest.is_empty() {
                    return self.error(number, "a .names without a net");
                }
                let nets = rest.iter().map(|name| self.net(name)).collect();
                self.frame.cover = Some(Cover { line: number, nets, rows: Vec::new(), wrong: false });
            }
            ".latch" => self.latch(number, rest),
            ".subckt" | ".gate" => self.cell(number, rest, types),
            ".conn" => match rest {
                [from, to] => {
                    let (from, to) = (self.net(from), self.net(to));
                    self.design.wires.push((to, Source::Net(from), number));
                }
                _ => self.error(number, "a .conn has two nets"),
            },
            ".end" => self.frame.ended = true,
            ".mlatch" => self.mlatch(number, rest, types),
            ".exdc" | ".search" | ".start_kiss" => {
                self.error(number, format!("{first} is not read here"));
            }
            ".cname" => match (rest.first(), self.frame.inner.last_mut(), self.design.gates.last_mut()) {
                (Some(name), Some(inner), _) if self.frame.inner_last => inner.name = Some(name.to_string()),
                (Some(name), _, Some(gate)) => {
                    gate.instance = format!("{}{name}", self.frame.prefix);
                    self.design.name_bytes += gate.instance.len();
                }
                _ => {}
            },
            ".attr"
            | ".param"
            | ".area"
            | ".delay"
            | ".wire_load_slope"
            | ".wire"
            | ".input_arrival"
            | ".output_required"
            | ".default_input_arrival"
            | ".default_output_required"
            | ".input_drive"
            | ".default_input_drive"
            | ".output_load"
            | ".default_output_load"
            | ".latch_order"
            | ".clock_event"
            | ".blackbox" => {}
            _ => self.error(number, format!("{first} is no statement of BLIF")),
        }
    }

    fn row(&mut self, number: usize, words: &[&str]) {
        let Some(cover) = &mut self.frame.cover else {
            return self.error(number, "a row without a .names above it");
        };
        let inputs = cover.nets.len() - 1;
        let (columns, value) = match words {
            [value] if inputs == 0 => ("", *value),
            [columns, value] => (*columns, *value),
            [all] if all.len() > inputs => all.split_at_checked(inputs).unwrap_or(("", all)),
            _ => ("", ""),
        };
        let words = if columns.len() != inputs {
            Some(format!("this row has {} columns, the gate has {inputs} inputs", columns.len()))
        } else if !columns.bytes().all(|b| b"01-".contains(&b)) {
            Some("a column is neither 0 nor 1 nor -".to_string())
        } else if value != "0" && value != "1" {
            Some("the output is neither 0 nor 1".to_string())
        } else if cover.rows.first().is_some_and(|(_, other)| *other != (value == "1")) {
            Some("rows of one gate give 0 and 1".to_string())
        } else if cover.rows.len() >= MOST_COVER {
            Some("a gate of more than 70,000 rows".to_string())
        } else {
            None
        };
        match words {
            Some(words) => {
                let first = !std::mem::replace(&mut cover.wrong, true);
                if first {
                    self.error(number, words);
                }
            }
            None => cover.rows.push((columns.to_string(), value == "1")),
        }
    }

    fn finish_cover(&mut self) {
        let Some(cover) = self.frame.cover.take() else { return };
        if cover.wrong {
            return;
        }
        let (&output, inputs) = cover.nets.split_last().expect("a net of a .names");
        let n = inputs.len();
        match kind_of(n, &cover.rows) {
            Err(words) => self.error(cover.line, words),
            // Yosys writes x as a constant of this name.
            Ok(Kind::Table(_)) if n == 0 && cover.rows.is_empty() && self.frame.nets.get("$undef") == Some(&output) => {
                self.design.wires.push((output, Source::Open, cover.line));
            }
            Ok(Kind::Table(table)) if n == 0 => {
                self.design.wires.push((output, Source::Constant(table.bits[0]), cover.line));
            }
            Ok(Kind::Table(table)) if n == 1 && table.digits() == "01" => {
                self.design.wires.push((output, Source::Net(inputs[0]), cover.line));
            }
            Ok(kind) => {
                let cell = Cell {
                    title: String::new(),
                    pins: (1..=n).map(|at| format!("I{at}")).collect(),
                    output: "O".to_string(),
                    kind,
                };
                let pins = inputs.iter().map(|&net| Source::Net(net)).collect();
                self.gate(cover.line, cell, pins, output);
            }
        }
    }

    fn gate(&mut self, line: usize, cell: Cell, pins: Vec<Source>, output: usize) {
        self.frame.inner_last = false;
        self.design.gates.push(Gate {
            cell: Rc::new(cell),
            instance: String::new(),
            pins,
            output,
            source: String::new(),
            line,
        });
    }

    fn latch(&mut self, number: usize, words: &[&str]) {
        let (data, output, how, init) = match *words {
            [data, output] => (data, output, None, None),
            [data, output, init] => (data, output, None, Some(init)),
            [data, output, kind, control] => (data, output, Some((kind, control)), None),
            [data, output, kind, control, init] => (data, output, Some((kind, control)), Some(init)),
            _ => {
                return self
                    .error(number, "a .latch has an input, an output, perhaps a kind with its clock, and a value")
            }
        };
        match init {
            Some("0" | "1") => self.design.initial_values += 1,
            None | Some("2" | "3") => {}
            Some(other) => return self.error(number, format!("{other} is no initial value (0 to 3)")),
        }
        let (kind, control) = match how {
            None => (cells::plain_register(true), None),
            Some(("re", clock)) => (cells::plain_register(true), Some(clock)),
            Some(("fe", clock)) => (cells::plain_register(false), Some(clock)),
            Some(("ah", gate)) => (cells::plain_latch(true), Some(gate)),
            Some(("al", gate)) => (cells::plain_latch(false), Some(gate)),
            Some(("as", _)) => return self.error(number, "an asynchronous latch has no rows here"),
            Some((other, _)) => return self.error(number, format!("{other} is no kind of latch (re, fe, ah, al)")),
        };
        let latch = matches!(&kind, Kind::Register(register) if register.latch);
        let cell = Cell {
            title: String::new(),
            pins: vec!["D".to_string(), if latch { "E" } else { "C" }.to_string()],
            output: "Q".to_string(),
            kind,
        };
        let (data, output) = (self.net(data), self.net(output));
        let control = match control.filter(|&name| name != "NIL") {
            Some(name) => Source::Net(self.net(name)),
            None => {
                self.clockless.push(self.design.gates.len());
                Source::Open
            }
        };
        self.gate(number, cell, vec![Source::Net(data), control], output);
    }

    fn cell(&mut self, number: usize, words: &[&str], types: &mut Types) {
        let Some((&title, pairs)) = words.split_first() else {
            return self.error(number, "a cell without a type");
        };
        if types.is_box(title) {
            return self.boxed(number, title, pairs, types);
        }
        let kind = match types.find(title) {
            Some(Ok(kind)) => kind,
            Some(Err(words)) => return self.error(number, format!("the type {title}: {words}")),
            None => match self.tree.place(title) {
                Some(place) => return self.inner(number, place, pairs),
                None => return self.unknown.add(title, "this cell", number),
            },
        };
        self.frame.inner_last = false;
        let mut pins = HashMap::new();
        let mut outputs = HashMap::new();
        for pair in pairs {
            let Some((pin, name)) = pair.split_once('=') else {
                return self.error(number, format!("{pair} is no PIN=NET"));
            };
            if name.is_empty() {
                continue;
            }
            let net = self.net(name);
            let reads = kind.inputs.iter().any(|other| other == pin);
            if reads {
                pins.insert(pin.to_string(), Source::Net(net));
            }
            // A pin in both directions drives too.
            if kind.outputs.iter().any(|cell| cell.output == pin) {
                outputs.insert(pin.to_string(), net);
            } else if !reads {
                return self.error(number, format!("the type {title} has no pin {pin} with a function"));
            }
        }
        let place = Place { instance: String::new(), source: String::new(), line: number };
        self.open_pins += add_gates(&mut self.design, &kind, &place, &pins, &outputs);
    }

    /// A model inside this one, which is read when this one is.
    fn inner(&mut self, number: usize, place: usize, pairs: &[&str]) {
        let mut ports = HashMap::new();
        for pair in pairs {
            let Some((port, name)) = pair.split_once('=') else {
                return self.error(number, format!("{pair} is no PORT=NET"));
            };
            if name.is_empty() {
                continue;
            }
            let net = self.net(name);
            if ports.insert(port.to_string(), net).is_some() {
                return self.error(number, format!("the port {port} stands twice"));
            }
        }
        self.frame.inner.push(Inner { line: number, place, ports, name: None });
        self.frame.inner_last = true;
    }

    fn boxed(&mut self, number: usize, title: &str, pairs: &[&str], types: &Types) {
        let mut pins = Vec::new();
        for pair in pairs {
            let Some((pin, name)) = pair.split_once('=') else {
                return self.error(number, format!("{pair} is no PIN=NET"));
            };
            if !name.is_empty() {
                pins.push((pin.to_string(), Source::Net(self.net(name)), types.drives(title, pin)));
            }
        }
        self.design.box_pins += pins.len();
        self.design.boxes.push(Boxed {
            title: title.to_string(),
            instance: self.frame.prefix.clone(),
            pins,
            line: number,
        });
    }

    /// A latch of a genlib library: its pins, then its control and perhaps its initial value.
    fn mlatch(&mut self, number: usize, words: &[&str], types: &mut Types) {
        let pairs = words.iter().skip(1).take_while(|word| word.contains('=')).count();
        let (Some(&title), Some(&control)) = (words.first(), words.get(1 + pairs)) else {
            return self
                .error(number, "a .mlatch has a type, PIN=NET pairs and its control: name the clock's net there");
        };
        if control == "NIL" {
            return self.error(number, "a .mlatch without a control: name the clock's net in place of NIL");
        }
        if matches!(words.get(2 + pairs), Some(&("0" | "1"))) {
            self.design.initial_values += 1;
        }
        let Some(pin) = types.written(title).map(|written| written.control().unwrap_or("").to_string()) else {
            return self.unknown.add(title, "this cell", number);
        };
        let clocked = format!("{pin}={control}");
        let mut given = words[..1 + pairs].to_vec();
        given.push(&clocked);
        self.cell(number, &given, types);
    }

    fn finish(mut self, wanted: &Wanted) -> Design {
        let nets = &self.frame.nets;
        put_clock(&mut self.design, &self.clockless, wanted.clock, |name| nets.get(name).copied(), self.messages);
        let mut three_state = vec![false; self.design.nets.len()];
        for gate in &self.design.gates {
            three_state[gate.output] |= matches!(gate.cell.kind, Kind::Driver(_));
        }
        for (name, net) in std::mem::take(&mut self.outputs) {
            let place = three_state[net].then(|| self.design.inputs.iter().position(|&input| input == net)).flatten();
            match place {
                Some(place) => {
                    self.design.inputs.remove(place);
                    self.design.inouts.push(net);
                }
                _ => {
                    self.design.nets[net].port.get_or_insert(name.clone());
                    self.design.outputs.push((name, Source::Net(net)));
                }
            }
        }
        let undefined = self.name_undriven();
        self.open_pins += undefined;
        if self.open_pins > 0 {
            self.messages
                .warn(format!("{} pins are connected to nothing: open lines, which can never be set", self.open_pins));
        }
        if self.messages.errors() == 0 {
            self.design.settle(self.lines, wanted.allow_open, self.messages);
        }
        self.design
    }

    /// Yosys writes x as a net `$undef` that nothing drives: open, as x is in JSON. Answers how many pins read it.
    fn name_undriven(&mut self) -> usize {
        let Some(&net) = self.frame.nets.get("$undef") else { return 0 };
        let driven = self.design.wires.iter().any(|&(wire, _, _)| wire == net)
            || self.design.gates.iter().any(|gate| gate.output == net);
        if driven {
            return 0;
        }
        self.design.wires.push((net, Source::Open, 0));
        self.design.gates.iter().flat_map(|gate| &gate.pins).filter(|&&pin| pin == Source::Net(net)).count()
    }
}

/// Registers without a clock get the one named, or an input of the importer's.
pub fn put_clock(
    design: &mut Design,
    clockless: &[usize],
    wanted: Option<&str>,
    find: impl Fn(&str) -> Option<usize>,
    messages: &mut Messages,
) {
    if clockless.is_empty() {
        if let Some(name) = wanted {
            messages.warn(format!("--clock {name} is not used: every register has its clock"));
        }
        return;
    }
    let clock = match wanted {
        Some(name) => match find(name).filter(|net| design.inputs.contains(net)) {
            Some(net) => net,
            None => {
                messages.error(&design.file, format!("--clock {name}: there is no such input"));
                return;
            }
        },
        None => {
            let net = design.add_net();
            design.nets[net].port = Some(OWN_CLOCK.to_string());
            design.inputs.push(net);
            let mut read = vec![false; design.nets.len()];
            for source in design.gates.iter().flat_map(|gate| &gate.pins) {
                if let Source::Net(net) = *source {
                    read[net] = true;
                }
            }
            let unread: Vec<&str> = design
                .inputs
                .iter()
                .filter(|&&input| input != net && !read[input])
                .map(|&input| design.nets[input].name())
                .take(5)
                .collect();
            let mut words =
                format!("{} registers have no clock: they get the input {OWN_CLOCK}, rising", clockless.len());
            if !unread.is_empty() {
                words
                    .push_str(&format!("; if it is one of the unread inputs, say --clock NAME: {}", unread.join(", ")));
            }
            messages.note(words);
            net
        }
    };
    for &gate in clockless {
        design.gates[gate].pins[1] = Source::Net(clock);
    }
}

/// The function of a cover.
fn kind_of(n: usize, rows: &[(String, bool)]) -> Result<Kind, String> {
    // No row at all is the constant 0.
    let on = rows.first().is_none_or(|(_, value)| *value);
    if n <= MOST_PINS {
        let met = |s: u32| {
            rows.iter().any(|(columns, _)| {
                columns
                    .bytes()
                    .enumerate()
                    .all(|(pin, column)| column == b'-' || (column == b'1') == (s >> pin & 1 == 1))
            })
        };
        let table = Table::of(n, |s| met(s) == on);
        return Ok(match exclusive(n, rows) {
            Some(inverted) if n > 5 => cells::gate(Op::Xor, inverted, vec![false; n]),
            _ => Kind::Table(table),
        });
    }
    let whole = |columns: &str| columns.bytes().all(|b| b != b'-');
    if let [(columns, value)] = rows {
        if whole(columns) {
            let flipped = columns.bytes().map(|b| b == b'0').collect();
            return Ok(cells::gate(Op::And, !value, flipped));
        }
    }
    // One literal a row, each pin once.
    let literals: Vec<Option<(usize, bool)>> = rows
        .iter()
        .map(|(columns, _)| {
            let mut named = columns.bytes().enumerate().filter(|&(_, b)| b != b'-');
            match (named.next(), named.next()) {
                (Some((pin, b)), None) => Some((pin, b == b'0')),
                _ => None,
            }
        })
        .collect();
    if rows.len() == n && literals.iter().all(Option::is_some) {
        let mut flipped = vec![None; n];
        for (pin, flip) in literals.into_iter().flatten() {
            flipped[pin] = Some(flip);
        }
        if let Some(flipped) = flipped.into_iter().collect::<Option<Vec<bool>>>() {
            return Ok(cells::gate(Op::Or, !on, flipped));
        }
    }
    if let Some(inverted) = exclusive(n, rows) {
        return Ok(cells::gate(Op::Xor, inverted, vec![false; n]));
    }
    Err(format!("a gate of {n} inputs that is no AND, OR or XOR; the analyser takes {MOST_PINS}"))
}

/// Whether the rows are an exclusive or, and whether it is inverted.
fn exclusive(n: usize, rows: &[(String, bool)]) -> Option<bool> {
    if !(2..=16).contains(&n) || rows.len() != 1 << (n - 1) {
        return None;
    }
    let parity = |columns: &str| columns.bytes().filter(|&b| b == b'1').count() % 2;
    let (first, value) = rows.first()?;
    let odd = parity(first);
    let mut seen: Vec<&str> = rows.iter().map(|(columns, _)| columns.as_str()).collect();
    seen.sort_unstable();
    seen.dedup();
    let all = seen.len() == rows.len() && seen.iter().all(|row| !row.contains('-') && parity(row) == odd);
    all.then_some((odd == 1) != *value)
}

#[cfg(test)]
mod tests {
    use super::*;

    fn design(text: &str) -> (Design, String) {
        let mut messages = Messages::new();
        let wanted = Wanted::default();
        let design = read("c.blif", text, &wanted, &mut Types::default(), &mut messages);
        (design, messages.text())
    }

    #[test]
    fn a_chip() {
        let (design, said) = design(
            ".model chip # a comment\n.inputs a b \\\n c\n.outputs y q io\n.inputs io\n.names a b n\n11 1\n\
             .names n y\n1 1\n.names $one\n1\n.latch n q re c 0\n.subckt $_TBUF_ A=n E=$one Y=io\n.names a b m\n00 0\n\
             .subckt $_DFF_PN0_ C=c D=m Q=r R=a\n.end\n",
        );
        assert_eq!(said, "");
        let names: Vec<&str> = design.inputs.iter().map(|&net| design.nets[net].name()).collect();
        assert_eq!(names, ["a", "b", "c", "io"]);
        let outputs: Vec<&str> = design.outputs.iter().map(|(name, _)| name.as_str()).collect();
        assert_eq!(outputs, ["y", "q", "io (drive)"]);
        // The wire y is another name of n.
        assert_eq!(design.outputs[0].1, Source::Net(design.gates[0].output));
        assert_eq!(design.nets[design.gates[0].output].name(), "y");
        assert_eq!(design.gates.len(), 5);
        assert_eq!(design.gates[2].pins[1], Source::Constant(true));
        let Kind::Table(table) = &design.gates[3].cell.kind else { panic!() };
        assert_eq!(table.digits(), "0111");
        assert_eq!(design.initial_values, 1);
    }

    #[test]
    fn wide_covers() {
        let ones = "1".repeat(9);
        let and = kind_of(9, &[(ones.clone(), true)]).unwrap();
        assert!(matches!(and, Kind::Wide(ref wide) if wide.op == Op::And && !wide.inverted));
        let rows: Vec<(String, bool)> =
            (0..9).map(|at| ((0..9).map(|pin| if pin == at { '0' } else { '-' }).collect(), true)).collect();
        let nand = kind_of(9, &rows).unwrap();
        assert!(matches!(nand, Kind::Wide(ref wide) if wide.op == Op::Or && wide.flipped.iter().all(|&f| f)));
        let odd: Vec<(String, bool)> =
            (0..64u32).filter(|s| s.count_ones() % 2 == 1).map(|s| (format!("{s:06b}"), true)).collect();
        assert!(matches!(kind_of(6, &odd).unwrap(), Kind::Wide(ref wide) if wide.op == Op::Xor && !wide.inverted));
        assert!(kind_of(9, &[("1-1111111".to_string(), true), (ones, true)]).is_err());
    }

    #[test]
    fn errors_with_their_lines() {
        let (_, said) = design(
            ".model c\n.inputs a b\n.outputs y\n.names a b y\n111 1\n.names a y\n1 x\n.latch a\n.foo\n11 1\n.subckt FOO A=b\n\
             .names a z\n1 1\n0 0\n.exdc\n",
        );
        for (line, words) in [
            (5, "this row has 3 columns, the gate has 2 inputs"),
            (7, "neither 0 nor 1"),
            (8, "a .latch has"),
            (9, ".foo is no statement"),
            (10, "a row without a .names"),
            (11, "no library is given"),
            (14, "rows of one gate"),
            (15, ".exdc is not read"),
        ] {
            let line = format!("c.blif:{line}: error: ");
            let told = said.lines().find(|told| told.starts_with(&line)).unwrap_or("");
            assert!(told.contains(words), "{line}{words}: {said}");
        }
        let (_, said) = design(".model c\n.inputs a\n.outputs y\n.names a y\n1 1\n.names a y\n0 1\n.end\n");
        assert!(said.contains("c.blif:4: error: y is driven already, by line 6"), "{said}");
        let (_, said) = design(".model c\n.outputs y\n.names y x\n1 1\n.names x y\n1 1\n.end\n");
        assert!(said.contains("loop"), "{said}");
    }
}
