//! Structural Verilog, read without Yosys and flattened below the chip.

use crate::ask::archive::MOST_PINS;
use crate::read::blocks::Tree;
use crate::read::boxes::Boxed;
use crate::read::hub::{too_many, Design, Gate, Lines, Source, MOST_NETS};
use crate::read::modules::{self, Declared, Expr, Fault, Item, Module, Net, Op, Way};
use crate::rows::cells::{self, Cell, Kind};
use crate::rows::registers::Driver;
use crate::rows::types::{add_gates, Place, Types, Unknown};
use crate::rows::Table;
use crate::show::cost::grouped;
use crate::show::messages::Messages;
use std::collections::HashMap;
use std::rc::Rc;

#[derive(Clone, Default)]
pub struct Wanted<'a> {
    pub top: Option<&'a str>,
    pub allow_open: bool,
}

/// What came of a text.
pub enum Answer {
    /// A design, or errors that are told.
    Read(Box<Design>),
    /// Behaviour, or what else only Yosys may read: the first such place, and all that would be told without it.
    Beyond(Vec<Fault>),
    Refused,
}

pub fn read(file: &str, text: &str, wanted: &Wanted, types: &mut Types, messages: &mut Messages) -> Answer {
    let mut tree = Tree::default();
    let mut enough = true;
    let surveyed = modules::each(text, 1, true, &mut |found| {
        enough = tree.push(found.module.count);
        enough
    });
    let lines = Lines { file, text };
    if let Err(fault) = surveyed {
        return refused(vec![fault], &lines, messages);
    }
    if !enough {
        messages.error(file, Tree::too_many());
        return Answer::Refused;
    }
    if tree.blocks.is_empty() {
        messages.error(file, "no module: is it Verilog?");
        return Answer::Refused;
    }
    tree.settle(types);
    let Some(top) = tree.choose(file, wanted.top, types, messages) else { return Answer::Refused };
    let mut design = Design { file: file.to_string(), name: tree.blocks[top].name.clone(), ..Design::default() };
    design.block = wanted.top.is_some() && tree.blocks.len() > 1;
    let Some(parts) = tree.parts(file, top, &mut design, messages) else { return Answer::Refused };
    let mut used: Vec<Option<Module>> = Vec::new();
    used.resize_with(tree.blocks.len(), || None);
    let mut faults = Vec::new();
    for at in parts {
        let block = &tree.blocks[at];
        let parsed = modules::each(&text[block.bytes.clone()], block.line, false, &mut |found| {
            faults.extend(found.faults);
            used[at] = Some(found.module);
            true
        });
        faults.extend(parsed.err());
        if faults.len() > 500 {
            break;
        }
    }
    if !faults.is_empty() {
        return refused(faults, &lines, messages);
    }
    // The order of a cell's pins stands in its module, if that is in the file.
    let mut orders = HashMap::new();
    let mut reader = Reader {
        lines: &lines,
        tree: &tree,
        modules: &used,
        orders: &mut orders,
        design,
        messages,
        open_pins: 0,
        resized: 0,
        tables: 0,
        unknown: Unknown::default(),
        wired: HashMap::new(),
    };
    reader.chip(top, types);
    reader.finish(wanted)
}

fn refused(mut faults: Vec<Fault>, lines: &Lines, messages: &mut Messages) -> Answer {
    faults.sort_by_key(|fault| fault.line);
    if faults.iter().any(|fault| fault.beyond) {
        return Answer::Beyond(faults);
    }
    for fault in faults {
        lines.error(messages, fault.line, fault.words);
    }
    Answer::Refused
}

/// An instance of a module: what stands before its names, and what each bit is in the chip.
struct Frame<'v, 'a> {
    prefix: String,
    module: &'v Module<'a>,
    bits: HashMap<(usize, usize), Source>,
    /// Nets that are not declared: one bit each.
    implied: HashMap<&'a str, Source>,
    unnamed: usize,
}

/// A bit of an expression.
enum Node {
    Leaf(Source),
    Not(Box<Node>),
    Many(Op, bool, Vec<Node>),
    Choose(Box<[Node; 3]>),
}

struct Reader<'v, 'a, 'm> {
    lines: &'v Lines<'a>,
    tree: &'v Tree,
    modules: &'v [Option<Module<'a>>],
    orders: &'v mut HashMap<usize, Vec<String>>,
    design: Design,
    messages: &'m mut Messages,
    open_pins: usize,
    /// Connections of another width than their port.
    resized: usize,
    /// Expressions that were read as one gate.
    tables: usize,
    unknown: Unknown,
    /// Nets that several may drive: how they are joined, and their drivers.
    wired: HashMap<usize, (Op, Vec<usize>)>,
}

type Told<T> = Result<T, String>;

impl<'v, 'a: 'v> Reader<'v, 'a, '_> {
    fn error(&mut self, line: usize, words: impl AsRef<str>) {
        self.lines.error(self.messages, line, words);
    }

    fn chip(&mut self, top: usize, types: &mut Types) {
        let Some(module) = &self.modules[top] else { return };
        let mut frame = Frame::new(String::new(), module);
        for name in &module.ports {
            let Some(&at) = module.places.get(name) else {
                self.error(module.line, format!("the port {name} has no direction"));
                continue;
            };
            let declared = &module.nets[at];
            for place in 0..declared.width() {
                if self.design.full() {
                    break;
                }
                let Source::Net(net) = self.bit(at, place, &mut frame) else { continue };
                let name = declared.bit_name(place);
                self.design.nets[net].port.get_or_insert(name.clone());
                match declared.way {
                    Some(Way::Input) => self.design.inputs.push(net),
                    Some(Way::Inout) => self.design.inouts.push(net),
                    Some(Way::Output) => self.design.outputs.push((name, Source::Net(net))),
                    None => {
                        self.error(module.line, format!("the port {name} has no direction"));
                        break;
                    }
                }
            }
        }
        self.module(&mut frame, types);
        if self.design.full() {
            self.messages.error(self.lines.file, too_many());
        }
        std::mem::take(&mut self.unknown).tell(types, |line, words| self.error(line, words));
    }

    fn finish(mut self, wanted: &Wanted) -> Answer {
        self.join_wired();
        if self.open_pins > 0 {
            let words = "pins are connected to nothing (or to x or z): open lines, which can never be set";
            self.messages.warn(format!("{} {words}", self.open_pins));
        }
        if self.resized > 0 {
            let words = "connections are wider or narrower than their ports: cut, or filled with 0, as Verilog has it";
            self.messages.warn(format!("{} {words}", self.resized));
        }
        if self.tables > 0 {
            self.messages.note(format!("{} expressions of an assign are read as one gate each", self.tables));
        }
        if self.messages.errors() == 0 {
            self.design.settle(self.lines, wanted.allow_open, self.messages);
        }
        Answer::Read(Box::new(self.design))
    }

    fn new_net(&mut self, name: String, hidden: bool) -> usize {
        if self.design.full() {
            // Told once all is read: which net it is does not matter any more.
            return 0;
        }
        let net = self.design.add_net();
        self.design.name_bytes += name.len();
        if hidden {
            self.design.nets[net].hidden = Some(name);
        } else {
            self.design.nets[net].names.push(name);
        }
        net
    }

    fn bit(&mut self, at: usize, place: usize, frame: &mut Frame<'v, 'a>) -> Source {
        if let Some(&source) = frame.bits.get(&(at, place)) {
            return source;
        }
        let declared = &frame.module.nets[at];
        if let Net::Constant(value) = declared.net {
            return Source::Constant(value);
        }
        let net = self.new_net(format!("{}{}", frame.prefix, declared.bit_name(place)), false);
        match declared.net {
            Net::And => drop(self.wired.entry(net).or_insert((Op::And, Vec::new()))),
            Net::Or => drop(self.wired.entry(net).or_insert((Op::Or, Vec::new()))),
            _ => {}
        }
        if !self.design.full() {
            frame.bits.insert((at, place), Source::Net(net));
        }
        Source::Net(net)
    }

    /// The bits of nets and constants, the lightest first.
    fn sources(&mut self, of: &Expr<'a>, frame: &mut Frame<'v, 'a>) -> Told<Vec<Source>> {
        let nodes = self.nodes(of, None, frame)?;
        nodes
            .into_iter()
            .map(|node| match node {
                Node::Leaf(source) => Ok(source),
                _ => Err("an expression stands where a net is wanted: give it a name by an assign".to_string()),
            })
            .collect()
    }

    /// The bits of an expression, the lightest first; a constant without a width has the one that is wanted.
    fn nodes(&mut self, of: &Expr<'a>, width: Option<usize>, frame: &mut Frame<'v, 'a>) -> Told<Vec<Node>> {
        let bits = match of {
            Expr::Name(name) => match frame.module.places.get(name) {
                Some(&at) => {
                    let width = frame.module.nets[at].width();
                    checked(width)?;
                    (0..width).map(|place| Node::Leaf(self.bit(at, place, frame))).collect()
                }
                None => {
                    let known = frame.implied.get(name).copied();
                    let source =
                        known.unwrap_or_else(|| Source::Net(self.new_net(format!("{}{name}", frame.prefix), false)));
                    frame.implied.insert(name, source);
                    vec![Node::Leaf(source)]
                }
            },
            Expr::Part(name, left, right) => {
                let Some(&at) = frame.module.places.get(name) else {
                    return Err(format!("{name} is not declared, and has no bits"));
                };
                let declared = &frame.module.nets[at];
                let (Some(high), Some(low)) = (declared.place(*left), declared.place(*right)) else {
                    return Err(format!(
                        "{name} has no bit {}",
                        if declared.place(*left).is_none() { left } else { right }
                    ));
                };
                if high < low {
                    return Err(format!("{name}[{left}:{right}] runs against its range"));
                }
                checked(high - low + 1)?;
                (low..=high).map(|place| Node::Leaf(self.bit(at, place, frame))).collect()
            }
            Expr::Constant(bits, sized) => {
                let mut bits = bits.clone();
                if let Some(width) = width.filter(|_| !sized) {
                    checked(width)?;
                    bits.resize(width, bits.last().copied().flatten().map(|_| false));
                }
                let leaf = |bit: Option<bool>| Node::Leaf(bit.map_or(Source::Open, Source::Constant));
                bits.into_iter().map(leaf).collect()
            }
            Expr::Join(all) => {
                let mut bits = Vec::new();
                for part in all.iter().rev() {
                    if matches!(part, Expr::Constant(_, false)) {
                        return Err("a constant without a width inside { }".to_string());
                    }
                    bits.extend(self.nodes(part, None, frame)?);
                    checked(bits.len())?;
                }
                bits
            }
            Expr::Repeat(count, inner) => {
                let inner = self.sources(inner, frame)?;
                checked(inner.len().saturating_mul(*count))?;
                (0..*count).flat_map(|_| inner.iter().map(|&source| Node::Leaf(source))).collect()
            }
            Expr::Not(inner) => {
                let inner = self.nodes(inner, width, frame)?;
                inner.into_iter().map(|node| Node::Not(Box::new(node))).collect()
            }
            Expr::Many(op, inverted, all) => {
                let mut parts = Vec::new();
                for part in all {
                    parts.push(self.nodes(part, width, frame)?.into_iter());
                }
                let width = parts[0].len();
                if parts.iter().any(|part| part.len() != width) {
                    return Err("an operator on nets of different widths".to_string());
                }
                let one = |_| Node::Many(*op, *inverted, parts.iter_mut().filter_map(Iterator::next).collect());
                (0..width).map(one).collect()
            }
            Expr::Choose(all) => {
                let [by, one, other] = &**all;
                let mut by = self.sources(by, frame)?;
                let (one, other) = (self.nodes(one, width, frame)?, self.nodes(other, width, frame)?);
                if by.len() != 1 || one.len() != other.len() {
                    return Err("a choice by more than one bit, or of different widths".to_string());
                }
                let by = by.remove(0);
                let pairs = one.into_iter().zip(other);
                pairs.map(|(one, other)| Node::Choose(Box::new([Node::Leaf(by), one, other]))).collect()
            }
        };
        Ok(bits)
    }

    fn module(&mut self, frame: &mut Frame<'v, 'a>, types: &mut Types) {
        let module = frame.module;
        self.design.initial_values += module.initial_values;
        for (line, item) in &module.items {
            let done = match item {
                Item::Assign { to, from } => self.assign(*line, to, from, frame),
                Item::Register { to, from, clock, rising } => self.register(*line, to, from, clock, *rising, frame),
                Item::Gate { word, name, pins } => self.primitive(*line, word, name, pins, frame),
                Item::Instance { title, name, pins } => self.instance(*line, title, name, pins, frame, types),
            };
            if let Err(words) = done {
                self.error(*line, words);
            }
            if self.messages.full() || self.design.full() {
                break;
            }
        }
    }

    /// The nets that an item drives.
    fn driven(&mut self, to: &Expr<'a>, frame: &mut Frame<'v, 'a>) -> Told<Vec<usize>> {
        let sources = self.sources(to, frame)?;
        sources
            .into_iter()
            .map(|source| match source {
                Source::Net(net) => Ok(self.driver(net)),
                _ => Err("a constant is driven".to_string()),
            })
            .collect()
    }

    /// What drives this net: itself, or a net of its own where several may.
    fn driver(&mut self, net: usize) -> usize {
        let Some((_, drivers)) = self.wired.get(&net) else { return net };
        let name = format!("{} (driver {})", self.design.nets[net].name(), drivers.len() + 1);
        let own = self.new_net(name, false);
        if let Some((_, drivers)) = self.wired.get_mut(&net) {
            drivers.push(own);
        }
        own
    }

    /// A wand is an AND of its drivers, a wor an OR.
    fn join_wired(&mut self) {
        let mut wired: Vec<(usize, (Op, Vec<usize>))> = std::mem::take(&mut self.wired).into_iter().collect();
        wired.sort_unstable_by_key(|(net, _)| *net);
        for (net, (op, drivers)) in wired {
            match drivers.as_slice() {
                [] => {}
                [one] => {
                    // One driver alone is the net.
                    self.design.nets[*one].names.clear();
                    self.design.wires.push((net, Source::Net(*one), 0));
                }
                _ => {
                    let kind = kind_of(op, false, vec![false; drivers.len()]);
                    let pins = drivers.iter().map(|&net| Source::Net(net)).collect();
                    self.gate(0, "", String::new(), kind, pins, net);
                }
            }
        }
    }

    fn gate(&mut self, line: usize, title: &str, instance: String, kind: Kind, pins: Vec<Source>, output: usize) {
        self.open_pins += pins.iter().filter(|&&pin| pin == Source::Open).count();
        let names = (1..=pins.len()).map(|at| format!("I{at}")).collect();
        let cell = Cell { title: title.to_string(), pins: names, output: "O".to_string(), kind };
        let source = self.source_of(line);
        self.design.name_bytes += instance.len();
        self.design.gates.push(Gate { cell: Rc::new(cell), instance, pins, output, source, line });
    }

    /// Where a gate stands, for the user.
    fn source_of(&self, line: usize) -> String {
        let file = self.lines.file.rsplit('/').next().unwrap_or("");
        if line == 0 {
            return String::new();
        }
        format!("{file}:{line}")
    }

    fn assign(&mut self, line: usize, to: &Expr<'a>, from: &Expr<'a>, frame: &mut Frame<'v, 'a>) -> Told<()> {
        let to = self.driven(to, frame)?;
        let mut from = self.nodes(from, Some(to.len()), frame)?;
        // What is too short is filled by 0, what is too long is cut.
        from.truncate(to.len());
        from.resize_with(to.len(), || Node::Leaf(Source::Constant(false)));
        for (net, node) in to.into_iter().zip(from) {
            self.drive(line, net, node)?;
        }
        Ok(())
    }

    /// A net is another one, or the output of a gate that is the expression.
    fn drive(&mut self, line: usize, net: usize, node: Node) -> Told<()> {
        if let Node::Leaf(source) = node {
            if source != Source::Net(net) {
                self.design.wires.push((net, source, line));
                return Ok(());
            }
            return Err(format!("{} is assigned to itself", self.design.nets[net].name()));
        }
        let mut pins = Vec::new();
        node.pins(&mut pins)?;
        let n = pins.len();
        if let Some((op, inverted, flipped)) = node.flat(&pins) {
            if n >= 2 {
                self.tables += 1;
                let pins = pins.into_iter().map(Source::Net).collect();
                self.gate(line, "", String::new(), kind_of(op, inverted, flipped), pins, net);
                return Ok(());
            }
        }
        if n > MOST_PINS {
            return Err(format!(
                "an expression over {n} nets, a cell has at most {MOST_PINS}: part it, or have it synthesised, see \
                 'scoap_pads --recipes'"
            ));
        }
        let table = Table::of(n, |s| node.value(&pins, s));
        match (n, table.digits().as_str()) {
            (0, digits) => self.design.wires.push((net, Source::Constant(digits == "1"), line)),
            (1, "01") => self.design.wires.push((net, Source::Net(pins[0]), line)),
            _ => {
                self.tables += 1;
                let pins = pins.into_iter().map(Source::Net).collect();
                self.gate(line, "", String::new(), Kind::Table(table), pins, net);
            }
        }
        Ok(())
    }

    fn register(
        &mut self,
        line: usize,
        to: &Expr<'a>,
        from: &Expr<'a>,
        clock: &Expr<'a>,
        rising: bool,
        frame: &mut Frame<'v, 'a>,
    ) -> Told<()> {
        let to = self.driven(to, frame)?;
        let clock = self.sources(clock, frame)?;
        let [clock] = clock.as_slice() else { return Err("a clock of several bits".to_string()) };
        let mut from = self.nodes(from, Some(to.len()), frame)?;
        from.truncate(to.len());
        from.resize_with(to.len(), || Node::Leaf(Source::Constant(false)));
        for (net, node) in to.into_iter().zip(from) {
            let data = match node {
                Node::Leaf(source) => source,
                node => {
                    let next = self.new_net(format!("{} (next)", self.design.nets[net].name()), true);
                    self.drive(line, next, node)?;
                    Source::Net(next)
                }
            };
            let cell = Cell {
                title: String::new(),
                pins: vec!["D".to_string(), "C".to_string()],
                output: "Q".to_string(),
                kind: cells::plain_register(rising),
            };
            let source = self.source_of(line);
            let instance = String::new();
            let pins = vec![data, *clock];
            self.design.gates.push(Gate { cell: Rc::new(cell), instance, pins, output: net, source, line });
        }
        Ok(())
    }

    fn primitive(
        &mut self,
        line: usize,
        word: &str,
        name: &str,
        pins: &[Expr<'a>],
        frame: &mut Frame<'v, 'a>,
    ) -> Told<()> {
        let three_state = word.contains("if");
        let several = word == "buf" || word == "not";
        let least = if three_state { 3 } else { 2 };
        if pins.len() < least || (three_state && pins.len() > least) {
            return Err(format!("{word} has {} pins", pins.len()));
        }
        let outputs = if several { pins.len() - 1 } else { 1 };
        let mut read = Vec::new();
        for pin in &pins[outputs..] {
            let sources = self.sources(pin, frame)?;
            let [source] = sources.as_slice() else {
                return Err(format!("a pin of {word} has {} bits: name one", sources.len()));
            };
            read.push(*source);
        }
        let n = read.len();
        let one = |value: bool| Kind::Table(Table::of(1, |s| (s == 1) == value));
        let upper = word.to_ascii_uppercase();
        let kind = match word {
            "buf" => one(true),
            "not" => one(false),
            _ if three_state => {
                let (inverted, low) = (word.starts_with("not"), word.ends_with('0'));
                let data = Table::of(2, |s| (s & 1 == 1) != inverted);
                let enable = Table::of(2, |s| (s & 2 == 2) != low);
                Kind::Driver(Driver { data, enable })
            }
            _ if n == 1 => one(!["nand", "nor", "xnor"].contains(&word)),
            _ => cells::gate_by_word(&upper, n).expect("a gate"),
        };
        let instance = if name.is_empty() { String::new() } else { format!("{}{name}", frame.prefix) };
        for pin in &pins[..outputs] {
            let nets = self.driven(pin, frame)?;
            let [net] = nets.as_slice() else { return Err(format!("the output of {word} has {} bits", nets.len())) };
            self.gate(line, &upper, instance.clone(), kind.clone(), read.clone(), *net);
        }
        Ok(())
    }

    fn instance(
        &mut self,
        line: usize,
        title: &str,
        name: &str,
        pins: &[(Option<&'a str>, Option<Expr<'a>>)],
        frame: &mut Frame<'v, 'a>,
        types: &mut Types,
    ) -> Told<()> {
        frame.unnamed += usize::from(name.is_empty());
        let name = if name.is_empty() { format!("{title}_{}", frame.unnamed) } else { name.to_string() };
        let place = self.tree.place(title);
        let by_order = pins.iter().any(|(pin, _)| pin.is_none());
        if by_order && pins.iter().any(|(pin, _)| pin.is_some()) {
            return Err("pins by name and by order together".to_string());
        }
        if types.is_box(title) {
            return self.boxed(line, title, &name, pins, frame, types);
        }
        match (types.find(title), place) {
            (Some(Ok(kind)), place) => {
                let order = place.filter(|_| by_order).map(|place| self.order(place));
                if by_order && order.is_none() {
                    return Err(format!("the order of the pins of {title} is not known: name them, as .PIN(NET)"));
                }
                let mut read = HashMap::new();
                let mut driven = HashMap::new();
                for (at, (pin, given)) in pins.iter().enumerate() {
                    let named = order.as_ref().and_then(|order| order.get(at)).map(String::as_str);
                    let Some(pin) = pin.or(named) else {
                        return Err(format!("{title} has {} pins", order.map_or(0, |order| order.len())));
                    };
                    let Some(given) = given else { continue };
                    let sources = self.pin_sources(given, frame)?;
                    for (at, &source) in sources.iter().enumerate() {
                        let pin = if sources.len() == 1 { pin.to_string() } else { format!("{pin}[{at}]") };
                        if kind.inputs.contains(&pin) {
                            read.insert(pin, source);
                        } else if kind.outputs.iter().any(|cell| cell.output == pin) {
                            match source {
                                Source::Net(net) => drop(driven.insert(pin, self.driver(net))),
                                Source::Constant(_) => {
                                    return Err(format!("its output {pin} is connected to a constant"))
                                }
                                Source::Open => {}
                            }
                        } else if matches!(source, Source::Net(_)) {
                            return Err(format!("the type {title} has no pin {pin} with a function"));
                        }
                    }
                }
                let instance = format!("{}{name}", frame.prefix);
                self.design.name_bytes += instance.len();
                let place = Place { instance, source: self.source_of(line), line };
                self.open_pins += add_gates(&mut self.design, &kind, &place, &read, &driven);
                Ok(())
            }
            (Some(Err(words)), _) => Err(format!("the type {title}: {words}")),
            (None, Some(place)) => self.block(place, &name, pins, by_order, frame, types),
            (None, None) => {
                self.unknown.add(title, "this cell", line);
                Ok(())
            }
        }
    }

    /// A cell that stays closed. A pin that is not named is called by its place.
    fn boxed(
        &mut self,
        line: usize,
        title: &str,
        name: &str,
        pins: &[(Option<&'a str>, Option<Expr<'a>>)],
        frame: &mut Frame<'v, 'a>,
        types: &Types,
    ) -> Told<()> {
        let mut connected = Vec::new();
        for (at, (pin, given)) in pins.iter().enumerate() {
            let Some(given) = given else { continue };
            let pin = pin.map_or_else(|| (at + 1).to_string(), str::to_string);
            let drives = types.drives(title, &pin);
            let sources = self.pin_sources(given, frame)?;
            for (bit, &source) in sources.iter().enumerate() {
                let pin = if sources.len() == 1 { pin.clone() } else { format!("{pin}[{bit}]") };
                let source = match source {
                    Source::Net(net) if drives == Some(true) => Source::Net(self.driver(net)),
                    other => other,
                };
                connected.push((pin, source, drives));
            }
        }
        self.design.box_pins += connected.len();
        let instance = format!("{}{name}", frame.prefix);
        self.design.boxes.push(Boxed { title: title.to_string(), instance, pins: connected, line });
        Ok(())
    }

    /// What a pin reads: an unsized constant is one bit.
    fn pin_sources(&mut self, given: &Expr<'a>, frame: &mut Frame<'v, 'a>) -> Told<Vec<Source>> {
        let mut sources = self.sources(given, frame)?;
        if matches!(given, Expr::Constant(_, false)) {
            sources.truncate(1);
        }
        Ok(sources)
    }

    /// The ports of a module of a library's cell, in their order.
    fn order(&mut self, place: usize) -> Vec<String> {
        let (tree, text) = (self.tree, self.lines.text);
        let order = self.orders.entry(place).or_insert_with(|| {
            let block = &tree.blocks[place];
            let mut order = Vec::new();
            // Its behaviour does not matter.
            let _ = modules::each(&text[block.bytes.clone()], block.line, true, &mut |found| {
                order = found.module.ports.iter().map(|port| port.to_string()).collect();
                true
            });
            order
        });
        order.clone()
    }

    /// A module inside this one: its ports are the nets outside, and all else is copied.
    fn block(
        &mut self,
        place: usize,
        name: &str,
        pins: &[(Option<&'a str>, Option<Expr<'a>>)],
        by_order: bool,
        frame: &mut Frame<'v, 'a>,
        types: &mut Types,
    ) -> Told<()> {
        let Some(module) = &self.modules[place] else { return Ok(()) };
        let title = module.name;
        if by_order && pins.len() > module.ports.len() {
            return Err(format!("{} connections, {title} has {} ports", pins.len(), module.ports.len()));
        }
        let mut inner = Frame::new(format!("{}{name}.", frame.prefix), module);
        let mut given: HashMap<&str, &Option<Expr<'a>>> = HashMap::new();
        for (at, (pin, expr)) in pins.iter().enumerate() {
            let port = pin.unwrap_or_else(|| module.ports[at]);
            if given.insert(port, expr).is_some() {
                return Err(format!("the port {port} of {title} stands twice"));
            }
        }
        for &port in &module.ports {
            let at = module.places.get(port).copied().filter(|&at| module.nets[at].way.is_some());
            let Some(at) = at else { return Err(format!("the port {port} of {title} has no direction")) };
            let declared = &module.nets[at];
            let width = declared.width();
            checked(width)?;
            let expr = given.remove(port).and_then(Option::as_ref);
            let input = declared.way == Some(Way::Input);
            let mut outside = match expr {
                Some(expr) => {
                    let mut sources = Vec::new();
                    for node in self.nodes(expr, Some(width), frame)? {
                        sources.push(self.value_of(node, input)?);
                    }
                    sources
                }
                None => vec![Source::Open; width],
            };
            if outside.len() != width {
                if !input && outside.len() > width {
                    return Err(format!("{} bits at port {port} of {title}, which drives {width}", outside.len()));
                }
                self.resized += 1;
                outside.resize(width, if input { Source::Constant(false) } else { Source::Open });
            }
            for (bit, source) in outside.into_iter().enumerate() {
                self.bind(declared, at, bit, source, input, &mut inner)
                    .map_err(|words| format!("the port {port} of {title} {words}"))?;
                if self.design.full() {
                    return Ok(());
                }
            }
        }
        if let Some(port) = given.keys().min() {
            return Err(format!("{title} has no port {port}"));
        }
        self.module(&mut inner, types);
        Ok(())
    }

    /// A bit at an input may be an expression: a gate of its own.
    fn value_of(&mut self, node: Node, input: bool) -> Told<Source> {
        match node {
            Node::Leaf(source) => Ok(source),
            _ if !input => Err("an output at an expression".to_string()),
            node => {
                let net = self.new_net(format!("(expression {})", self.tables + 1), true);
                self.drive(0, net, node)?;
                Ok(Source::Net(net))
            }
        }
    }

    fn bind(
        &mut self,
        declared: &Declared,
        at: usize,
        bit: usize,
        outside: Source,
        input: bool,
        inner: &mut Frame<'v, 'a>,
    ) -> Result<(), &'static str> {
        match outside {
            Source::Net(net) => {
                let net = if declared.way == Some(Way::Output) { self.driver(net) } else { net };
                let name = format!("{}{}", inner.prefix, declared.bit_name(bit));
                self.design.name_bytes += name.len();
                self.design.nets[net].names.push(name);
                inner.bits.insert((at, bit), Source::Net(net));
            }
            source if input => drop(inner.bits.insert((at, bit), source)),
            Source::Constant(_) => return Err("drives a constant"),
            Source::Open => {}
        }
        Ok(())
    }
}

impl<'v, 'a> Frame<'v, 'a> {
    fn new(prefix: String, module: &'v Module<'a>) -> Self {
        Frame { prefix, module, bits: HashMap::new(), implied: HashMap::new(), unnamed: 0 }
    }
}

fn checked(width: usize) -> Told<()> {
    if width > MOST_NETS {
        return Err(format!("{} bits, far above what is read: {}", grouped(width as u64), grouped(MOST_NETS as u64)));
    }
    Ok(())
}

fn kind_of(op: Op, inverted: bool, flipped: Vec<bool>) -> Kind {
    let op = match op {
        Op::And => cells::Op::And,
        Op::Or => cells::Op::Or,
        Op::Xor => cells::Op::Xor,
    };
    cells::gate(op, inverted, flipped)
}

impl Node {
    /// The nets that it reads, each once, in their order.
    fn pins(&self, pins: &mut Vec<usize>) -> Told<()> {
        let mut known: HashMap<usize, ()> = HashMap::new();
        self.walk(&mut |source| match source {
            Source::Net(net) => {
                if known.insert(net, ()).is_none() {
                    pins.push(net);
                }
                Ok(())
            }
            Source::Constant(_) => Ok(()),
            Source::Open => Err("x or z inside an expression".to_string()),
        })
    }

    fn walk(&self, take: &mut dyn FnMut(Source) -> Told<()>) -> Told<()> {
        match self {
            Node::Leaf(source) => take(*source),
            Node::Not(inner) => inner.walk(take),
            Node::Many(_, _, all) => all.iter().try_for_each(|node| node.walk(take)),
            Node::Choose(all) => all.iter().try_for_each(|node| node.walk(take)),
        }
    }

    fn value(&self, pins: &[usize], setting: u32) -> bool {
        match self {
            Node::Leaf(Source::Net(net)) => {
                let at = pins.iter().position(|pin| pin == net).unwrap_or(0);
                setting >> at & 1 == 1
            }
            Node::Leaf(source) => *source == Source::Constant(true),
            Node::Not(inner) => !inner.value(pins, setting),
            Node::Many(op, inverted, all) => {
                let mut values = all.iter().map(|node| node.value(pins, setting));
                let value = match op {
                    Op::And => values.all(|value| value),
                    Op::Or => values.any(|value| value),
                    Op::Xor => values.fold(false, |sum, value| sum != value),
                };
                value != *inverted
            }
            Node::Choose(all) => all[if all[0].value(pins, setting) { 1 } else { 2 }].value(pins, setting),
        }
    }

    /// One operator over nets that are each read once, perhaps inverted.
    fn flat(&self, pins: &[usize]) -> Option<(Op, bool, Vec<bool>)> {
        match self {
            Node::Not(inner) => inner.flat(pins).map(|(op, inverted, flipped)| (op, !inverted, flipped)),
            Node::Many(op, inverted, all) if all.len() == pins.len() => {
                let flipped: Option<Vec<bool>> = all
                    .iter()
                    .map(|node| match node {
                        Node::Leaf(Source::Net(_)) => Some(false),
                        Node::Not(inner) => matches!(**inner, Node::Leaf(Source::Net(_))).then_some(true),
                        _ => None,
                    })
                    .collect();
                flipped.map(|flipped| (*op, *inverted, flipped))
            }
            _ => None,
        }
    }
}
