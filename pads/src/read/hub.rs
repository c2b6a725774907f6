//! The hub that every reader fills: inputs, outputs, gates of one output each, and names.

use crate::ask::archive::{lines_told, MOST_LINES};
use crate::read::boxes::{self, Boxed};
use crate::rows::cells::{Cell, Kind};
use crate::show::cost::grouped;
use crate::show::messages::Messages;
use std::ops::Range;
use std::rc::Rc;

/// What a pin or an output reads.
#[derive(Clone, Copy, Debug, PartialEq, Eq)]
pub enum Source {
    Net(usize),
    Constant(bool),
    /// Nothing: x, z or no connection.
    Open,
}

#[derive(Clone, Debug, Default)]
pub struct Net {
    /// The name as a port of the chip.
    pub port: Option<String>,
    /// Public names, in the file's order.
    pub names: Vec<String>,
    /// A name that the tool made.
    pub hidden: Option<String>,
    pub source: String,
}

impl Net {
    /// The port's name, the shortest public name, or the hidden one.
    pub fn name(&self) -> &str {
        if let Some(port) = &self.port {
            return port;
        }
        // The same in every format, whatever the order of its names.
        let shortest = self.names.iter().min_by_key(|name| (name.len(), *name));
        shortest.or(self.hidden.as_ref()).map_or("?", |name| name)
    }

    pub fn is_hidden(&self) -> bool {
        self.port.is_none() && self.names.is_empty()
    }

    /// The public names besides the one shown.
    pub fn aliases(&self) -> Vec<String> {
        let shown = self.name();
        let mut aliases: Vec<String> = Vec::new();
        for name in self.names.iter().filter(|name| *name != shown) {
            if !aliases.contains(name) && aliases.len() < 20 {
                aliases.push(name.clone());
            }
        }
        aliases
    }
}

#[derive(Clone, Debug)]
pub struct Gate {
    pub cell: Rc<Cell>,
    pub instance: String,
    pub pins: Vec<Source>,
    pub output: usize,
    /// Where it stands in the user's source.
    pub source: String,
    /// Its line in the netlist's text, 0 where there is none.
    pub line: usize,
}

impl Gate {
    /// How an error calls it.
    fn told(&self) -> String {
        match (self.line, self.source.as_str()) {
            (0, "") => format!("cell {}", self.instance),
            (0, source) => format!("cell {} ({source})", self.instance),
            (line, _) => format!("line {line}"),
        }
    }
}

#[derive(Clone, Debug, Default)]
pub struct Design {
    pub file: String,
    pub name: String,
    pub nets: Vec<Net>,
    pub inputs: Vec<usize>,
    /// The port's name and what it reads.
    pub outputs: Vec<(String, Source)>,
    /// Nets that are ports in both directions.
    pub inouts: Vec<usize>,
    pub gates: Vec<Gate>,
    /// Nets that are other names of what stands here.
    pub wires: Vec<(usize, Source, usize)>,
    /// Cells that drive nothing were left out, or values at the start: told to the user.
    pub initial_values: usize,
    /// A block of a larger netlist.
    pub block: bool,
    /// Bytes of the names that a reader made.
    pub name_bytes: usize,
    /// The tree of blocks, and those that the analyser takes, for a chip of too many lines.
    pub tree: String,
    pub smaller: String,
    /// Cells that stay closed, and their pins together.
    pub boxes: Vec<Boxed>,
    pub box_pins: usize,
    /// Their types, once they have been put among inputs and outputs.
    pub closed: Vec<String>,
    /// Which of the outputs are what boxes take.
    pub taken: Range<usize>,
}

/// Gates and nets that a reader takes at all; far above what the analyser does.
pub const MOST_GATES: usize = 20 * MOST_LINES;
pub const MOST_NETS: usize = 40 * MOST_LINES;
/// Bytes of all names together.
pub const MOST_NAME_BYTES: usize = 16 << 20;
pub fn too_many() -> String {
    format!(
        "more than {} gates, {} nets or {} MB of names, the analyser takes {}",
        grouped(MOST_GATES as u64),
        grouped(MOST_NETS as u64),
        MOST_NAME_BYTES >> 20,
        lines_told()
    )
}

/// The texts of a netlist's lines, for messages; none for JSON.
pub struct Lines<'a> {
    pub file: &'a str,
    pub text: &'a str,
}

impl Lines<'_> {
    pub fn error(&self, messages: &mut Messages, line: usize, words: impl AsRef<str>) {
        // The text is looked for only where it will be shown.
        let at = line.checked_sub(1).filter(|_| messages.shows_more());
        match at.and_then(|at| self.text.lines().nth(at)) {
            Some(text) => messages.error_at(self.file, line, text, words),
            None => messages.error(self.file, words),
        }
    }
}

impl Design {
    /// No more gates, nets or wires are taken.
    pub fn full(&self) -> bool {
        self.gates.len() > MOST_GATES
            || self.nets.len() > MOST_NETS
            || self.wires.len() > MOST_NETS
            || self.name_bytes > MOST_NAME_BYTES
            || self.boxes.len() > MOST_GATES
            || self.box_pins > MOST_NETS
    }

    pub fn add_net(&mut self) -> usize {
        self.nets.push(Net::default());
        self.nets.len() - 1
    }

    /// Puts every wire's other name to its net, parts inout ports from their drivers, and finds nets with two drivers or
    /// none.
    pub fn settle(&mut self, lines: &Lines, allow_open: bool, messages: &mut Messages) {
        boxes::open(self, lines, messages);
        self.join_wires(lines, messages);
        self.part_inouts();
        let drivers = self.drivers(lines, messages);
        self.drive_all(lines, &drivers, allow_open, messages);
    }

    fn join_wires(&mut self, lines: &Lines, messages: &mut Messages) {
        if self.wires.is_empty() {
            return;
        }
        let mut stands_for: Vec<Option<(Source, usize)>> = vec![None; self.nets.len()];
        let driven: Vec<Option<usize>> = {
            let mut driven = vec![None; self.nets.len()];
            for gate in &self.gates {
                driven[gate.output] = Some(gate.line);
            }
            driven
        };
        let mut is_input = vec![false; self.nets.len()];
        self.inputs.iter().for_each(|&net| is_input[net] = true);
        for &(net, source, line) in &self.wires {
            let other = stands_for[net].map(|(_, other)| other).or(driven[net]);
            let by = match other {
                Some(0) => ", by another part".to_string(),
                Some(other) => format!(", by line {other}"),
                None if is_input[net] => ": it is an input".to_string(),
                None => {
                    stands_for[net] = Some((source, line));
                    continue;
                }
            };
            let name = self.nets[net].name();
            lines.error(messages, line, format!("{name} is driven already{by}"));
        }
        let (ends, loops) = ends_of(&stands_for);
        for net in loops {
            let line = stands_for[net].map_or(0, |(_, line)| line);
            let words = format!("{} is a wire of a loop that nothing drives", self.nets[net].name());
            lines.error(messages, line, words);
        }
        for (net, &end) in ends.iter().enumerate() {
            if let Source::Net(other) = end {
                if other != net {
                    let taken = std::mem::take(&mut self.nets[net]);
                    let whole = &mut self.nets[other];
                    whole.names.extend(taken.names);
                    whole.hidden = whole.hidden.take().or(taken.hidden);
                    if let Some(port) = taken.port {
                        match &whole.port {
                            None => whole.port = Some(port),
                            Some(_) => whole.names.push(port),
                        }
                    }
                }
            }
        }
        let put = |source: &mut Source| {
            if let Source::Net(net) = *source {
                *source = ends[net];
            }
        };
        for gate in &mut self.gates {
            gate.pins.iter_mut().for_each(put);
        }
        self.outputs.iter_mut().for_each(|(_, source)| put(source));
        // A net of several outputs has the name of the first, in every format.
        let mut named = is_input;
        self.inouts.iter().for_each(|&net| named[net] = true);
        for (name, source) in &self.outputs {
            let &Source::Net(net) = source else { continue };
            if !std::mem::replace(&mut named[net], true) {
                let net = &mut self.nets[net];
                if let Some(other) = net.port.replace(name.clone()).filter(|other| other != name) {
                    net.names.push(other);
                }
            }
        }
    }

    /// A port in both directions with a three-state driver is an input and, apart, the driver's output.
    fn part_inouts(&mut self) {
        if self.inouts.is_empty() {
            return;
        }
        let mut drivers: Vec<(usize, usize)> = vec![(0, 0); self.nets.len()];
        for (at, gate) in self.gates.iter().enumerate() {
            drivers[gate.output] = (at, drivers[gate.output].1 + 1);
        }
        for at in 0..self.inouts.len() {
            let port = self.inouts[at];
            let (gate, count) = drivers[port];
            if count == 0 {
                self.inputs.push(port);
                continue;
            }
            if count > 1 {
                // Told as a net with two drivers.
                continue;
            }
            let name = self.nets[port].name().to_string();
            if matches!(self.gates[gate].cell.kind, Kind::Driver(_)) {
                self.inputs.push(port);
                let drive = self.add_net();
                self.nets[drive].port = Some(format!("{name} (drive)"));
                self.gates[gate].output = drive;
                self.outputs.push((format!("{name} (drive)"), Source::Net(drive)));
            } else {
                self.outputs.push((name, Source::Net(port)));
            }
        }
        self.inouts.clear();
    }

    fn drivers(&self, lines: &Lines, messages: &mut Messages) -> Vec<Option<String>> {
        let mut drivers: Vec<Option<String>> = vec![None; self.nets.len()];
        for &net in &self.inputs {
            if drivers[net].is_some() {
                let words = format!("{} is an input twice", self.nets[net].name());
                messages.error(lines.file, words);
            }
            drivers[net] = Some("an input".to_string());
        }
        for gate in &self.gates {
            let name = self.nets[gate.output].name();
            match &drivers[gate.output] {
                Some(other) if gate.line > 0 => {
                    lines.error(messages, gate.line, format!("{name} is driven already, by {other}"));
                }
                Some(other) => messages.error(
                    lines.file,
                    format!(
                        "net {name} is driven by {other} and by {}: where three-state cells share a net, put \
                         'tribuf -logic' into the synthesis",
                        gate.told()
                    ),
                ),
                None => drivers[gate.output] = Some(gate.told()),
            }
        }
        drivers
    }

    /// Every net that is read has a driver, or is declared open where that is allowed.
    fn drive_all(&mut self, lines: &Lines, drivers: &[Option<String>], allow_open: bool, messages: &mut Messages) {
        let mut told = vec![false; self.nets.len()];
        let mut opened = 0;
        let nets = &self.nets;
        let mut look = |source: &mut Source, reader: &str, line: usize, messages: &mut Messages| {
            let Source::Net(net) = *source else { return };
            if drivers[net].is_some() || std::mem::replace(&mut told[net], true) {
                return;
            }
            if allow_open {
                opened += 1;
                return;
            }
            let name = nets[net].name();
            lines.error(
                messages,
                line,
                format!("nothing drives {name}, which {reader} reads; with --open it becomes an open line"),
            );
        };
        for gate in &mut self.gates {
            let line = gate.line;
            let reader = if line > 0 { "this gate".to_string() } else { gate.told() };
            for source in &mut gate.pins {
                look(source, &reader, line, messages);
            }
        }
        for (port, source) in &mut self.outputs {
            look(source, &format!("output {port}"), 0, messages);
        }
        if opened > 0 {
            messages.warn(format!("{opened} nets without a driver are open lines: they can never be set"));
        }
    }
}

/// Where wires one behind the other end, and a net of each loop of them.
fn ends_of(stands_for: &[Option<(Source, usize)>]) -> (Vec<Source>, Vec<usize>) {
    let mut ends: Vec<Option<Source>> = vec![None; stands_for.len()];
    let mut on_path = vec![false; stands_for.len()];
    let mut loops = Vec::new();
    for net in 0..stands_for.len() {
        let mut path = Vec::new();
        let mut at = net;
        let end = loop {
            if let Some(end) = ends[at] {
                break end;
            }
            if std::mem::replace(&mut on_path[at], true) {
                loops.push(at);
                break Source::Open;
            }
            path.push(at);
            match stands_for[at] {
                Some((Source::Net(other), _)) => at = other,
                Some((source, _)) => break source,
                None => break Source::Net(at),
            }
        };
        for step in path {
            ends[step] = Some(end);
            on_path[step] = false;
        }
    }
    (ends.into_iter().map(|end| end.unwrap_or(Source::Open)).collect(), loops)
}

#[cfg(test)]
mod tests {
    use super::*;

    #[test]
    fn wires_end_and_loops_are_found() {
        let wire = |net: usize| Some((Source::Net(net), 1));
        let one = Some((Source::Constant(true), 1));
        let (ends, loops) = ends_of(&[wire(1), wire(2), None, one, wire(3), wire(6), wire(5)]);
        assert_eq!(ends[0], Source::Net(2));
        assert_eq!(ends[4], Source::Constant(true));
        assert_eq!(loops, [5]);
    }

    #[test]
    fn names_of_a_net() {
        let mut net = Net { names: vec!["long_name".into(), "b".into()], ..Net::default() };
        assert_eq!(net.name(), "b");
        assert_eq!(net.aliases(), ["long_name"]);
        net.port = Some("port".to_string());
        assert_eq!(net.name(), "port");
        assert_eq!(net.aliases().len(), 2);
    }
}
