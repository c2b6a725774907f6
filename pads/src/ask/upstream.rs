//! What feeds the protected lines. A line carries a protected value where it is that value: the protected line itself, the
//! data of its register, what buffers and inverters only hand on. Of the rest of the fan-in the distance is told. All of it
//! is read off the rows, so that it holds for any library; a cell's name says nothing here.

use crate::ask::model::{Driver, Model, Row};
use crate::read::load::many;
use crate::read::names::LineKind;
use std::cmp::Reverse;
use std::collections::{BinaryHeap, VecDeque};

/// How a line carries a protected value: which one, and how many registers earlier.
#[derive(Clone, Copy, Debug, PartialEq, Eq)]
struct Carried {
    of: usize,
    registers: usize,
}

/// The fan-in of the protected lines; each list by line.
#[derive(Clone, Debug, Default)]
pub struct Upstream {
    carried: Vec<Option<Carried>>,
    /// The nearest protected line, and the registers and gates on the way to it.
    nearest: Vec<Option<(usize, usize, usize)>>,
    /// Real gates and registers between the line and what carries a protected value.
    steps: Vec<Option<usize>>,
}

/// What a row asks of lines.
type Terms = Vec<(usize, bool)>;

impl Upstream {
    pub fn new(model: &Model, protected: &[usize]) -> Upstream {
        let carried = carried(model, protected);
        let steps = steps(model, &carried);
        Upstream { nearest: nearest(model, protected), steps, carried }
    }

    pub fn carries(&self, line: usize) -> bool {
        self.carried.get(line).is_some_and(Option::is_some)
    }

    /// The nearest protected line, and the registers and gates on the way to it; none for a line that is protected itself.
    pub fn nearest(&self, line: usize) -> Option<(usize, usize, usize)> {
        self.nearest.get(line).copied().flatten().filter(|&(to, ..)| to != line)
    }

    /// Whether a line carries a protected value, or stands within so many real gates and registers before one that does.
    pub fn within(&self, line: usize, steps: usize) -> bool {
        let own = self.steps.get(line).copied().flatten();
        self.carries(line) || steps > 0 && own.is_some_and(|own| own <= steps)
    }

    /// `carries secret, one register earlier`.
    pub fn carries_told(&self, model: &Model, line: usize) -> Option<String> {
        let Carried { of, registers } = self.carried.get(line).copied().flatten()?;
        if of == line {
            return Some("is protected itself".to_string());
        }
        let when = if registers == 0 { "" } else { ", one register earlier" };
        Some(format!("carries {}{when}", model.net_name(of)))
    }

    /// `upstream of secret: 1 register, 3 gates`, the nearest protected line.
    pub fn told(&self, model: &Model, line: usize) -> Option<String> {
        let (to, registers, gates) = self.nearest(line)?;
        Some(format!("upstream of {}: {}, {}", model.net_name(to), many(registers, "register"), many(gates, "gate")))
    }
}

/// How many of these lines a line is upstream of.
pub fn reached(model: &Model, line: usize, protected: &[usize]) -> usize {
    let mut seen = vec![false; model.driver.len()];
    let mut front = vec![line];
    while let Some(at) = front.pop() {
        for &(gate, pin) in &model.readers[at] {
            let out = model.gates[gate].line;
            if !model.cell_of(gate).clocks(pin) && !std::mem::replace(&mut seen[out], true) {
                front.push(out);
            }
        }
    }
    protected.iter().filter(|&&other| other != line && seen[other]).count()
}

/// The value of a line that a cell without pins drives.
fn constant(model: &Model, line: usize) -> Option<bool> {
    let Some(Driver::Gate(gate)) = model.driver[line] else { return None };
    let cell = model.cell_of(gate);
    match cell.control[0].as_slice() {
        [zero, one] if cell.pins == 0 && zero.is_empty() != one.is_empty() => Some(zero.is_empty()),
        _ => None,
    }
}

/// What a row asks of the lines at its pins; none where a constant or one wire at two pins cannot give it.
fn terms(model: &Model, gate: usize, row: &Row) -> Option<Terms> {
    let pins = &model.gates[gate].pins;
    let mut terms: Terms = Vec::new();
    for &(pin, value) in &row.pins {
        let line = pins[pin];
        match constant(model, line) {
            Some(held) if held != value => return None,
            Some(_) => {}
            None => terms.push((line, value)),
        }
    }
    terms.sort_unstable();
    terms.dedup();
    let both = terms.iter().any(|&(line, value)| terms.contains(&(line, !value)));
    (!both || !model.cell_of(gate).one_wire).then_some(terms)
}

/// What the rows that set a gate's output to 0 and to 1 ask.
fn rows(model: &Model, gate: usize) -> [Vec<Terms>; 2] {
    let groups = &model.cell_of(gate).control[0];
    [0, 1].map(|value| groups.get(value).into_iter().flatten().filter_map(|row| terms(model, gate, row)).collect())
}

fn names(row: &Terms, line: usize, value: bool) -> bool {
    row.contains(&(line, value)) && !row.contains(&(line, !value))
}

/// The line that a gate only hands on, as it is or inverted: every row asks for it, and for one value of it each way.
fn handed_on(model: &Model, gate: usize) -> Option<usize> {
    let [zero, one] = rows(model, gate);
    let first = zero.first()?;
    one.first()?;
    let follows = |&(line, value): &(usize, bool)| {
        zero.iter().all(|row| names(row, line, value)) && one.iter().all(|row| names(row, line, !value))
    };
    first.iter().copied().find(follows).map(|(line, _)| line)
}

/// The lines that a register takes as they are, or inverted: a row for 0 and one for 1 part in that line, while what else
/// one of them asks the other asks too, the clock's edge among it.
fn taken(model: &Model, gate: usize) -> Vec<usize> {
    let [zero, one] = rows(model, gate);
    let mut lines = Vec::new();
    for (low, high) in zero.iter().flat_map(|low| one.iter().map(move |high| (low, high))) {
        for &(line, value) in low {
            if names(low, line, value) && names(high, line, !value) && part_in(low, high, line) {
                lines.push(line);
            }
        }
    }
    lines.sort_unstable();
    lines.dedup();
    let data = lines.iter().copied().filter(|&line| !is_reset(model, gate, line)).collect::<Vec<_>>();
    // Rows cannot tell a synchronous reset from data; where nothing else is left, all of them count.
    if data.is_empty() {
        lines
    } else {
        data
    }
}

fn part_in(low: &Terms, high: &Terms, line: usize) -> bool {
    let rest = |row: &Terms| row.iter().copied().filter(|&(other, _)| other != line).collect::<Terms>();
    let (low, high) = (rest(low), rest(high));
    let edges =
        |row: &Terms| row.iter().copied().filter(|&(other, value)| row.contains(&(other, !value))).collect::<Terms>();
    let inside = |row: &Terms, of: &Terms| row.iter().all(|term| of.contains(term));
    edges(&low) == edges(&high) && (inside(&low, &high) || inside(&high, &low))
}

/// Whether every pin that reads a line is called a reset or a set.
fn is_reset(model: &Model, gate: usize, line: usize) -> bool {
    const BEGIN: [&str; 5] = ["R", "CL", "SET", "SR", "PRE"];
    let pins = &model.gates[gate].pins;
    (0..pins.len()).filter(|&pin| pins[pin] == line).all(|pin| {
        let name = model.pin_name(gate, pin).to_ascii_uppercase();
        BEGIN.iter().any(|word| name.starts_with(word)) || name == "S" || name == "SN"
    })
}

fn gate_of(model: &Model, line: usize) -> Option<usize> {
    match model.driver[line] {
        Some(Driver::Gate(gate)) => Some(gate),
        _ => None,
    }
}

fn is_register(model: &Model, line: usize) -> bool {
    model.name(line).kind == LineKind::Register
}

/// The lines that carry a protected value: those of the protected line's own time first, then what its registers take.
fn carried(model: &Model, protected: &[usize]) -> Vec<Option<Carried>> {
    let mut carried = vec![None; model.driver.len()];
    let mut front: VecDeque<(usize, Carried)> =
        protected.iter().map(|&of| (of, Carried { of, registers: 0 })).collect();
    let mut earlier = VecDeque::new();
    while let Some((line, how)) = front.pop_front() {
        if carried[line].is_none() {
            carried[line] = Some(how);
            front.extend(beside(model, line, how.of).into_iter().map(|other| (other, how)));
            if let Some(gate) = gate_of(model, line).filter(|_| is_register(model, line) && how.registers == 0) {
                let how = Carried { registers: 1, ..how };
                earlier.extend(taken(model, gate).into_iter().map(|data| (data, how)));
            }
        }
        if front.is_empty() {
            front.append(&mut earlier);
        }
    }
    carried
}

/// What has a line's value at the same time: the line that its gate hands on, a register with the same pins, and, but for
/// the protected line itself, whose readers are CO's to judge, what gates hand on of it.
fn beside(model: &Model, line: usize, protected: usize) -> Vec<usize> {
    let mut lines = Vec::new();
    if let Some(gate) = gate_of(model, line) {
        if is_register(model, line) {
            let pins = &model.gates[gate].pins;
            let twin = |other: &usize| *other != gate && model.gates[*other].pins == *pins;
            let twins = pins.first().into_iter().flat_map(|&pin| &model.readers[pin]).map(|&(other, _)| other);
            let twins = twins.filter(twin).map(|other| model.gates[other].line);
            lines.extend(twins.filter(|&other| is_register(model, other)));
        } else {
            lines.extend(handed_on(model, gate));
        }
    }
    if line != protected {
        let readers = model.readers[line].iter().map(|&(gate, _)| gate);
        let handed = readers.filter(|&gate| !is_register(model, model.gates[gate].line));
        lines.extend(handed.filter(|&gate| handed_on(model, gate) == Some(line)).map(|gate| model.gates[gate].line));
    }
    lines
}

/// The lines that a line's gate reads, but for the clock, which is no way for data.
fn read_by(model: &Model, line: usize) -> Vec<usize> {
    let Some(gate) = gate_of(model, line) else { return Vec::new() };
    let cell = model.cell_of(gate);
    let pins = model.gates[gate].pins.iter().enumerate();
    pins.filter(|&(pin, _)| !cell.clocks(pin)).map(|(_, &line)| line).collect()
}

/// The least registers, and then gates, on a way to a protected line. A part belongs to its gate.
fn nearest(model: &Model, protected: &[usize]) -> Vec<Option<(usize, usize, usize)>> {
    let mut nearest = vec![None; model.driver.len()];
    let mut front: BinaryHeap<_> = protected.iter().map(|&line| Reverse((0, 0, line, line))).collect();
    while let Some(Reverse((registers, gates, to, line))) = front.pop() {
        if nearest[line].is_some() {
            continue;
        }
        nearest[line] = Some((to, registers, gates));
        let (registers, gates) = match model.name(line).kind {
            LineKind::Register => (registers + 1, gates),
            LineKind::Part => (registers, gates),
            _ => (registers, gates + 1),
        };
        front.extend(read_by(model, line).into_iter().map(|from| Reverse((registers, gates, to, from))));
    }
    nearest
}

/// The least real gates and registers before what carries a protected value.
fn steps(model: &Model, carried: &[Option<Carried>]) -> Vec<Option<usize>> {
    let mut steps = vec![None; model.driver.len()];
    let begun = (0..carried.len()).filter(|&line| carried[line].is_some());
    let mut front: VecDeque<(usize, usize)> = begun.map(|line| (line, 0)).collect();
    while let Some((line, own)) = front.pop_front() {
        if steps[line].is_some() {
            continue;
        }
        steps[line] = Some(own);
        let hands = |line: usize| {
            gate_of(model, line).is_some_and(|gate| !is_register(model, line) && handed_on(model, gate).is_some())
        };
        let handed = model.readers[line]
            .iter()
            .any(|&(gate, _)| !is_register(model, model.gates[gate].line) && handed_on(model, gate) == Some(line));
        // A part belongs to its gate; one that an inverter only hands on is that gate.
        let free = hands(line) || model.name(line).kind == LineKind::Part && !handed;
        for from in read_by(model, line) {
            if free {
                front.push_front((from, own));
            } else {
                front.push_back((from, own + 1));
            }
        }
    }
    steps
}

/// What the page finds the same from, whichever nets are protected there.
pub struct Feeding {
    /// What the line's gate reads, but for the clock.
    pub reads: Vec<usize>,
    /// What has its value at the same time: the line that its gate hands on, or registers with the same pins.
    pub beside: Vec<usize>,
    /// What its register takes.
    pub takes: Vec<usize>,
}

pub fn feeding(model: &Model, line: usize) -> Feeding {
    let register = gate_of(model, line).filter(|_| is_register(model, line));
    Feeding {
        reads: read_by(model, line),
        beside: beside(model, line, line),
        takes: register.map_or(Vec::new(), |gate| taken(model, gate)),
    }
}

#[cfg(test)]
mod tests {
    use super::*;
    use crate::ask::archive;
    use crate::read::names::Name;

    /// D, clock, synchronous reset, active at 0; and a scan register (D SE SI CK) and a latch (D E).
    const REGISTERS: &str = "Name,DFF,2\nCC,26,16\nCO,206,246,M,316\nSC,27,17\nSO,207,247,M,317\nEnd\n\
        Name,SDFF,3\nCC,130,M,34,72\nCO,1032,1330,M,1234,M,1472,1070\nSC,131,M,35,73\nSO,1033,1331,M,1235,M,1473,1071\nEnd\n\
        Name,DLATCH,2\nCC,22,12\nCO,202,262,M,312\nSC,23,13\nSO,203,263,M,313\nEnd\n";

    fn model(net: &str, names: Vec<Name>) -> Model {
        let mut lib = REGISTERS.to_string();
        for (name, pins, bits) in [
            ("NOT", 1, "10"),
            ("BUF", 1, "01"),
            ("NAND2", 2, "1110"),
            ("XOR2", 2, "0110"),
            ("MUX2", 3, "00110101"),
            ("TIE0", 0, "0"),
            ("TIE1", 0, "1"),
        ] {
            lib += &archive::cell(name, pins, bits).unwrap();
        }
        let model = Model::new("t", lib.into_bytes(), net.as_bytes().to_vec(), names);
        model.unwrap_or_else(|refusal| panic!("{refusal:?}"))
    }

    fn carrying(net: &str, protected: usize) -> Vec<usize> {
        let model = model(net, Vec::new());
        let upstream = Upstream::new(&model, &[protected]);
        model.lines().filter(|&line| upstream.carries(line)).collect()
    }

    #[test]
    fn what_only_hands_on_carries() {
        // 9 is the register of 8, which is BUF(NOT(5)), 5 is XOR2(1, 2); 10 is another inverter of 5.
        let chain = "input,1\ninput,2\ninput,3\ngate,XOR2,5,1,2\ngate,NOT,6,5\ngate,BUF,8,6\ngate,DFF,9,8,3\n\
                     gate,NOT,10,5\ngate,XOR2,11,10,9\noutput,11\n";
        assert_eq!(carrying(chain, 9), [5, 6, 8, 9, 10]);
        // What reads the protected line itself is CO's to judge.
        assert_eq!(carrying(chain, 5), [5]);
        // Both pins on one line, a pin at a constant, a select at a constant.
        let held = "input,1\ninput,2\ngate,TIE0,3\ngate,TIE1,4\ngate,NAND2,5,1,1\ngate,NAND2,6,5,4\n\
                    gate,XOR2,7,6,3\ngate,MUX2,8,3,7,2\noutput,8\n";
        assert_eq!(carrying(held, 8), [1, 5, 6, 7, 8]);
        // A real gate carries nothing of one pin, a multiplexer neither.
        for gate in ["NAND2,4,1,2", "XOR2,4,1,2", "MUX2,4,1,2,3"] {
            let net = format!("input,1\ninput,2\ninput,3\ngate,{gate}\noutput,4\n");
            assert_eq!(carrying(&net, 4), [4], "{gate}");
        }
    }

    #[test]
    fn registers_take_their_data_alone() {
        // A second register behind the first is one too many.
        let two = "input,1\ninput,2\ngate,DFF,3,1,2\ngate,DFF,4,3,2\noutput,4\n";
        assert_eq!(carrying(two, 4), [3, 4]);
        let latch = "input,1\ninput,2\ngate,DLATCH,3,1,2\noutput,3\n";
        assert_eq!(carrying(latch, 3), [1, 3]);
        // The other output of a register, and what a buffer hands on of it.
        let twin = "input,1\ninput,2\ngate,DFF,3,1,2\ngate,DFF,4,1,2\ngate,NOT,5,4\noutput,5\noutput,3\n";
        assert_eq!(carrying(twin, 3), [1, 3, 4, 5]);
    }

    #[test]
    fn a_synchronous_reset_is_told_by_its_name() {
        let net = "input,1\ninput,2\ninput,3\ngate,SDFF,4,1,2,3\noutput,4\n";
        assert_eq!(carrying(net, 4), [1, 3, 4]);
        let mut named = model(net, Vec::new()).names;
        named[3].pins = ["D", "C", "RN"].map(str::to_string).to_vec();
        let model = model(net, named);
        let upstream = Upstream::new(&model, &[4]);
        assert!(upstream.carries(1) && !upstream.carries(3));
        // It is upstream all the same; the clock is not.
        assert_eq!(upstream.nearest(3), Some((4, 1, 0)));
        assert_eq!(upstream.nearest(2), None);
        assert_eq!(upstream.told(&model, 3).unwrap(), "upstream of 4: 1 register, 0 gates");
    }

    #[test]
    fn distances_and_depths() {
        let net = "input,1\ninput,2\ninput,3\ngate,NAND2,4,1,2\ngate,NOT,5,4\ngate,DFF,6,5,3\ngate,XOR2,7,6,2\n\
                   gate,DFF,8,7,3\noutput,8\n";
        let model = model(net, Vec::new());
        let upstream = Upstream::new(&model, &[8]);
        let all: Vec<_> = model.lines().map(|line| upstream.nearest(line)).collect();
        let of = |registers, gates| Some((8, registers, gates));
        assert_eq!(all, [of(2, 3), of(1, 1), None, of(2, 2), of(2, 1), of(1, 1), of(1, 0), None]);
        let within = |steps: usize| model.lines().filter(|&line| upstream.within(line, steps)).collect::<Vec<_>>();
        assert_eq!(within(0), [7, 8]);
        assert_eq!(within(1), [2, 6, 7, 8]);
        assert_eq!(within(2), [2, 4, 5, 6, 7, 8]);
        assert_eq!(within(3), [1, 2, 4, 5, 6, 7, 8]);
        assert_eq!(reached(&model, 1, &[6, 8]), 2);
        assert_eq!(upstream.carries_told(&model, 7).unwrap(), "carries 8, one register earlier");
    }
}
